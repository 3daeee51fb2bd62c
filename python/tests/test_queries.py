"""Rules that ask whether a buffer is busy (request 2026-06): queries, error flags, what is told of them, by both engines."""
import copy
import itertools
import json
import pickle
import unittest
from array import array

import jirvuntsag as jv
from jirvuntsag import calls, packer
from jirvuntsag.matches import first_miss
from jirvuntsag.rows import ROW_WORDS, Row
from jirvuntsag.shape import fields_of

from . import EXAMPLES, RETRY, ROOT
from .packing import STATES, Rule, pack
from .test_positions import refusal, with_fields

RETRY_MODEL = jv.Model.load(EXAMPLES / "retry.model")
LINES = ["50 fire ask", "250 wait 200", "300 fire ask-otherwise", "400 wait 100", "450 fire dial"]
NIL = (0,)
ENGINES = False, True

# rule 0 asks whether buffer 1 is busy, rule 1 whether it is free, rule 2 whether it is in error; none has a test
ASKING = [Rule([], [], queries=[(1, state)]) for state in STATES]


def small(rules, opening=((1, 5), NIL), facts=(), failure=200, version=2):
    """A small model by numbers, whose type 1 has one slot."""
    return jv.Model(pack([1], opening, facts, rules, failure, version))


def flags(run):
    """The delay of each buffer, and whether it is in error."""
    return [(buffer.delay, buffer.error) for buffer in run.buffers.values()]


class Matching(unittest.TestCase):
    """Which queries hold, and what is said of those that do not."""

    def holding(self, delay, error, *chunk):
        """What holds of a buffer that is put so: both engines say the same, and why the others do not hold."""
        told = []
        for fresh in ENGINES:
            run = small(ASKING).open(fresh=fresh)
            run.put(1, *(chunk or NIL), delay=delay, error=error)
            told.append([STATES[match.rule] for match in run.matching()])
            misses = [run.why_not(rule) for rule in range(3)]
            self.assertEqual([state for state, miss in zip(STATES, misses) if miss is None], told[-1])
            self.assertTrue(all(miss is None or miss[:2] == (1, "query") and miss.found == delay for miss in misses))
        self.assertEqual(told[0], told[1])
        return told[0]

    def test_each_kind_on_both_sides_of_its_line(self):
        self.assertEqual(self.holding(0, False), ["free"])
        self.assertEqual(self.holding(1, False), ["busy"])
        self.assertEqual(self.holding(65_535, False), ["busy"])
        self.assertEqual(self.holding(0, True), ["free", "error"])
        self.assertEqual(self.holding(1, True), ["busy"])

    def test_what_the_buffer_holds_is_nothing_to_them(self):
        self.assertEqual(self.holding(0, False, 1, {0: 7}), ["free"])
        self.assertEqual(self.holding(80, False, 1, {0: 7}), ["busy"])

    def test_the_query_that_fails_is_named(self):
        run = small(ASKING).open()
        self.assertEqual(str(run.why_not(0)), "?1> state busy fails: nothing is pending there")
        self.assertEqual(str(run.why_not(2)), "?1> state error fails: its error flag is not set")
        run.put(1, 0, delay=70, error=True)
        self.assertEqual(str(run.why_not(1)), "?1> state free fails: it is pending for another 70 ms")
        self.assertEqual(str(run.why_not(2)), "?1> state error fails: it is pending for another 70 ms")
        self.assertEqual(run.why_not(2), jv.Miss(1, "query", None, "error", 70))

    def test_a_test_that_fails_is_named_before_a_query(self):
        rule = Rule([(0, 1, {0: 9})], [], queries=[(0, "busy"), (1, "error")])
        run = small([rule]).open()
        self.assertEqual(run.why_not(0), jv.Miss(0, "slot", 0, 9, 5))
        run.put(0, 1, {0: 9})
        self.assertEqual(run.why_not(0), jv.Miss(0, "query", None, "busy", 0))
        run.put(0, 1, {0: 9}, delay=3)
        self.assertEqual(run.why_not(0), jv.Miss(0, "pending", None, None, 3))

    def test_all_queries_must_hold_and_all_tests(self):
        rule = Rule([(0, 1, {0: "v0"})], [], queries=[(0, "free"), (1, "error")])
        for delay, error, slot in itertools.product((0, 9), (False, True), (5, 0)):
            run = small([rule]).open()
            run.put(0, 1, {0: slot})
            run.put(1, 0, delay=delay, error=error)
            matches = [match.values for match in run.matching()]
            self.assertEqual(matches, [{0: 5}] if (delay, error, slot) == (0, True, 5) else [])
            self.assertEqual(first_miss(run.model, 0, run.words) is None, bool(matches))

    def test_a_refresh_counts_rules_that_test_or_query(self):
        rules = [Rule([(0, 1, {})], []), Rule([], [], queries=[(1, "free")]), Rule([(0, 1, {})], [], queries=[(1, "busy")])]
        model = small(rules)
        state, table = model.start, [9] * 27
        counted = [calls.refresh_table(model.image, state, mark, table) for mark in range(4)]
        self.assertEqual([answer[:2] for answer in counted], [(0, 0), (0, 2), (0, 2), (0, 3)])
        self.assertEqual(list(counted[2].table), [*[9] * 9, 1, *[0] * 8, *[0] * 9])


class Flags(unittest.TestCase):
    """When a flag is set, when it goes, and what leaves it."""

    def after(self, deed, facts=(), version=2, steps=1):
        """Buffer 1 in error after a rule that does something to it, or nothing: delay and flag, the same by both engines."""
        told = []
        for fresh in ENGINES:
            rule = Rule([(0, 1, {0: 5}), (1, 0, {})], [(0, "modify", {0: 6}), *([deed] if deed else [])])
            run = small([rule], facts=facts, version=version).open(fresh=fresh)
            run.put(1, 0, error=True)
            run.run(steps)
            told.append(flags(run)[1])
        self.assertEqual(told[0], told[1])
        return told[0]

    def test_actions_in_both_versions(self):
        for version in 1, 2:
            with self.subTest(version=version):
                self.assertEqual(self.after((1, "request", 1, {0: 8}), version=version), (200, True))
                found = self.after((1, "request", 1, {0: 8}), [((1, 8), 0, 70)], version)
                self.assertEqual(found, (70, False))
                self.assertEqual(self.after((1, "clear"), version=version), (0, False))
                self.assertEqual(self.after((1, "modify", {}), version=version), (0, False))

    def test_what_does_nothing_to_the_buffer_leaves_it(self):
        self.assertEqual(self.after(None), (0, True))
        self.assertEqual(self.after((1, "request", 1, {}), steps=2), (0, True))

    def test_a_failure_is_set_at_once_and_seen_when_it_is_visible(self):
        ask = Rule([(0, 1, {0: 5})], [(0, "modify", {0: 6}), (1, "request", 1, {0: 8})])
        for fresh, failure in itertools.product(ENGINES, (0, 50, 51)):
            run = small([ask, ASKING[2]], failure=failure).open(fresh=fresh)
            run.step()
            self.assertEqual(flags(run)[1], (failure, True))
            self.assertEqual([match.rule for match in run.matching()], [] if failure else [1])

    def test_the_opening_is_clear(self):
        self.assertEqual(flags(small(ASKING).open()), [(0, False)] * 2)
        self.assertEqual({buffer.error for buffer in RETRY_MODEL.opening.values()}, {False})

    def test_states_that_are_not_well_formed(self):
        for version, fresh in itertools.product((1, 2), ENGINES):
            model = small([Rule([(0, 1, {})], [])], version=version)
            for flag, words in (11, 1), (22, 2), (33, 1), (88, 1), (22, 2**32 - 1):
                state = list(model.start)
                state[flag] = words
                with self.subTest(flag=flag), self.assertRaises(jv.Refused) as caught:
                    model.at(state, fresh=fresh)
                self.assertEqual(caught.exception.number, 6)
                self.assertEqual(calls.run_fresh(model.image, state, 5), (6, 0, array("I", state), 0))
            state = list(model.start)
            state[22] = 1
            self.assertTrue(model.at(state, fresh=fresh).buffers[1].error)


class States(unittest.TestCase):
    """Flags in states as plain data and as words, and put in from outside."""

    def failed(self, fresh=False):
        """The caller whose request has failed."""
        run = RETRY_MODEL.open(fresh=fresh)
        run.run(2)
        return run

    def test_buffers_show_it(self):
        run = self.failed()
        self.assertEqual(run.buffers["retrieval"], jv.Buffer("chunk", {}, 0, True))
        self.assertEqual(str(run.buffers["retrieval"]), "chunk error")
        self.assertEqual(jv.Buffer("chunk", {}), jv.Buffer("chunk", {}, 0, False))

    def test_a_state_goes_through_json(self):
        for fresh in ENGINES:
            run = self.failed(fresh)
            kept = json.loads(json.dumps(run.state))
            self.assertEqual(kept["buffers"]["retrieval"], {"type": "chunk", "slots": {}, "delay": 0, "error": True})
            again = RETRY_MODEL.at(kept, fresh=fresh)
            self.assertEqual((again.words, again.table), (run.words, run.table))
            self.assertEqual([*map(str, again.steps())], LINES[2:])

    def test_a_state_that_says_no_flag_has_it_clear(self):
        state = self.failed().state
        del state["buffers"]["retrieval"]["error"]
        run = RETRY_MODEL.at(state)
        self.assertEqual((run.buffers["retrieval"].error, run.step()), (False, None))

    def test_what_is_put_is_asked(self):
        for fresh in ENGINES:
            run = self.failed(fresh)
            run.put("retrieval", "chunk")
            self.assertEqual((run.matching(), run.step()), ([], None))
            run.put("retrieval", "chunk", delay=30, error=True)
            self.assertEqual([str(event) for event in run.steps(2)], ["280 wait 30", "330 fire ask-otherwise"])
            run = self.failed(fresh)
            run.clear("retrieval")
            self.assertEqual((run.buffers["retrieval"].error, run.matching()), (False, []))

    def test_what_cannot_be_put(self):
        run = self.failed()
        before = run.state
        with self.assertRaises(jv.Refused) as caught:
            run.put("retrieval", "number", {"person": "Ann"}, error=True)
        self.assertEqual(caught.exception.number, 6)
        for flag in 1, None, "error":
            with self.assertRaisesRegex(TypeError, "an error flag is True or False, not"):
                run.put("retrieval", "chunk", error=flag)
        with self.assertRaisesRegex(ValueError, "buffer 'retrieval' has no 'flag'; it has delay, error, slots, type"):
            run.state = {"clock": 0, "buffers": {"retrieval": {"type": "chunk", "flag": True}}}
        with self.assertRaisesRegex(ValueError, "opens before anything is asked: it is not in error"):
            RETRY_MODEL.replace(opening={"retrieval": jv.Buffer("chunk", {}, 0, True)})
        with self.assertRaisesRegex(ValueError, "opens before anything is asked: it is not in error"):
            jv.Model.build({"t": []}, {"goal": jv.Buffer("chunk", {}, 0, True)})
        self.assertEqual(run.state, before)

    def test_copies_and_pickles(self):
        for fresh in ENGINES:
            run = self.failed(fresh)
            for other in run.copy(), copy.deepcopy(run), pickle.loads(pickle.dumps(run)), run.copy(fresh=not fresh):
                self.assertEqual((other.words, other.table), (run.words, run.table))
                self.assertEqual([*map(str, other.steps())], LINES[2:])

    def test_words_from_before_have_clear_flags(self):
        run = self.failed()
        old = [word for at, word in enumerate(run.words) if at == 0 or at % 11]
        self.assertEqual((len(old), len(run.words)), (81, 89))
        clear = [0 if at and at % 11 == 0 else word for at, word in enumerate(run.words)]
        self.assertEqual(jv.Run(RETRY_MODEL, old).words, tuple(clear))
        row = Row(None, RETRY_MODEL, array("I", [9, 2, 0, *old]), 0, array("I"))
        self.assertEqual((row.made, row.clock, row.buffers["retrieval"]), (2, 250, jv.Buffer("chunk", {})))
        self.assertEqual(len(pickle.loads(pickle.dumps(row))._words), ROW_WORDS)


class Models(unittest.TestCase):
    """Texts, images and models made in Python."""

    def test_rules_are_read_with_their_queries(self):
        rule = RETRY_MODEL.rule("ask-otherwise")
        self.assertEqual(rule.tests, ("=goal> call person ?who step asked", "?retrieval> state error"))
        self.assertEqual(jv.Model.load(RETRY).rule(0).tests[1], "?1> state free")
        self.assertEqual([len(rule.queries) for rule in RETRY_MODEL.shape.rules], [1, 1, 1, 0])

    def test_a_model_from_nothing(self):
        ask = jv.Rule("ask", ["?side> state free", "=goal> t a ?x"], ["-goal>", "+side> t a ?x"])
        hum = jv.Rule("hum", ["?side> state busy"], utility=-1)
        model = jv.Model.build({"t": ["a"]}, {"goal": jv.Buffer("t", {"a": 1}), "side": None}, [], [ask, hum], 100)
        self.assertEqual([*map(str, model.open().steps())], ["50 fire ask", "100 fire hum", "150 fire hum"])
        self.assertEqual((model.image[0], model.shape.version), (2, 2))

    def test_an_image_has_version_1_where_it_has_no_query(self):
        for path in EXAMPLES.glob("*.model"):
            model = jv.Model.load(path)
            asks = any(rule.queries for rule in model.shape.rules)
            self.assertEqual((model.image[0], asks), (2, True) if path.stem == "retry" else (1, False))

    def test_a_version_is_kept(self):
        for version in 1, 2:
            model = small([Rule([(0, 1, {})], [])], version=version)
            self.assertEqual(packer.pack_fields(fields_of(model.shape)), model.image)
            self.assertEqual(model.replace(failure=9).image[0], version)
            self.assertEqual(model.replace().image, model.image)

    def test_replaced_facts_and_rules_that_stay(self):
        alone = RETRY_MODEL.replace(facts=[])
        lines = [*LINES[:3], "500 wait 200", "550 fire give-up"]
        for fresh in ENGINES:
            self.assertEqual([*map(str, alone.open(fresh=fresh).steps())], lines)
        self.assertEqual(alone.rule("give-up"), RETRY_MODEL.rule("give-up"))

    def test_texts_that_are_refused(self):
        head = "type t a\nbuffer goal t\nbuffer side\nrule r\n"
        for lines, words in [
            ("?side> buffer empty", "an empty one with '=side> chunk'"),
            ("?side> - state busy", "write 'state free'"),
            ("?side> state full", "'full' is no state of a buffer: it is busy, free or error"),
            ("?side> state free\n?side> state error", r"twice, first in line 5: one says it all.* \[13: "),
            ("?side>\n==>", "nothing is asked of '\\?side>': write 'state busy'"),
            ("?side> state free\n==>\n=side> a 1", "does not test it: a query is no test, add '=side> TYPE' \\[13: "),
            ("==>", "has no test and no query \\[3: a rule must have a test or a query"),
        ]:
            with self.subTest(lines=lines), self.assertRaisesRegex(jv.NotPacked, words):
                jv.Model.from_text(f"{head}{lines}\n==>\n")


class Refusals(unittest.TestCase):
    """Where an image with queries is bad: the number, the position, and the packer's words."""

    # one type without slots, two buffers; a rule that tests buffer 0, asks for an error of buffer 1, and clears buffer 0
    IMAGE = pack([0], [(1,), NIL], rules=[Rule([(0, 1, {})], [(0, "clear")], queries=[(1, "error")])], failure=0, version=2)

    def test_it_is_the_image_of_the_page(self):
        page = (ROOT / "docs" / "FORMAT.md").read_text(encoding="utf-8")
        self.assertIn(f"sixteen bytes, `{self.IMAGE.hex(' ')}`", page)
        self.assertEqual(jv.Model(self.IMAGE).shape.rules[0].queries, ((1, 2),))

    def test_its_fields(self):
        for what, fields, number, position in [
            ("version", [(0, 8, 4)], 3, 0),
            ("more queries than buffers", [(114, 4, 3)], 3, 114),
            ("buffer of a query", [(118, 3, 2)], 13, 118),
            ("kind of a query", [(121, 2, 3)], 3, 121),
            ("a variable in no test, before the queries", [(93, 4, 1), (114, 4, 15)], 12, 114),
            ("neither a test nor a query", [(85, 4, 0)], 3, 97),
            ("no test in version 1", [(0, 8, 1), (85, 4, 0)], 3, 85),
            ("a buffer that is modified and only queried", [(123, 3, 1), (126, 2, 0)], 13, 126),
        ]:
            refused = refusal(with_fields(self.IMAGE, *fields))
            with self.subTest(what=what):
                self.assertEqual((refused.number, refused.position), (number, position))
                self.assertNotEqual(refused.words, refused.meaning)

    def test_queries_that_do_not_rise(self):
        rule = Rule([(0, 1, {})], [], queries=[(1, "free"), (1, "error")])
        refused = refusal(pack([0], [(1,), NIL], rules=[rule], version=2))
        # the number of queries stands at 114, the second query begins nine bits later
        self.assertEqual((refused.number, refused.position), (13, 123))
        self.assertIn("the buffer of query 1 of rule 0 is 1, but the one before it is 1", refused.words)

    def test_images_that_end_within_queries(self):
        for end, position in (14, 106), (15, 118):
            refused = refusal(self.IMAGE[:end])
            self.assertEqual((refused.number, refused.position), (2, position))

    def test_a_rule_that_only_asks(self):
        model = small([Rule([], [(0, "clear")], queries=[(0, "free"), (1, "error")])])
        run = model.open()
        self.assertEqual((run.table, run.step()), ([(0,) * 9], None))
        run.put(1, 0, error=True)
        self.assertEqual((run.table, str(run.step())), ([(1, *[0] * 8)], "50 fire 0"))


class Many(unittest.TestCase):
    """Sweeps."""

    def test_rows_go_on_where_a_request_has_failed(self):
        run = RETRY_MODEL.open()
        run.run(2)
        for fresh in ENGINES:
            rows = jv.sweep([RETRY_MODEL, run, (RETRY_MODEL, {"retrieval": None})], events=True, fresh=fresh)
            self.assertEqual([[*map(str, row.events)] for row in rows], [LINES, LINES[2:], LINES])
            self.assertEqual({row.state["buffers"]["goal"]["slots"]["digits"] for row in rows}, {"5551"})
            (cut,) = jv.sweep([RETRY_MODEL], steps=1, fresh=fresh)
            self.assertEqual(cut.as_dict()["retrieval"], "chunk error in 200 ms")
            self.assertEqual(cut.state["buffers"]["retrieval"]["error"], True)
            self.assertEqual([*map(str, cut.model.at(cut.state).steps())], LINES[1:])

    def test_openings_of_items_may_be_in_error(self):
        chunks = {"goal": {"type": "call", "slots": {"person": "Ann", "step": "asked"}}}
        failed = {**chunks, "retrieval": jv.Buffer("chunk", {}, 0, True)}
        rows = jv.sweep([(RETRY_MODEL, chunks), (RETRY_MODEL, failed)])
        self.assertEqual([(row.made, row.clock) for row in rows], [(0, 0), (3, 200)])


class Told(unittest.TestCase):
    """Runs in words and pictures."""

    def test_the_example(self):
        for fresh in ENGINES:
            self.assertEqual([*map(str, RETRY_MODEL.open(fresh=fresh).steps())], LINES)
        told = jv.explain(RETRY_MODEL)
        self.assertIn("ask has fired\n    goal       call person=Ann place=work step=asked digits=nil\n"
                      "    retrieval  empty (error), in 200 ms: no fact fits the request\n", told)  # fmt: skip
        self.assertIn("at 250 ms  after a wait of 200 ms\n    retrieval  empty (error)\n", told)
        self.assertIn("    retrieval  number person=Ann place=home digits=5551, in 100 ms\n", told)
        self.assertIn("    give-up        does not match: step of goal is dialled, not asked-otherwise (it has", told)

    def test_a_flag_that_goes_is_told(self):
        told = jv.explain(RETRY_MODEL.replace(facts=[]))
        self.assertIn("at 550 ms  give-up has fired\n    goal       call person=Ann place=work step=gave-up digits=nil\n"
                      "    retrieval  empty\n", told)  # fmt: skip

    def test_a_query_that_fails_at_the_end(self):
        told = jv.explain(RETRY_MODEL, 1)
        why = "?retrieval> state error fails: it is pending for another 200 ms (it has not fired)"
        self.assertIn(f"    ask-otherwise  does not match: {why}\n", told)

    def test_the_page(self):
        page = (ROOT / "docs" / "MODELS.md").read_text(encoding="utf-8")
        run = jv.Model.from_text(page.split("\n```queries\n")[1].split("```")[0]).open()
        run.step()
        self.assertIn(f"`give-up` does not match: `{run.why_not('give-up')}`.", page)
        fired = [(event.clock, event.name) for event in run.steps()]
        self.assertEqual(fired, [*((clock, "hum") for clock in (100, 150, 200, 250)), (300, "give-up")])
        self.assertEqual(run.buffers["goal"].slots["step"], "gave-up")
