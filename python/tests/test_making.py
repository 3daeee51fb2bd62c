"""Models from Python: what one holds, others made from it, and one from nothing."""
import pickle
import unittest

from jirvuntsag import Buffer, Fact, Model, NotPacked, Rule, symbol

from . import COUNTING, EXAMPLES
from .test_packer import MODELS


def counting():
    """The counting model with its names."""
    return Model.load(EXAMPLES / "counting.model")


class Reading(unittest.TestCase):
    """What a model holds."""

    def test_facts_openings_utilities_and_rules(self):
        model = counting()
        self.assertEqual(model.facts[0], Fact("follows", {"first": "1", "second": "2"}, 10, 100))
        goal = Buffer("count", {"current": "1", "target": "3"})
        self.assertEqual(model.opening, {"goal": goal, "retrieval": Buffer("chunk", {})})
        self.assertEqual((model.utilities, model.failure), ({"start": 0, "go-on": 0, "stop": 1000}, 200))
        self.assertEqual(model.rule("go-on").actions, ("=goal> current ?next", "+retrieval> follows first ?next"))

    def test_without_names_all_goes_by_numbers(self):
        model = Model.load(COUNTING)
        self.assertEqual(model.facts[0], Fact(1, {0: 1, 1: 2}, 10, 100))
        self.assertEqual(model.rule(2), Rule(2, ("=0> 2 0 ?0 1 ?0",), ("-0>",), 1000))

    def test_what_is_read_builds_the_same_model(self):
        for path in MODELS:
            model = Model.load(path)
            types = {name: slots for name, slots in model.types.items() if name != "chunk"}
            opening = {name: None if chunk.type == "chunk" else _without_nil(chunk) for name, chunk in model.opening.items()}
            facts = [_without_nil(fact) for fact in model.facts]
            built = Model.build(types, opening, facts, map(model.rule, model.rules), model.failure)
            self.assertEqual((built.image, built.names), (model.image, model.names), path.name)


def _without_nil(chunk):
    """A chunk whose slots that hold nil are not named, as in most texts."""
    return chunk._replace(slots={slot: value for slot, value in chunk.slots.items() if value != "nil"})


class Replacing(unittest.TestCase):
    """A new model beside the old one."""

    def test_latencies_and_activations(self):
        model = counting()
        new = model.replace(facts=[fact._replace(latency=500, activation=7) for fact in model.facts])
        self.assertEqual({(fact.activation, fact.latency) for fact in new.facts}, {(7, 500)})
        self.assertEqual([str(event) for event in new.open().steps(2)], ["50 fire start", "550 wait 500"])
        self.assertEqual((new.rules, model.facts[0].latency), (model.rules, 100))

    def test_facts_that_come_and_go(self):
        model = counting()
        one = model.replace(facts=model.facts[:1]).open()
        lines = ["50 fire start", "150 wait 100", "200 fire go-on", "400 wait 200"]
        self.assertEqual([str(event) for event in one.steps(4)], lines)
        self.assertEqual(len(model.replace(facts=[*model.facts, Fact("follows", {"first": 3, "second": 1})]).facts), 3)
        self.assertEqual(model.replace(facts=[]).facts, [])

    def test_openings(self):
        model = counting()
        new = model.replace(opening={"goal": Buffer("count", {"current": 2, "target": 3})})
        self.assertEqual(str(new.open().run()), "end 9 5")
        self.assertEqual(model.replace(opening={"goal": None}).open().run().made, 0)

    def test_utilities_and_the_failure_latency(self):
        new = counting().replace(utilities={"stop": -5, "start": 32_767}, failure=65_535)
        self.assertEqual((new.utilities, new.failure), ({"start": 32_767, "go-on": 0, "stop": -5}, 65_535))

    def test_nothing_replaced_is_the_same_model(self):
        for path in MODELS:
            model = Model.load(path)
            new = model.replace(facts=model.facts, opening=model.opening, utilities=model.utilities, failure=model.failure)
            self.assertEqual((new.image, new.names), (model.image, model.names))

    def test_what_cannot_be_replaced(self):
        model = counting()
        fact = model.facts[0]
        cases = [(TypeError, "fact 0 is a int", {"facts": [1]}), (ValueError, "at most 512 facts", {"facts": [fact] * 513})]
        cases += [(TypeError, "latency of fact 0 must be a whole number", {"facts": [fact._replace(latency=0.5)]})]
        cases += [(ValueError, "activation of fact 0 must be from 0", {"facts": [fact._replace(activation=-1)]})]
        cases += [(ValueError, "no slot of follows is named 'frist'", {"facts": [fact._replace(slots={"frist": 1})]})]
        cases += [(TypeError, "slots are given as a dict", {"facts": [fact._replace(slots=[1, 2])]})]
        cases += [(ValueError, "no rule is named 'stp'; is it 'stop'", {"utilities": {"stp": 1}})]
        cases += [(TypeError, "whole number of thousandths", {"utilities": {"stop": 1.5}})]
        cases += [(ValueError, "from -32,768 to 32,767", {"utilities": {"stop": 40_000}})]
        cases += [(TypeError, "as a dict", {"utilities": [1]})]
        cases += [(ValueError, "it has no delay", {"opening": {"goal": Buffer("count", {}, 5)}})]
        cases += [(ValueError, "no buffer is named 'gaol'", {"opening": {"gaol": None}})]
        cases += [(ValueError, "failure", {"failure": 65_536})]
        for error, words, changes in cases:
            with self.subTest(changes=words), self.assertRaisesRegex(error, words):
                model.replace(**changes)

    def test_a_model_can_be_kept_by_pickle(self):
        new = counting().replace(failure=5)
        again = pickle.loads(pickle.dumps(new))
        self.assertEqual((again.image, again.names, again.open().run()), (new.image, new.names, new.open().run()))


class Building(unittest.TestCase):
    """A model from nothing."""

    def refused(self, error, words, **parts):
        """A model of these parts is refused."""
        parts = {"types": {"t": ["a"]}, "buffers": {"goal": None}, **parts}
        with self.assertRaisesRegex(error, words):
            Model.build(**parts)

    def test_what_cannot_be_built(self):
        words = r"slot 'b' is not a slot of type 't' \(a\) \(in `fact t b 1 activation 0 latency 0`\)"
        self.refused(NotPacked, words, facts=[Fact("t", {"b": 1})])
        self.refused(NotPacked, "in `=gaol> t`", rules=[Rule("r", ["=gaol> t"])])
        self.refused(ValueError, "one word", facts=[Fact("t", {"a": "two words"})])
        self.refused(ValueError, "one word", facts=[Fact("t", {"a": "x\ny"})])
        self.refused(ValueError, "one word", facts=[Fact("t", {"a": 1.5})])
        self.refused(ValueError, "a name for each symbol", facts=[Fact("t", {"a": symbol(4)})])
        self.refused(TypeError, "lists of lines", rules=[Rule("r", "=goal> t")])
        self.refused(TypeError, "lists of lines", rules=[Rule("r", ["=goal> t\n==>"])])
        self.refused(TypeError, "a jv.Rule", rules=["rule r"])
        self.refused(TypeError, "a jv.Fact", facts=["fact t"])
        self.refused(ValueError, "no delay", buffers={"goal": Buffer("t", {}, 5)})
        self.refused(TypeError, "as a dict", types=["t"])
        self.refused(NotPacked, ".", buffers={})
