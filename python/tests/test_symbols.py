"""What an integer means where a symbol is asked for, and how a symbol without a name is printed."""
import json
import unittest

from jirvuntsag import Model, symbol

from . import COUNTING, COUNTING_NAMES, EXAMPLES

ADDITION = EXAMPLES / "addition.image"
# here the symbol that is called 5 has the number 1, and the one of number 5 is called 8
ADDITION_NAMES = EXAMPLES / "addition.names.json"


class Integers(unittest.TestCase):
    """With names an integer is a name; without names it is a number."""

    def setUp(self):
        self.run_ = Model.load(ADDITION, ADDITION_NAMES).open()

    def put(self, value):
        """The words of the goal with this value in its first slot."""
        self.run_.put("goal", "add", {"arg1": value})
        return self.run_.words[2]

    def test_an_integer_is_the_symbol_of_that_name(self):
        self.assertEqual([self.put(value) for value in (5, "5", 2, 8)], [1, 1, 2, 5])

    def test_a_number_is_asked_for_by_its_own_word(self):
        self.assertEqual([self.put(value) for value in (symbol(5), "#5", symbol(4095))], [5, 5, 4095])

    def test_an_integer_that_is_no_name_is_refused(self):
        advice = r"no symbol is named '4'; the symbol of number 4 is jv.symbol\(4\)"
        for value, words in (4, advice), (-1, "no symbol is named '-1'$"):
            with self.assertRaisesRegex(ValueError, words):
                self.put(value)
        for value in True, 5.0, None:
            with self.subTest(value=value), self.assertRaisesRegex(TypeError, "a symbol is given by its name or by jv.symbol"):
                self.put(value)
        with self.assertRaisesRegex(ValueError, "so large"):
            self.put(10**5000)

    def test_without_names_an_integer_is_a_number(self):
        run = Model.load(ADDITION).open()
        run.put(0, 1, {0: 5, 1: symbol(4), 2: "#3"})
        self.assertEqual(run.words[2:5], (5, 4, 3))

    def test_two_symbols_that_differ_never_print_alike(self):
        self.run_.put("goal", "add", {"arg1": symbol(7), "arg2": 7, "sum": symbol(4)})
        self.assertEqual(str(self.run_.buffers["goal"]), "add arg1=#7 arg2=7 sum=7")
        self.run_.put("goal", "add", {"arg1": symbol(9), "arg2": symbol(9), "sum": symbol(6)})
        self.assertEqual(repr(self.run_.buffers["goal"].slots), "{'arg1': #9, 'arg2': #9, 'sum': #6}")

    def test_why_not_tells_a_number_from_a_name(self):
        run = Model.load(COUNTING, COUNTING_NAMES).open()
        run.put("goal", "count", {"current": 2, "target": symbol(77)})
        self.assertEqual(str(run.why_not("stop")), "target of goal is #77, not 2")

    def test_a_state_with_such_symbols_goes_through_json(self):
        self.run_.put("goal", "add", {"arg1": symbol(7), "arg2": 7})
        kept = json.loads(json.dumps(self.run_.state))
        self.assertEqual(self.run_.model.at(kept).words, self.run_.words)

    def test_what_is_no_symbols_number(self):
        for number, error in (-1, ValueError), (4096, ValueError), (10**5000, ValueError), ("1", TypeError), (True, TypeError):
            with self.subTest(number=str(number)[:9] if not isinstance(number, int) else None), self.assertRaises(error):
                symbol(number)


class Guesses(unittest.TestCase):
    """A near name is offered for a slip of the pen, and never for a number."""

    def test_a_number_is_near_to_no_other(self):
        run = Model.load(ADDITION, ADDITION_NAMES).open()
        for value in "55", 55, "22", "255":
            with self.assertRaisesRegex(ValueError, "^no symbol is named '[0-9]+'(; the symbol of number|$)"):
                run.put("goal", "add", {"arg1": value})

    def test_a_name_is(self):
        run = Model.load(EXAMPLES / "parents.image", EXAMPLES / "parents.names.json").open()
        with self.assertRaisesRegex(ValueError, "no symbol is named 'Alise'; is it 'Alice'"):
            run.model.vocabulary.symbols.number("Alise")
