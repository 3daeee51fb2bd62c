"""What the numbers of a model are called: names where a names file gives them, else the numbers themselves."""
import difflib
import operator
import re

from .names import BadNames
from .symbols import MOST_SYMBOLS, Symbol, symbol, written_number
from .wording import LONGEST, shown


class Series:
    """Numbered things of one kind, some or all of which have names.

    >>> buffers = Series("buffer", 2, {0: "goal", 1: "retrieval"})
    >>> buffers.name(1), buffers.number("goal"), buffers.number(1)
    ('retrieval', 0, 1)
    >>> buffers.number("gaol")
    Traceback (most recent call last):
    ValueError: no buffer is named 'gaol'; is it 'goal'?
    """

    def __init__(self, what, count, names):
        self.what, self.count = what, count
        self._names = dict(names)
        self._numbers = {name: number for number, name in self._names.items()}

    def __len__(self):
        return self.count

    def __iter__(self):
        return map(self.name, range(self.count))

    def name(self, number):
        """The name of a number; the number itself if it has none."""
        return self._names.get(number, number)

    def text(self, number):
        """The name of a number, or the kind with the number, to be read by people."""
        return self._names.get(number, f"{self.what} {number}")

    def number(self, key):
        """The number that a name, or a number, stands for. Where nothing has a name, digits will do."""
        if isinstance(key, str):
            return self._named(key)
        try:
            number = operator.index(key)
        except TypeError:
            raise TypeError(f"a {self.what} is given by its name or number, not by {type(key).__name__}") from None
        if not 0 <= number < self.count:
            called = number if abs(number) < 10**LONGEST else "of so large a number"
            raise ValueError(f"there is no {self.what} {called}: there are {self.count:,}, numbered from 0")
        return number

    def _named(self, name):
        if name in self._numbers:
            return self._numbers[name]
        if not self._names and re.fullmatch("[0-9]{1,5}", name):
            return self.number(int(name))
        raise ValueError(f"no {self.what} is named '{shown(name)}'" + self._guess(name))

    def _guess(self, name):
        """The name that is nearest to one that is none. A number is near to no other, and a long text is no slip."""
        words = [word for word in self._numbers if not word.isdigit()]
        near = [] if name.isdigit() or len(name) > LONGEST else difflib.get_close_matches(name, words, 1)
        return f"; is it '{shown(near[0])}'?" if near else ""


class Symbols(Series):
    """The symbols. Where some have names, a whole number is a name like others: 4 is the symbol that is called 4.

    >>> symbols = Symbols({0: "nil", 1: "4"})
    >>> symbols.number(4), symbols.number(symbol(4)), symbols.number("#4"), symbols.name(4)
    (1, 4, 4, #4)
    >>> symbols.number(5)
    Traceback (most recent call last):
    ValueError: no symbol is named '5'; the symbol of number 5 is jv.symbol(5)
    """

    def __init__(self, names):
        super().__init__("symbol", MOST_SYMBOLS, names)

    def name(self, number):
        """The name of a number; a `Symbol` if it has none."""
        return self._names.get(number, Symbol(number))

    def plain(self, number):
        """As `name`, in a form that JSON keeps: where others have names, a symbol without one is written `#4`."""
        return self._names.get(number, f"#{number}" if self._names else number)

    def number(self, key):
        """The number that a name, a symbol or, where nothing has a name, a number stands for."""
        if isinstance(key, str) or not self._names:
            return super().number(key)
        if isinstance(key, Symbol):
            return int(symbol(key))
        try:
            if isinstance(key, bool):
                raise TypeError
            key = operator.index(key)
        except TypeError:
            raise TypeError(f"a symbol is given by its name or by jv.symbol, not by {type(key).__name__}") from None
        return self._called(key)

    def _called(self, number):
        """The symbol that is called by a number."""
        if not abs(number) < 10**LONGEST:
            raise ValueError("no symbol is named by so large a number")
        name = str(number)
        if name not in self._numbers:
            advice = f"; the symbol of number {name} is jv.symbol({name})" if 0 <= number < MOST_SYMBOLS else ""
            raise ValueError(f"no symbol is named '{name}'{advice}")
        return self._numbers[name]

    def _named(self, name):
        written = None if name in self._numbers else written_number(name)
        return super()._named(name) if written is None else written


class Vocabulary:
    """What everything in a model is called. `slots` and `variables` have a series for each type and each rule."""

    def __init__(self, shape, names=None):
        if names is not None:
            _check_fit(shape, names)
        types = names.types if names else [None] * len(shape.slots)
        rules = names.rules if names else [None] * len(shape.rules)
        self.buffers = Series("buffer", shape.buffers, enumerate(names.buffers if names else ()))
        self.symbols = Symbols(names.symbols if names else {})
        self.types, self.slots = _owners("type", "slot", types, shape.slots)
        self.rules, self.variables = _owners("rule", "variable", rules, [rule.variables for rule in shape.rules])


def _owners(what, part, owners, counts):
    """The series of owners, and for each one that of its parts."""
    series = Series(what, len(counts), ((number, owner.name) for number, owner in enumerate(owners) if owner))
    parts = [
        Series(f"{part} of {shown(series.text(number))}", count, enumerate(owner.parts if owner else ()))
        for number, (owner, count) in enumerate(zip(owners, counts))
    ]
    return series, parts


def _check_fit(shape, names):
    """Names must be as many as the image has things to name."""
    _check_count("buffers", names.buffers, shape.buffers)
    _check_count("types", names.types, len(shape.slots))
    _check_count("rules", names.rules, len(shape.rules))
    for owner, count in zip(names.types, shape.slots):
        _check_count(f"slots of '{shown(owner.name)}'", owner.parts, count)
    for owner, rule in zip(names.rules, shape.rules):
        _check_count(f"variables of '{shown(owner.name)}'", owner.parts, rule.variables)


def _check_count(what, names, count):
    if len(names) != count:
        raise BadNames(f"the names are of another image: {what} are {len(names)} in the names and {count} in the image")
