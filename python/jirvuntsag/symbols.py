"""Symbols by their numbers: how one is asked for, and how one that has no name is printed."""
import operator
import re

MOST_SYMBOLS = 4_096
NIL = 0  # what an empty slot holds

_WRITTEN = re.compile("#(0|[1-9][0-9]{0,3})")


class Symbol(int):
    """A symbol by its number. It prints as `#4`, so that nobody takes it for the symbol that is called 4.

    >>> Symbol(4), f"{Symbol(4)}", Symbol(4) == 4
    (#4, '#4', True)
    """

    def __repr__(self):
        return f"#{int(self)}"

    __str__ = __repr__

    def __format__(self, form):
        return format(str(self), form)


def symbol(number):
    """The symbol of a number, 0 to 4,095: the word for a number where an integer would be a name.

    >>> import jirvuntsag as jv
    >>> run = jv.Model.load("examples/addition.image", names="examples/addition.names.json").open()
    >>> run.put("goal", "add", {"arg1": 5, "arg2": jv.symbol(5), "sum": jv.symbol(9)})
    >>> print(run.buffers["goal"])
    add arg1=5 arg2=8 sum=#9
    """
    try:
        if isinstance(number, bool):
            raise TypeError
        whole = operator.index(number)
    except TypeError:
        raise TypeError(f"a symbol's number is a whole number, not {type(number).__name__}") from None
    if not 0 <= whole < MOST_SYMBOLS:
        raise ValueError(f"a symbol's number is from 0 to {MOST_SYMBOLS - 1:,}")
    return Symbol(whole)


def written_number(text):
    """The number of a symbol that is written `#4`; None if the text is none.

    >>> written_number("#4"), written_number("4"), written_number("#4096")
    (4, None, None)
    """
    written = _WRITTEN.fullmatch(text)
    return int(written[1]) if written and int(written[1]) < MOST_SYMBOLS else None
