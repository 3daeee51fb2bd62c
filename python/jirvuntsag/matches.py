"""Rules that match, with the values of their variables, and why a rule does not match: that it does not is the table's word."""
from typing import Dict, NamedTuple, Optional

from .rules import STATES, query_text
from .states import Name, place
from .symbols import MOST_SYMBOLS, NIL


class Match(NamedTuple):
    """A rule that matches: its number, its name, its utility in thousandths, the values of its variables, none of them nil."""

    rule: int
    name: Name
    utility: int
    values: Dict[Name, Name]


class Miss(NamedTuple):
    """A test or a query that does not hold, of `buffer`. `what` says where it fails:

    `pending`: the buffer is not visible for another `found` ms;
    `type`: its type is `found`, and not `wanted`;
    `empty`: the value of `slot` is `found`, which is nil, where the variable `wanted` stands, which takes no empty slot;
    `slot`: the value of `slot` is `found`, and not `wanted`, which the test names or an earlier place of a variable has;
    `query`: the buffer is not in the state `wanted`, `busy`, `free` or `error`: it is pending for `found` ms, 0 if it is not.

    >>> print(Miss("goal", "slot", "count", "4", "3"))
    count of goal is 3, not 4
    >>> print(Miss("goal", "empty", "count", "n", "nil"))
    count of goal is empty, and variable ?n takes no empty slot
    >>> print(Miss("retrieval", "query", None, "error", 200))
    ?retrieval> state error fails: it is pending for another 200 ms
    """

    buffer: Name
    what: str
    slot: Optional[Name]
    wanted: Optional[Name]
    found: Name

    def __str__(self):
        buffer = _called("buffer", self.buffer)
        if self.what == "pending":
            return f"{buffer} is pending for another {self.found} ms"
        if self.what == "type":
            return f"{buffer} holds {_called('type', self.found)}, not {_called('type', self.wanted)}"
        if self.what == "query":
            return f"{query_text(self.buffer, self.wanted)} fails: {self._state()}"
        slot = f"{_called('slot', self.slot)} of {buffer}"
        if self.what == "empty":
            return f"{slot} is empty, and variable ?{self.wanted} takes no empty slot"
        return f"{slot} is {self.found}, not {self.wanted}"

    def _state(self):
        """How a buffer stands of which a query fails."""
        if self.found:
            return f"it is pending for another {self.found} ms"
        return "nothing is pending there" if self.wanted == "busy" else "its error flag is not set"


def _called(what, name):
    return f"{what} {name}" if isinstance(name, int) else name


def first_miss(model, rule, words):
    """The first test of a rule, given by its number, or the first query, that does not hold in a state; None if all do."""
    shape = model.shape.rules[rule]
    return _first_test(model.vocabulary, rule, shape.tests, words) or _first_query(model.vocabulary, shape.queries, words)


def _first_query(vocabulary, queries, words):
    """The first query that does not hold."""
    for query in queries:
        *_, delay, flag = words[place(query.buffer)]
        holds = (delay > 0, delay == 0, delay == 0 and flag == 1)
        if not holds[query.kind]:
            return Miss(vocabulary.buffers.name(query.buffer), "query", None, STATES[query.kind], delay)
    return None


def _first_test(vocabulary, rule, tests, words):
    """The first test that does not hold; the values of variables are those of their first places."""
    values = {}
    for test in tests:
        isa, *slots, delay, _ = words[place(test.buffer)]
        buffer = vocabulary.buffers.name(test.buffer)
        if delay:
            return Miss(buffer, "pending", None, None, delay)
        if isa != test.type:
            return Miss(buffer, "type", None, vocabulary.types.name(test.type), vocabulary.types.name(isa))
        for slot, term in test.terms:
            found, named = slots[slot], vocabulary.slots[isa].name(slot)
            # a variable says that something is there: nil is neither a value of it nor one to be compared
            if term >= MOST_SYMBOLS and found == NIL:
                variable = vocabulary.variables[rule].name(term - MOST_SYMBOLS)
                return Miss(buffer, "empty", named, variable, vocabulary.symbols.name(NIL))
            wanted = term if term < MOST_SYMBOLS else values.setdefault(term, found)
            if found != wanted:
                return Miss(buffer, "slot", named, vocabulary.symbols.name(wanted), vocabulary.symbols.name(found))
    return None
