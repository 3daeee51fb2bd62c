"""Facts and rules by their names, as they are read from a model and handed to a new one."""
from typing import Dict, NamedTuple, Tuple

from .states import Name
from .symbols import MOST_SYMBOLS

STATES = ("busy", "free", "error")  # what a query asks for, by its kind

class Fact(NamedTuple):
    """A fact: its type, a value for each slot, its activation and its latency in ms.

    >>> print(Fact("follows", {"first": 1, "second": 2}, 10, 100))
    fact follows first 1 second 2 activation 10 latency 100
    """

    type: Name
    slots: Dict[Name, Name]
    activation: int = 0
    latency: int = 0

    def __str__(self):
        words = "".join(f" {slot} {value}" for slot, value in self.slots.items())
        return f"fact {self.type}{words} activation {self.activation} latency {self.latency}"


class Rule(NamedTuple):
    """A rule: its name, its tests and its actions as a model's text has them, its utility in thousandths.

    Queries stand among the tests.

    >>> print(Rule("stop", ["=goal> count current ?n target ?n", "?retrieval> state free"], ["-goal>"], 1500))
    rule stop utility 1.5
      =goal> count current ?n target ?n
      ?retrieval> state free
      ==>
      -goal>
    """

    name: Name
    tests: Tuple[str, ...]
    actions: Tuple[str, ...] = ()
    utility: int = 0

    def __str__(self):
        lines = [f"rule {self.name} utility {decimal(self.utility)}", *self.tests, "==>", *self.actions]
        return "\n  ".join(lines)


def decimal(thousandths):
    """A utility as a text has it.

    >>> decimal(1500), decimal(-2), decimal(0), decimal(-32768)
    ('1.5', '-0.002', '0', '-32.768')
    """
    whole, rest = divmod(abs(thousandths), 1000)
    places = f".{rest:03}".rstrip("0").rstrip(".")
    return f"{'-' if thousandths < 0 else ''}{whole}{places}"


def fact_from(shape, vocabulary):
    """A fact of an image."""
    isa, values = shape.chunk
    named = {slot: vocabulary.symbols.name(value) for slot, value in zip(vocabulary.slots[isa], values)}
    return Fact(vocabulary.types.name(isa), named, shape.activation, shape.latency)


def rule_from(number, shape, vocabulary):
    """A rule of an image."""
    buffers, types = vocabulary.buffers, vocabulary.types
    tested = {test.buffer: test.type for test in shape.tests}

    def terms(isa, pairs):
        return "".join(f" {vocabulary.slots[isa].name(slot)} {term(one)}" for slot, one in pairs)

    def term(one):
        if one < MOST_SYMBOLS:
            return vocabulary.symbols.name(one)
        return f"?{vocabulary.variables[number].name(one - MOST_SYMBOLS)}"

    def action(deed):
        buffer = buffers.name(deed.buffer)
        if deed.kind == 0:
            return f"={buffer}>{terms(tested[deed.buffer], deed.terms)}"
        return f"+{buffer}> {types.name(deed.type)}{terms(deed.type, deed.terms)}" if deed.kind == 1 else f"-{buffer}>"

    tests = [f"={buffers.name(test.buffer)}> {types.name(test.type)}{terms(test.type, test.terms)}" for test in shape.tests]
    tests += [query_text(buffers.name(query.buffer), STATES[query.kind]) for query in shape.queries]
    return Rule(vocabulary.rules.name(number), tuple(tests), tuple(map(action, shape.actions)), shape.utility)


def query_text(buffer, state):
    """A query as a text has it.

    >>> query_text("retrieval", "error")
    '?retrieval> state error'
    """
    return f"?{buffer}> state {state}"
