"""An accepted image as plain data, by numbers: its types, what its buffers open with, its facts and its rules."""
from typing import NamedTuple, Tuple

WITH_QUERIES = 2  # the version of an image whose rules have queries

class Test(NamedTuple):
    """A test: its buffer, its type, and for each named slot a term, below 4,096 a symbol and from there on a variable."""

    buffer: int
    type: int
    terms: Tuple[Tuple[int, int], ...]


class Query(NamedTuple):
    """A query: its buffer, and its kind (0 asks whether it is busy, 1 free, 2 whether its request has failed)."""

    buffer: int
    kind: int


class Action(NamedTuple):
    """An action: its buffer, its kind (0 modifies, 1 requests, 2 clears), the type that a request names, its terms."""

    buffer: int
    kind: int
    type: int
    terms: Tuple[Tuple[int, int], ...]


class RuleShape(NamedTuple):
    """A rule's utility, in thousandths, how many variables it has, its tests, its queries and its actions."""

    utility: int
    variables: int
    tests: Tuple[Test, ...]
    queries: Tuple[Query, ...]
    actions: Tuple[Action, ...]


class Chunk(NamedTuple):
    """A type, and a symbol for each of its slots."""

    type: int
    values: Tuple[int, ...]


class FactShape(NamedTuple):
    """A fact."""

    chunk: Chunk
    activation: int
    latency: int


class Shape(NamedTuple):
    """All of an image; `slots` has a count for each type from 0 on. Rules of version 1 have no queries."""

    failure: int
    slots: Tuple[int, ...]
    opening: Tuple[Chunk, ...]
    facts: Tuple[FactShape, ...]
    rules: Tuple[RuleShape, ...]
    version: int = 1

    @property
    def buffers(self):
        """How many buffers there are."""
        return len(self.opening)


class _Fields:
    """Reads the fields of an image one after the other, most significant bit first."""

    def __init__(self, image):
        self.image, self.at = image, 0

    def take(self, width):
        """A field of at most 16 bits: three bytes hold it."""
        first, bit = divmod(self.at, 8)
        three = int.from_bytes(self.image[first : first + 3].ljust(3, b"\0"), "big")
        self.at += width
        return three >> (24 - bit - width) & (1 << width) - 1

    def terms(self):
        """A mask, and for each slot that it names a term of 13 bits."""
        mask = self.take(8)
        return tuple((slot, self.take(13)) for slot in range(8) if mask >> 7 - slot & 1)

    def chunk(self, slots):
        """A type, and a symbol of 12 bits for each slot that it has."""
        isa = self.take(6)
        return Chunk(isa, tuple(self.take(12) for _ in range(slots[isa])))


def _rule(fields, version):
    utility = fields.take(16)
    count, actions, variables = fields.take(4), fields.take(4), fields.take(4)
    tests = tuple(Test(fields.take(3), fields.take(6), fields.terms()) for _ in range(count))
    asked = fields.take(4) if version == WITH_QUERIES else 0
    queries = tuple(Query(fields.take(3), fields.take(2)) for _ in range(asked))
    deeds = tuple(_action(fields) for _ in range(actions))
    return RuleShape(utility - 65_536 if utility > 32_767 else utility, variables, tests, queries, deeds)


def _action(fields):
    """A buffer and a kind; then a modification has terms, a request a type and terms, a clearing nothing."""
    buffer, kind = fields.take(3), fields.take(2)
    isa = fields.take(6) if kind == 1 else 0
    return Action(buffer, kind, isa, fields.terms() if kind < 2 else ())


def shape_of(image):
    """The shape of an image that the library has accepted; of any other it says nothing.

    >>> shape_of(bytes.fromhex("0110000000000000"))
    Shape(failure=0, slots=(0,), opening=(Chunk(type=0, values=()),), facts=(), rules=(), version=1)
    """
    fields = _Fields(image)
    version, buffers, types, rules, facts, failure = (fields.take(width) for width in (8, 4, 6, 9, 10, 16))
    slots = (0, *(fields.take(4) for _ in range(types)))
    opening = tuple(fields.chunk(slots) for _ in range(buffers))
    known = tuple(FactShape(fields.chunk(slots), fields.take(16), fields.take(16)) for _ in range(facts))
    return Shape(failure, slots, opening, known, tuple(_rule(fields, version) for _ in range(rules)), version)


def fields_of(shape):
    """The fields of an image in their order, one number each, for the packer.

    >>> fields_of(shape_of(bytes.fromhex("0110000000000000")))
    [1, 1, 0, 0, 0, 0, 0]
    """
    counts = [shape.buffers, len(shape.slots) - 1, len(shape.rules), len(shape.facts)]
    fields = [shape.version, *counts, shape.failure, *shape.slots[1:]]
    for chunk in shape.opening:
        fields += [chunk.type, *chunk.values]
    for fact in shape.facts:
        fields += [fact.chunk.type, *fact.chunk.values, fact.activation, fact.latency]
    for rule in shape.rules:
        fields += [rule.utility % 65_536, len(rule.tests), len(rule.actions), rule.variables]
        for test in rule.tests:
            fields += [test.buffer, test.type, *_terms_fields(test.terms)]
        if shape.version == WITH_QUERIES:
            fields += [len(rule.queries), *(field for query in rule.queries for field in query)]
        for action in rule.actions:
            fields += _action_fields(action)
    return fields


def _terms_fields(terms):
    return [sum(128 >> slot for slot, _ in terms), *(term for _, term in terms)]


def _action_fields(action):
    isa = [action.type] if action.kind == 1 else []
    terms = _terms_fields(action.terms) if action.kind < 2 else []
    return [action.buffer, action.kind, *isa, *terms]
