"""Packs small models for tests, field by field and without any check.

A model is given by the slot counts of its types, its opening chunks, its facts and its rules. A chunk is its type with its
values; a fact is a chunk, an activation and a latency. In tests and actions slots have terms: 7 is a symbol, "v0" a variable.
"""
from typing import NamedTuple

STATES = ["busy", "free", "error"]

class Rule(NamedTuple):
    """Tests are (buffer, type, slots); actions (buffer, "modify", slots), (buffer, "request", type, slots), (buffer, "clear").

    Queries, which only images of version 2 have, are (buffer, "busy"), (buffer, "free"), (buffer, "error").
    """

    tests: list
    actions: list
    utility: int = 0
    queries: list = []


class _Bits:
    def __init__(self):
        self.text = ""

    def put(self, *fields):
        """Fields of a value and a width, one after the other."""
        self.text += "".join(format(value, f"0{width}b") for value, width in fields)

    def put_terms(self, slots):
        """A mask, and a term for each slot that is named."""
        self.put((sum(1 << 7 - slot for slot in slots), 8))
        for _, term in sorted(slots.items()):
            self.put((4096 + int(term[1:]) if isinstance(term, str) else term, 13))

    def packed(self):
        """All bits, filled up to whole bytes."""
        text = self.text + "0" * (-len(self.text) % 8)
        return int(text, 2).to_bytes(len(text) // 8, "big")


def pack(types, opening, facts=(), rules=(), failure=200, version=1):
    """The image of a model."""
    bits = _Bits()
    bits.put((version, 8), (len(opening), 4), (len(types), 6), (len(rules), 9), (len(facts), 10), (failure, 16))
    bits.put(*((slots, 4) for slots in types))
    for isa, *values in opening:
        bits.put((isa, 6), *((value, 12) for value in values))
    for (isa, *values), activation, latency in facts:
        bits.put((isa, 6), *((value, 12) for value in values), (activation, 16), (latency, 16))
    for rule in rules:
        _put_rule(bits, rule, version)
    return bits.packed()


def _put_rule(bits, rule, version):
    variables = {term for _, _, slots in rule.tests for term in slots.values() if isinstance(term, str)}
    bits.put((rule.utility % 65_536, 16), (len(rule.tests), 4), (len(rule.actions), 4), (len(variables), 4))
    for buffer, isa, slots in rule.tests:
        bits.put((buffer, 3), (isa, 6))
        bits.put_terms(slots)
    if version == 2:
        bits.put((len(rule.queries), 4))
        bits.put(*(field for buffer, state in rule.queries for field in ((buffer, 3), (STATES.index(state), 2))))
    for buffer, kind, *rest in rule.actions:
        bits.put((buffer, 3), (["modify", "request", "clear"].index(kind), 2))
        if kind == "request":
            bits.put((rest[0], 6))
        if kind != "clear":
            bits.put_terms(rest[-1])
