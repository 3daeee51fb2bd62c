"""What happens in a run: its steps, and how it ends."""
from typing import List, NamedTuple, Optional

from .calls import EVENT_WORDS
from .refusals import HALTED, MEANINGS
from .states import Name

FIRING = 50


class Event(NamedTuple):
    """A step: the clock after it, `fire` or `wait`, the rule that fired (None for a wait), the ms it took, the rule's name."""

    clock: int
    kind: str
    rule: Optional[int]
    ms: int
    name: Optional[Name]

    def __str__(self):
        return f"{self.clock} {self.kind} {self.ms if self.rule is None else self.name}"


class Ended(NamedTuple):
    """How a run ended: 0, all steps asked were made, or 9, halted before that; the steps made; their events."""

    number: int
    made: int
    events: List[Event]

    @property
    def halted(self):
        """No rule matched and nothing was pending."""
        return self.number == HALTED

    @property
    def meaning(self):
        """What the number says, in words."""
        return MEANINGS[self.number]

    def __str__(self):
        return f"end {self.number} {self.made}"


def events_from(words, rules):
    """The events of words as a trace gives them, three for each."""
    return [_event_from(words[start : start + EVENT_WORDS], rules) for start in range(0, len(words), EVENT_WORDS)]


def _event_from(words, rules):
    """The event of three words: the clock after the step; 0 and the rule, or 1 and the ms."""
    clock, kind, number = words
    if kind == 0:
        return Event(clock, "fire", number, FIRING, rules.name(number))
    return Event(clock, "wait", None, number, None)
