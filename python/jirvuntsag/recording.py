"""What happened in a run, against the clock: its steps, and what each buffer held from when to when."""
import itertools
from typing import Dict, List, NamedTuple, Optional

from .events import Event
from .refusals import HALTED, Refused
from .run import Run
from .states import Buffer, Name


class Span(NamedTuple):
    """What a buffer held from one clock to another; `end` is None where that is so to the end of the run."""

    start: int
    end: Optional[int]
    buffer: Buffer


class Recording(NamedTuple):
    """A run from one clock to another: its events, the spans of each buffer, and the number that it ended by."""

    start: int
    end: int
    events: List[Event]
    lanes: Dict[Name, List[Span]]
    number: int


def record(run, steps):
    """Makes at most so many steps on a copy of a run, and tells them.

    >>> from jirvuntsag import Model
    >>> recording = record(Model.load("examples/counting.image").open(), 2)
    >>> [(span.start, span.end, str(span.buffer)) for span in recording.lanes[1]]
    [(0, 50, '0'), (50, 150, '1 0=#1 1=#2 in 100 ms'), (150, None, '1 0=#1 1=#2')]
    """
    if not isinstance(run, Run):
        raise TypeError(f"a Run is recorded, not a {type(run).__name__}")
    run = run.copy()
    events, clocks, states = [], [run.clock], [run.buffers]
    number = 0
    try:
        for event in run.steps(steps):
            events.append(event)
            clocks.append(run.clock)
            states.append(run.buffers)
        number = HALTED if len(events) < steps else 0
    except Refused as refused:
        number = refused.number
    lanes = {name: _spans(clocks, [state[name] for state in states]) for name in run.buffers}
    return Recording(clocks[0], clocks[-1], events, lanes, number)


def _spans(clocks, held):
    """Neighbouring states in which a buffer holds the same are one span: chunk and flag, visible or due at the same time."""

    def content(at):
        buffer = held[at]
        return buffer.type, buffer.slots, buffer.error, None if buffer.visible else clocks[at] + buffer.delay

    starts = [next(states) for _, states in itertools.groupby(range(len(held)), content)]
    ends = [clocks[at] for at in starts[1:]] + [None]
    return [Span(clocks[at], end, held[at]) for at, end in zip(starts, ends)]
