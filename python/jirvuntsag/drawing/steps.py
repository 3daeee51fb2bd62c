"""The lane of a run's steps."""
from typing import NamedTuple

from ..refusals import HALTED
from .lanes import NARROW, PAD, Lane, lane_name, room
from .svg import CHARACTER, LINE, columns, element, shortened, text, titled

BOX = 24  # the height of a step
LABEL_ROWS = 4

ENDS = {0: "stopped", HALTED: "halted"}


def step_lane(recording, scale, rules):
    """A box for each firing and a band for each wait; the rules' names are in the boxes if all have room there, else above."""
    fires = [event for event in recording.events if event.kind == "fire"]
    inside = all(columns(rules.text(event.rule)) <= room(event.ms * scale.per_ms) for event in fires)
    labels = {} if inside else _labels(fires, scale, rules)
    top = LINE * (1 + max((label.row for label in labels.values()), default=-1)) + 6
    parts = [lane_name("steps", scale, top + 16)]
    parts += [_wait(event, scale, top) for event in recording.events if event.kind == "wait"]
    parts += [_fire(event, scale, rules.text(event.rule), top, labels.get(event.clock), inside) for event in fires]
    ended = ENDS.get(recording.number, f"refused by {recording.number}")
    if columns(ended) <= room(scale.right - scale.x(recording.end)):
        parts.append(text(ended, scale.x(recording.end) + 6, top + 16, class_="stop"))
    return Lane(top + BOX + 10, parts)


class Label(NamedTuple):
    """The name of a rule above the box of its firing: in which row, from which pixel on."""

    name: str
    row: int
    left: float


def _labels(fires, scale, rules):
    """The labels of firings, by their clocks: whole if all have room, else shortened, and none if most have no room then."""
    longest = max(columns(rules.text(event.rule)) for event in fires)
    for most in longest, 16, 9:
        labels = _placed(fires, scale, rules, most)
        if len(labels) == len(fires):
            return labels
    return labels if 2 * len(labels) >= len(fires) else {}


def _placed(fires, scale, rules, most):
    """The labels of at most so many columns that have room.

    Of labels that would overlap the left one stands higher, so that no line from a label to its box crosses another one.
    """
    labels, begun = {}, [scale.right] * LABEL_ROWS
    for event in reversed(fires):
        name = shortened(rules.text(event.rule), most)
        width = CHARACTER * columns(name) + PAD
        left = min(scale.x(event.clock - event.ms), scale.right - width)
        row = next((row for row in range(LABEL_ROWS) if left + width <= min(begun[row:])), None)
        if row is not None:
            labels[event.clock], begun[row] = Label(name, row, left), left
    return labels


def _fire(event, scale, name, top, label, inside):
    left, width = scale.x(event.clock - event.ms), event.ms * scale.per_ms
    parts = [_box(left, width, top)]
    if inside:
        parts.append(text(name, left + width / 2, top + 16, text_anchor="middle", class_="in"))
    elif label:
        y = top - 6 - LINE * label.row
        parts.append(element("path", d=f"M{left + 0.5:.1f} {top}V{y - 9 if label.left == left else y + 3}"))
        parts.append(text(label.name, label.left + 4, y))
    title = f"{name} fires, from {event.clock - event.ms:,} to {event.clock:,} ms"
    return titled(title, *parts, class_="fire")


def _wait(event, scale, top):
    left, width = scale.x(event.clock - event.ms), event.ms * scale.per_ms
    parts = [_box(left, width, top)]
    words = [f"wait {event.ms:,} ms", f"{event.ms:,} ms", f"{event.ms:,}"]
    said = next((said for said in words if columns(said) <= room(width)), None)
    if said:
        parts.append(text(said, left + width / 2, top + 16, text_anchor="middle"))
    title = f"wait of {event.ms:,} ms, from {event.clock - event.ms:,} to {event.clock:,} ms"
    return titled(title, *parts, class_="wait")


def _box(left, width, top):
    """The box of a step, with a gap before the next one if it is wide enough for that."""
    return element("rect", x=left, y=top, width=width - 1 if width > NARROW else max(width, 1), height=BOX)
