"""The lane of what a buffer holds."""
from typing import List, NamedTuple, Tuple

from ..recording import Span
from .colours import ERROR_COLOURS, NIL_COLOURS, colours_of, type_text
from .lanes import NARROW, PAD, Lane, lane_name, room
from .svg import LINE, columns, element, packed, shortened, text, titled

MOST_LINES = 6


class Bar(NamedTuple):
    """A span as it is drawn: from and to which pixel, the lines on it, its colours, and all that it stands for."""

    span: Span
    left: float
    right: float
    lines: List[str]
    colours: Tuple[str, str]
    title: str

    @property
    def is_nil(self):
        """An empty buffer that can be seen as such: a line, no bar."""
        return self.colours in (NIL_COLOURS, ERROR_COLOURS) and self.span.buffer.visible


def buffer_lane(name, spans, scale, vocabulary):
    """A bar for each chunk that the buffer holds, hatched while it is pending, and a line where it holds nil; red in error."""
    bars = [_bar(name, span, scale, vocabulary) for span in spans]
    lines = max([2, *(len(bar.lines) for bar in bars)])
    height = LINE * lines + 8
    parts = [lane_name(name, scale, height / 2 + 10)]
    parts += [_nil(bar, height) if bar.is_nil else _held(bar, height) for bar in bars]
    return Lane(height + 14, parts)


def _bar(name, span, scale, vocabulary):
    left, right = scale.x(span.start), scale.right if span.end is None else scale.x(span.end)
    isa = vocabulary.types.number(span.buffer.type)
    words = [f"{slot}={value}" for slot, value in span.buffer.slots.items()] + ["error"] * span.buffer.error
    when = f"from {span.start:,} ms on" if span.end is None else f"from {span.start:,} to {span.end:,} ms"
    pending = "" if span.buffer.visible else ", pending"
    whole = " ".join([type_text(isa, vocabulary), *words])
    lines = _lines(type_text(isa, vocabulary), words, room(right - left))
    colours = colours_of(isa, span.buffer.error)
    return Bar(span, left, right, lines, colours, f"{name}: {whole}{pending}, {when}")


def _lines(isa, words, most):
    """What is written on a bar: the type, and the slots under it. Where words would be cut to stumps there is nothing."""
    if columns(isa) > most and most < 6:
        return []
    slots = packed(words, most) if most >= 8 or all(columns(word) <= most for word in words) else ["…"]
    lines = [shortened(isa, most), *slots]
    return lines if len(lines) <= MOST_LINES else [*lines[: MOST_LINES - 1], "…"]


def _held(bar, height):
    width, pending = bar.right - bar.left, not bar.span.buffer.visible
    fill, border = bar.colours
    look = {"fill": fill, "fill_opacity": ".45"} if pending else {"fill": fill}
    if width > NARROW:
        look = {**look, "rx": 3, "stroke": border, **({"stroke_dasharray": "3 2"} if pending else {})}
    place = {"x": bar.left, "y": 2, "width": width - 1 if width > NARROW else max(width, 1), "height": height}
    parts = [element("rect", **place, **look)]
    if pending:
        parts.append(element("rect", **place, fill="url(#hatch)"))
    first = 2 + (height - LINE * len(bar.lines)) / 2 + 11
    for at, line in enumerate(bar.lines):
        parts.append(text(line, bar.left + PAD / 2, first + LINE * at, class_="slots" if at else "type"))
    return titled(bar.title, *parts, class_="held pending" if pending else "held visible")


def _nil(bar, height):
    y, kind = 2 + height / 2, "nil error" if bar.span.buffer.error else "nil"
    return titled(bar.title, element("path", d=f"M{bar.left:.2f} {y:.1f}H{bar.right - 1:.2f}"), class_=kind)
