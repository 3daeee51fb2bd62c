"""The axis of a timeline: the clock."""
from .lanes import MARGIN, Lane
from .svg import element, round_step, text

LEAST_TICK = 90  # pixels from one tick of the axis to the next, at least


def ticks(scale):
    """The clocks at which the axis has a tick: round ones, so far apart that their numbers have room."""
    step = round_step(max(LEAST_TICK, 2 * _half(f"{scale.end:,}") + 30) / scale.per_ms)
    return range(-(-scale.start // step) * step, scale.end + 1, step)


def _half(said):
    """Half the width of a number at the axis."""
    return 3.5 * len(said)


def axis(scale):
    """A line with ticks and their clocks, in ms or, for a longer run, in seconds."""
    marks = ticks(scale)
    in_seconds = scale.end - scale.start > 2_000
    places = next(places for places in range(4) if marks.step % 10 ** (3 - places) == 0)
    parts = [element("path", d=f"M{scale.left:.2f} 0H{scale.right:.2f}", class_="rule")]
    parts.append(text(f"clock in {'s' if in_seconds else 'ms'}", MARGIN, 18, class_="axis"))
    for clock in marks:
        said = f"{clock / 1000:,.{places}f}" if in_seconds else f"{clock:,}"
        # the outermost numbers stay clear of the axis' name and of the picture's edge
        x = min(max(scale.x(clock), scale.left - 20 + _half(said)), scale.right + MARGIN - 2 - _half(said))
        parts.append(element("path", d=f"M{scale.x(clock):.2f} 0v5", class_="rule"))
        parts.append(text(said, x, 18, text_anchor="middle", class_="axis"))
    return Lane(34, parts)
