"""A picture of a run as SVG: the steps in one lane, what each buffer holds in a lane of its own, against the clock.

Every box and bar says all that it stands for where a pointer rests on it; what is written on it is cut to its width.
"""
from xml.sax.saxutils import escape

from ..recording import record
from ..refusals import HALTED, MEANINGS
from .axis import axis, ticks
from .buffers import buffer_lane
from .lanes import MARGIN
from .legend import legend
from .steps import step_lane
from .svg import Scale, clean, columns, element, number_text, shortened, text

PIXELS_PER_MS = 1.6  # a firing is then as wide as most rules' names
NARROWEST, WIDEST = 640, 1600  # pixels of the lanes, if no other width is asked
TOP = 58  # where the lanes begin

STYLE = (
    "text{font:11px monospace;fill:#222}.title{font:bold 15px sans-serif}.note{font:12px sans-serif;fill:#555}"
    ".lane{font:bold 12px sans-serif}.axis{font:11px sans-serif;fill:#444}.type{font-weight:bold}.stop{fill:#a83232}"
    ".held text,.fire text{paint-order:stroke;stroke:#fff;stroke-opacity:.75;stroke-width:3px;stroke-linejoin:round}"
    ".fire rect{fill:#33475b}.fire text.in{fill:#fff;stroke:none}.fire path{stroke:#33475b;stroke-width:.75;fill:none}"
    ".wait rect{fill:#eceff2}.wait text{fill:#667}.nil path{stroke:#b5bcc4;stroke-width:2}.error path{stroke:#a83232}"
    ".grid{stroke:#e3e6ea}.rule{stroke:#8d959e}.end{stroke:#a83232;stroke-dasharray:4 3}"
)


def timeline(run, steps=1000, title="A run", width=WIDEST):
    """The SVG of a run's next steps, at most so many; `width` is the most pixels of its lanes. The run itself is not moved.

    A run of `Model.open` is drawn as it is printed: it is lent an empty store, and learns. Other runs go by their own stores.

    >>> from jirvuntsag import Model
    >>> timeline(Model.load("examples/counting.image").open()).count('class="fire"') - 1
    4
    """
    recording = record(run, steps)
    vocabulary = run.model.vocabulary
    names = [vocabulary.buffers.text(number) for number in range(len(vocabulary.buffers))]
    scale = _scale(recording, names, max(width, NARROWEST))
    lanes = [step_lane(recording, scale, vocabulary.rules)]
    lanes += [buffer_lane(name, spans, scale, vocabulary) for name, spans in zip(names, recording.lanes.values())]
    below = [axis(scale), legend(recording, scale, vocabulary)]
    return _picture(recording, scale, title, lanes, below)


def _scale(recording, names, widest):
    """The clock from the run's start to a little after its end, where what the buffers hold last is seen."""
    label = min(max(columns(name) for name in [*names, "clock in ms"]), 24)
    left = MARGIN + 7.5 * label + 12
    end = recording.end + max(50, (recording.end - recording.start) // 16)
    width = min(max((end - recording.start) * PIXELS_PER_MS, NARROWEST), widest)
    return Scale(recording.start, end, left, left + width)


def _picture(recording, scale, title, lanes, below):
    """The heading, then the lanes over a grid, then what stands below them."""
    width, told = scale.right + MARGIN, _told(recording)
    foot = TOP + sum(lane.height for lane in lanes)
    height = foot + sum(lane.height for lane in below)
    parts = [
        element("title", escape(clean(title)), id="title"),
        element("desc", f"The steps of a run, and what each buffer holds, against the clock. {told}", id="desc"),
        element("style", STYLE),
        element("defs", _hatch()),
        element("rect", width=width, height=height, fill="#fff"),
        text(shortened(title, int((width - 2 * MARGIN) / 10)), MARGIN, 24, class_="title"),
        text(told, MARGIN, 43, class_="note"),
        *_grid(recording, scale, foot),
        *_stacked([*lanes, *below]),
    ]
    size = {"width": width, "height": height, "viewBox": f"0 0 {number_text(width)} {number_text(height)}"}
    inner = "".join(f"\n{part}" for part in parts)
    namespace = "http://www.w3.org/2000/svg"
    return element("svg", inner, "\n", xmlns=namespace, **size, role="img", aria_labelledby="title desc") + "\n"


def _told(recording):
    """The run in a sentence."""
    fires = sum(event.kind == "fire" for event in recording.events)
    waits = len(recording.events) - fires
    if recording.number == HALTED:
        end = f"halted at {recording.end:,} ms"
    elif recording.number == 0:
        end = f"the steps asked were made by {recording.end:,} ms"
    else:
        end = f"refused at {recording.end:,} ms by {recording.number}, {MEANINGS[recording.number]}"
    return f"{_counted(fires, 'firing')}, {_counted(waits, 'wait')}; {end}."


def _counted(count, what):
    return f"{count:,} {what}" if count == 1 else f"{count:,} {what}s"


def _hatch():
    """Slanting lines, for what is pending."""
    lines = element("path", d="M0 6L6 0M-1 1L1 -1M5 7L7 5", stroke="#556", stroke_opacity=".32")
    return element("pattern", lines, id="hatch", width=6, height=6, patternUnits="userSpaceOnUse")


def _grid(recording, scale, foot):
    """A line at each tick, and one where the run ends."""
    lines = [element("path", d=f"M{scale.x(clock):.2f} {TOP - 4}V{foot:.1f}", class_="grid") for clock in ticks(scale)]
    return [*lines, element("path", d=f"M{scale.x(recording.end):.2f} {TOP - 4}V{foot:.1f}", class_="end")]


def _stacked(lanes):
    """The lanes, one under the other."""
    parts, y = [], TOP
    for lane in lanes:
        parts.append(element("g", *lane.parts, transform=f"translate(0 {number_text(y)})"))
        y += lane.height
    return parts
