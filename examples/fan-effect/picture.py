"""The picture of the fan effect: three panels as SVG, with nothing but the module's own small pieces of SVG."""
from jirvuntsag.drawing.svg import element, number_text, text

WIDTH, HEIGHT, TOP = 1180, 480, 100
PANEL, LEFT, GAP = 300, 70, 390
NOTE = "lines: equations (2.3) to (2.5); dots and numbers: runs of examples/fan-effect/fan.model"
SHOWN_BASE, SHOWN_STRENGTH = 0.0, 2.0
COLOURS = ["#1b4f72", "#2e86c1", "#17a589", "#d68910", "#b03a2e"]
STYLE = (
    "text{font:12px sans-serif;fill:#222}.title{font:bold 17px sans-serif}.head{font:bold 13px sans-serif}.note{fill:#555}"
    ".axis{stroke:#8d959e;fill:none}.grid{stroke:#e3e6ea}.cell{font:11px sans-serif}.white{fill:#fff}"
)


class Frame:
    """A square panel with an axis to the right and one upwards, each from one value to another."""

    def __init__(self, number, x_range, y_range):
        self.left, self.x_range, self.y_range = LEFT + GAP * number, x_range, y_range

    def x(self, value):
        """Where a value stands to the right."""
        low, high = self.x_range
        return self.left + PANEL * (value - low) / (high - low)

    def y(self, value):
        """Where a value stands upwards."""
        low, high = self.y_range
        return TOP + PANEL * (1 - (value - low) / (high - low))

    def axes(self, head, note, names, ticks):
        """The frame with its heading, the names of its axes, and lines at its ticks."""
        (x_name, y_name), (x_ticks, y_ticks), foot = names, ticks, TOP + PANEL
        parts = [text(head, self.left, TOP - 32, class_="head"), text(note, self.left, TOP - 14, class_="note")]
        for value in y_ticks:
            parts.append(element("path", d=f"M{self.left} {self.y(value):.1f}h{PANEL}", class_="grid"))
            parts.append(text(f"{value:,}", self.left - 6, self.y(value) + 4, text_anchor="end"))
        parts += [text(f"{value:,}", self.x(value), foot + 18, text_anchor="middle") for value in x_ticks]
        parts.append(element("path", d=f"M{self.left} {TOP}v{PANEL}h{PANEL}", class_="axis"))
        parts.append(text(x_name, self.left + PANEL / 2, foot + 38, text_anchor="middle"))
        turned = f"translate({self.left - 48} {TOP + PANEL / 2}) rotate(-90)"
        return [*parts, element("g", text(y_name, 0, 0, text_anchor="middle"), transform=turned)]


def effect(times):
    """How much longer a sentence takes whose words were studied three times each than one whose words were studied once."""
    return times[3, 3] - times[1, 1]


def ceiling(value, step):
    """The next multiple of a step."""
    return step * -(-int(value + 0.999) // step)


def by_fan(found):
    """Times against how often both words were studied: lines from the equation, dots from runs."""
    shown = [one for one in found if (one.combination.base, one.combination.strength) == (SHOWN_BASE, SHOWN_STRENGTH)][1::2]
    top = ceiling(max(one.predicted[3, 3] for one in shown), 100)
    frame = Frame(0, (0.8, 3.55), (0, top))
    names = "facts studied about the person, and about the place", "ms until the answer"
    note = f"S = {SHOWN_STRENGTH:g}, B = {SHOWN_BASE:g}"
    parts = frame.axes("The more facts, the slower", note, names, ([1, 2, 3], range(0, top + 1, 100)))
    for one, colour in zip(shown, COLOURS):
        points = [(frame.x(count), frame.y(one.predicted[count, count])) for count in (1, 2, 3)]
        path = "M" + "L".join(f"{x:.1f} {y:.1f}" for x, y in points)
        parts.append(element("path", d=path, stroke=colour, fill="none", stroke_width=1.5))
        dots = [(frame.x(count), frame.y(one.runs[count, count])) for count in (1, 2, 3)]
        parts += [element("circle", cx=x, cy=y, r=4, fill=colour) for x, y in dots]
        parts.append(text(f"F = {one.combination.factor:g}", points[-1][0] + 10, points[-1][1] + 4, class_="note"))
    return parts


def by_parameters(found):
    """The effect in runs for each strength and factor, as a field of numbers."""
    shown = {one.combination[:2]: effect(one.runs) for one in found if one.combination.base == SHOWN_BASE}
    strengths, factors = (sorted({key[part] for key in shown}) for part in (0, 1))
    frame, most = Frame(1, (0, len(strengths)), (0, len(factors))), max(shown.values())
    names = "largest strength S", "latency factor F, in seconds"
    parts = frame.axes("How large the effect is", f"ms from 1 to 3 facts, in runs; B = {SHOWN_BASE:g}", names, ([], []))
    side = PANEL / len(strengths)
    for (strength, factor), value in shown.items():
        column, row, part = strengths.index(strength), factors.index(factor), value / most
        x, y = frame.x(column), frame.y(row + 1)
        shade = "#" + "".join(f"{round(high + (low - high) * part):02x}" for low, high in ((27, 236), (79, 243), (114, 248)))
        parts.append(element("rect", x=x, y=y, width=side, height=side, fill=shade, stroke="#fff"))
        dark = "cell white" if part > 0.45 else "cell"
        parts.append(text(f"{value}", x + side / 2, y + side / 2 + 4, text_anchor="middle", class_=dark))
    foot = TOP + PANEL + 18
    parts += [text(f"{one:g}", frame.x(at + 0.5), foot, text_anchor="middle") for at, one in enumerate(strengths)]
    left = frame.left - 6
    return parts + [text(f"{one:g}", left, frame.y(at + 0.5) + 4, text_anchor="end") for at, one in enumerate(factors)]


def agreement(found):
    """The effect of each combination, as predicted and in runs: all on the line where both are the same."""
    top = ceiling(max(effect(one.predicted) for one in found), 200)
    frame, ticks = Frame(2, (0, top), (0, top)), range(0, top + 1, 200)
    names = "ms from 1 to 3 facts, by the equation", "ms from 1 to 3 facts, in runs"
    parts = frame.axes("Runs and equation agree", f"each of the {len(found):,} combinations is a dot", names, (ticks, ticks))
    parts.append(element("path", d=f"M{frame.x(0)} {frame.y(0)}L{frame.x(top)} {frame.y(top)}", stroke="#b03a2e"))
    for one in found:
        x, y = frame.x(effect(one.predicted)), frame.y(effect(one.runs))
        parts.append(element("circle", cx=x, cy=y, r=2, fill="#1b4f72", fill_opacity=".35"))
    return parts


def picture(found):
    """All three panels."""
    parts = [
        element("title", "The fan effect over 1,000 combinations of parameters"),
        element("style", STYLE),
        element("rect", width=WIDTH, height=HEIGHT, fill="#fff"),
        text("The fan effect: time to say that a sentence was studied", LEFT - 50, 32, class_="title"),
        *by_fan(found),
        *by_parameters(found),
        *agreement(found),
        text(NOTE, LEFT - 50, HEIGHT - 14, class_="note"),
    ]
    size = {"width": WIDTH, "height": HEIGHT, "viewBox": f"0 0 {number_text(WIDTH)} {number_text(HEIGHT)}"}
    inner = "".join(f"\n{part}" for part in parts)
    return element("svg", inner, "\n", xmlns="http://www.w3.org/2000/svg", **size, role="img") + "\n"
