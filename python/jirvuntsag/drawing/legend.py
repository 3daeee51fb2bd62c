"""The legend of a timeline."""
from .colours import NIL_COLOURS, colours_of, type_text
from .lanes import MARGIN, Lane
from .svg import CHARACTER, columns, element, shortened, text


def legend(recording, scale, vocabulary):
    """What boxes, bars and colours stand for; of types those that the buffers hold."""
    spans = [span for spans in recording.lanes.values() for span in spans]
    types = sorted({vocabulary.types.number(span.buffer.type) for span in spans} - {0})
    items = [("firing", _sample("fire")), ("wait", _sample("wait")), ("pending", _swatch(NIL_COLOURS, hatched=True))]
    items.append(("nil", _line("nil")))
    items += [("error", _line("nil error"))] * any(span.buffer.error for span in spans)
    items += [(shortened(type_text(isa, vocabulary), 24), _swatch(colours_of(isa))) for isa in types]
    parts, x, y = [], MARGIN, 4
    for name, sample in items:
        width = 28 + CHARACTER * columns(name) + 22
        if x > MARGIN and x + width > scale.right:
            x, y = MARGIN, y + 20
        parts.append(element("g", sample, text(name, 28, 10), transform=f"translate({x:.1f} {y})"))
        x += width
    return Lane(y + 26, parts)


def _line(kind):
    return element("g", element("path", d="M0 6H22"), class_=kind)


def _sample(kind):
    return element("g", element("rect", width=22, height=12), class_=kind)


def _swatch(colours, hatched=False):
    fill, border = colours
    swatch = element("rect", width=22, height=12, rx=2, fill=fill, stroke=border)
    return swatch + element("rect", width=22, height=12, rx=2, fill="url(#hatch)") if hatched else swatch
