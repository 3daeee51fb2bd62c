"""Small pieces of SVG: elements, texts that are sure to fit, round numbers for an axis."""
import re
import unicodedata
from typing import NamedTuple
from xml.sax.saxutils import escape, quoteattr

CHARACTER = 6.7  # the width of a character of 11 pixels in a font whose characters are all alike, and a little more
LINE = 14  # from one line of text to the next

_NOT_XML = re.compile("[^\t\n\r\x20-\ud7ff\ue000-\ufffd\U00010000-\U0010ffff]")


def clean(text):
    """A text with what XML cannot hold replaced."""
    return _NOT_XML.sub("\ufffd", str(text))


def number_text(number):
    """A coordinate, to two places at the most.

    >>> number_text(2.0), number_text(1 / 3)
    ('2', '0.33')
    """
    return f"{number:.2f}".rstrip("0").rstrip(".")


def element(name, *inner, **attributes):
    """An element. `inner` is SVG already; an underscore in an attribute's name stands for a hyphen, at its end for nothing.

    >>> element("g", element("path", d="M0 0"), class_="a&b")
    '<g class="a&amp;b"><path d="M0 0"/></g>'
    """
    shown = "".join(f" {key.rstrip('_').replace('_', '-')}={_value(value)}" for key, value in attributes.items())
    return f"<{name}{shown}>{''.join(inner)}</{name}>" if inner else f"<{name}{shown}/>"


def _value(value):
    return quoteattr(number_text(value) if isinstance(value, (int, float)) else clean(value))


def text(content, x, y, **attributes):
    """A line of text."""
    return element("text", escape(clean(content)), x=x, y=y, **attributes)


def titled(title, *inner, **attributes):
    """A group that says its title where a pointer rests on it."""
    return element("g", element("title", escape(clean(title))), *inner, **attributes)


def columns(content):
    """How many characters wide a text is; some characters are as wide as two.

    >>> columns("ab"), columns("数")
    (2, 2)
    """
    return sum(2 if unicodedata.east_asian_width(character) in "WF" else 1 for character in content)


def shortened(content, most):
    """A text of at most so many columns: the end is cut off and an ellipsis put there.

    >>> shortened("retrieval", 9), shortened("retrieval", 5)
    ('retrieval', 'retr…')
    """
    if columns(content) <= most:
        return content
    while content and columns(content) > most - 1:
        content = content[:-1]
    return content + "…"


def packed(words, most):
    """Words in lines of at most so many columns; a word that is longer is cut.

    >>> packed(["first=1", "second=2", "third=3"], 16)
    ['first=1 second=2', 'third=3']
    """
    lines = []
    for word in words:
        word = shortened(word, most)
        if lines and columns(lines[-1]) + 1 + columns(word) <= most:
            lines[-1] += " " + word
        else:
            lines.append(word)
    return lines


def round_step(least):
    """The smallest of 1, 2, 5, 10, 20, 50, .. that is at least `least`.

    >>> [round_step(least) for least in (0.3, 3, 51, 1000)]
    [1, 5, 100, 1000]
    """
    power = 1
    while True:
        for digit in 1, 2, 5:
            if digit * power >= least:
                return digit * power
        power *= 10


class Scale(NamedTuple):
    """Clocks from `start` to `end` stand at pixels from `left` to `right`."""

    start: int
    end: int
    left: float
    right: float

    def x(self, clock):
        """Where a clock stands."""
        return self.left + (clock - self.start) * self.per_ms

    @property
    def per_ms(self):
        """Pixels of a ms."""
        return (self.right - self.left) / (self.end - self.start)
