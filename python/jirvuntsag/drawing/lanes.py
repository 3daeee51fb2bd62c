"""What all strips of a timeline share."""
from typing import List, NamedTuple

from .svg import CHARACTER, shortened, text

MARGIN = 16
PAD = 8  # between a text and the border of its bar, both sides together
NARROW = 4  # a bar of this width or less has no border


class Lane(NamedTuple):
    """A strip of the picture: its height, and what is drawn on it from its top left corner on."""

    height: float
    parts: List[str]


def room(width):
    """How many columns of text a bar of this width has room for."""
    return max(int((width - PAD) / CHARACTER), 0)


def lane_name(name, scale, y):
    """The name at the left of a lane."""
    return text(shortened(name, room(scale.left - MARGIN) * 8 // 9), MARGIN, y, class_="lane")
