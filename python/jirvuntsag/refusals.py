"""The numbers that calls answer by, in words, and the error that a refusal is."""

TOO_LONG, HALTED = 1, 9

MEANINGS = (
    "all that was asked is done",
    "the image is over 65,536 bytes",
    "a field of the image is not wholly there",
    "a version, count, type or kind breaks its rule",
    "a pad bit of the image is 1, or a byte follows",
    "the table's length is not nine words for each rule",
    "the state is not well formed",
    "the chosen entry of the table is not the fresh one",
    "the clock would pass 4,294,967,295",
    "halted before the steps asked were made",
    "the mark names a buffer that the image does not have",
    "a mask has a bit past the type's slots",
    "a variable is not below the rule's count, or stands in no test",
    "a buffer does not exist, does not rise, or is modified untested",
    "the store would have more than 256 facts",
    "the store has other than 256 places, a count over 256, or a fact that the image could not hold",
)

# the numbers that are about a field of the image: these alone have a position
ABOUT_A_FIELD = (2, 3, 11, 12, 13)


class Refused(Exception):
    """A call was refused by a number, 1 to 15.

    `position` says for 2, 3, 11, 12 and 13 where the field begins that is at fault: bits count from 0, and bit 0 is the most
    significant one of the first byte. For a variable that stands in no test it is the bit after the rule's last test. For
    every other number it is 0, and `where` is None.

    `words` says what is wrong: of an image that is no model the field, the value in it and the rule that it breaks, where the
    packer is at hand, which knows them; otherwise the `meaning` of the number.

    `made` and `events` are of the steps that a run made before it was refused (by 7, 8 or 14): these remain made.

    >>> print(Refused(3, position=53))
    refused by 3 at bit 53 (byte 6, bit 5 of it): a version, count, type or kind breaks its rule
    >>> print(Refused(4))
    refused by 4: a pad bit of the image is 1, or a byte follows
    """

    def __init__(self, number, made=0, events=(), position=0, words=None):
        super().__init__(number, made, events, position, words)
        self.number = number
        self.made = made
        self.events = list(events)
        self.position = position
        self.words = words or self.meaning

    @property
    def meaning(self):
        """What the number says, in words."""
        return MEANINGS[self.number]

    @property
    def where(self):
        """The byte in which the field at fault begins and the bit in that byte, both from 0; None if it is about no field.

        >>> Refused(11, position=258).where, Refused(3, position=0).where, Refused(4).where
        ((32, 2), (0, 0), None)
        """
        return divmod(self.position, 8) if self.number in ABOUT_A_FIELD else None

    @property
    def head(self):
        """The number and the place, as every part of the project tells them.

        >>> Refused(11, position=258).head, Refused(4).head
        ('refused by 11 at bit 258 (byte 32, bit 2 of it)', 'refused by 4')
        """
        if self.where is None:
            return f"refused by {self.number}"
        byte, bit = self.where
        return f"refused by {self.number} at bit {self.position} (byte {byte}, bit {bit} of it)"

    def __str__(self):
        return f"{self.head}: {self.words}"


def accepted(answer):
    """The answer of a call, if its number is 0; otherwise the refusal that it tells is raised."""
    if answer.number:
        raise Refused(answer.number, position=answer.position)
    return answer
