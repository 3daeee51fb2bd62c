"""How what was handed in is repeated in an error: cut where it is long, and with nothing that a terminal would obey."""

LONGEST = 60
LONGEST_LINE = 300
MOST_LINES = 50


def shown(text, longest=LONGEST):
    """A text to be repeated: what cannot be printed is escaped, and a long one is cut.

    >>> print(shown("gaol"), shown("a\\x1b[2Jb"), shown("x" * 1_000_000))
    gaol a\\x1b[2Jb xxxxxxxxxxxxxxxxxxxxxxxxxxxxxxxxxxxxxxxxxxxxxxxxxxxxxxxxxxxx.. (1,000,000 characters)
    """
    text = text if isinstance(text, str) else str(text)
    start = printable(text[:longest])
    return start if len(text) <= longest else f"{start}.. ({len(text):,} characters)"


def printable(text):
    """A text, whole, with what cannot be printed escaped.

    >>> print(printable("a\\x1b[2Jb"))
    a\\x1b[2Jb
    """
    return text if text.isprintable() else "".join(map(_plain, text))


def shown_path(path):
    """The name of a file, to be repeated: most are longer than other names."""
    return shown(path, LONGEST_LINE)


def shown_lines(text):
    """A text of several lines, to be repeated: each is cut and escaped, and of very many the first are taken.

    >>> print(shown_lines("a\\x1b\\nb"))
    a\\x1b
    b
    """
    lines = text.rstrip("\n").split("\n")
    more = [f"and {len(lines) - MOST_LINES:,} more lines"] if len(lines) > MOST_LINES else []
    return "\n".join([shown(line, LONGEST_LINE) for line in lines[:MOST_LINES]] + more)


def _plain(character):
    return character if character.isprintable() else character.encode("unicode_escape", "surrogatepass").decode("ascii")
