"""What the chunks of a type look like, and how the type is called."""

# for each type of chunk, in turn: how its bars are filled and bordered
COLOURS = [
    ("#cfe2f3", "#2f6496"),
    ("#fde3c3", "#a8620b"),
    ("#d3ecd3", "#2f7a35"),
    ("#ead6f0", "#7b3f91"),
    ("#f9d5d5", "#a83232"),
    ("#fff2b8", "#8a7400"),
    ("#cdeeee", "#1b7676"),
    ("#e3dccf", "#6d5a3a"),
]
NIL_COLOURS = ("#e4e7ea", "#6b7480")
ERROR_COLOURS = ("#f6dada", "#a83232")


def colours_of(isa, error=False):
    """Fill and border of a chunk's bar, by the number of its type; of an empty buffer's, whether a request has failed."""
    if isa:
        return COLOURS[(isa - 1) % len(COLOURS)]
    return ERROR_COLOURS if error else NIL_COLOURS


def type_text(isa, vocabulary):
    """What a chunk's type is called on a bar; that of an empty buffer is nil."""
    return vocabulary.types.text(isa) if isa else "nil"
