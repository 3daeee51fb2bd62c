"""A run that tells its steps is made in pieces, so that what is laid out for events stays small."""
from array import array

# the first is short, since most runs are
FIRST_PIECE, LARGEST_PIECE = 64, 4_096


def trace_in_pieces(engine, image, kept, steps):
    """Makes steps as an engine's `trace` does: the number of the last piece is the run's."""
    events, made, piece = array("I"), 0, FIRST_PIECE
    while True:
        number, more, kept, told = engine.trace(image, kept, min(piece, steps - made))
        made += more
        events += told
        if number or made == steps:
            return number, made, kept, events
        piece = min(4 * piece, LARGEST_PIECE)
