"""Many runs by the engine that keeps nothing: the answers are those of the packer's runs, which keep tables, word for word."""
from array import array

from .calls import EVENT_WORDS, STATE_WORDS
from .engines import Fresh
from .packer import FLAGS
from .pieces import trace_in_pieces
from .stores import long_words, short_stores, short_words

FIRE = 0


def run_all_afresh(runs, stop=None):
    """Makes runs as `packer.run_all` does, each from its own state, with the same words for each run and each event."""
    rows, events, learned = array("I"), array("I"), array("H")
    stores = short_stores(runs.stores)
    for at, job in enumerate(runs.jobs):
        if stop is not None and stop.value:
            break
        state = runs.states[STATE_WORDS * at : STATE_WORDS * (at + 1)]
        flags = runs.keep[FLAGS * job : FLAGS * (job + 1)]
        kept = state, long_words(next(stores, None))
        number, made, (state, store), told = _run(runs.images[job], kept, runs.steps, flags)
        rows.extend([number, made, len(told) // EVENT_WORDS])
        rows.extend(state)
        events.extend(told)
        if runs.stores:
            learned.extend(short_words(store))
    return [rows, events, learned]


def _run(image, kept, steps, flags):
    """Makes a run: its number, the steps made, what is kept after them, and the words of the events that are wanted."""
    if not flags:
        return *Fresh.run(image, kept, steps), array("I")
    number, made, kept, told = trace_in_pieces(Fresh, image, kept, steps)
    return number, made, kept, _wanted(told, flags)


def _wanted(told, flags):
    """Of the events those whose rule has a flag; the last flag is for waits."""
    wanted = array("I")
    for start in range(0, len(told), EVENT_WORDS):
        event = told[start : start + EVENT_WORDS]
        _, kind, rule = event
        if flags[rule if kind == FIRE else FLAGS - 1]:
            wanted.extend(event)
    return wanted
