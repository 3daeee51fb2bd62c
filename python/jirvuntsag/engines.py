"""The two engines that move a run on: one keeps a table of the matches of all rules, the other keeps nothing but the state.

They answer alike, word for word, which is proved, so that nobody can tell them apart: the first is quicker, and with the second
no match can outlive its chunk. What goes from step to step is a tuple: a state, its table if one is kept, and last the words of
the store that is lent, None if none is. The image is one that was accepted, so that no number has a position.
"""
from array import array

from . import calls
from .refusals import accepted
from .states import place

ENTRY_WORDS = 9


class Keeping:
    """Keeps a table beside the state: after a step the rules are matched again that test or query a buffer that it marked."""

    @staticmethod
    def run(image, kept, steps):
        """Makes steps: the number, how many were made, and what is kept after them."""
        return Keeping.trace(image, kept, steps, events=False)[:3]

    @staticmethod
    def trace(image, kept, steps, events=True):
        """Makes steps as `run` does, with the words of their events."""
        state, table, store = kept
        ran = calls.run_lent(image, state, table, steps, store, events=events)
        return ran.number, ran.made, (ran.state, ran.table, ran.store), ran.events

    @staticmethod
    def at(model, words, store):
        """What is kept of a state that is given: its fresh table, too. A state that is not well formed is refused."""
        table = fresh_table(model, words)
        return array("I", words), table, store

    @staticmethod
    def moved(model, kept, words):
        """What is kept of another state: the table is refreshed with the buffers that differ."""
        state, table, store = kept
        differing = (b for b in range(model.shape.buffers) if words[place(b)] != state[place(b)])
        return words, _refreshed(model, words, sum(2**b for b in differing), table), store

    @staticmethod
    def table(_model, kept):
        """The words of the table that is kept."""
        return kept[1]


class Fresh:
    """Keeps no table: every rule is matched afresh at each step, and what it matched is forgotten after it."""

    @staticmethod
    def run(image, kept, steps):
        """Makes steps: the number, how many were made, and what is kept after them."""
        return Fresh.trace(image, kept, steps, events=False)[:3]

    @staticmethod
    def trace(image, kept, steps, events=True):
        """Makes steps as `run` does, with the words of their events."""
        state, store = kept
        ran = calls.run_fresh_lent(image, state, steps, store, events=events)
        return ran.number, ran.made, (ran.state, ran.store), ran.events

    @staticmethod
    def at(model, words, store):
        """What is kept of a state that is given. A state that is not well formed is refused."""
        # a run of no steps does nothing but check what it is handed
        return accepted(calls.run_fresh(model.image, words, 0)).state, store

    @staticmethod
    def moved(model, kept, words):
        """What is kept of another state: of the one before the store alone, so that nothing needs a refresh."""
        return Fresh.at(model, words, kept[-1])

    @staticmethod
    def table(model, kept):
        """The words of the table that fits the state now: made when it is asked for, and not kept."""
        return fresh_table(model, kept[0])


def fresh_table(model, words):
    """The words of the fresh table of a state. A state that is not well formed is refused."""
    zeros = [0] * (ENTRY_WORDS * len(model.shape.rules))
    # every rule tests or queries a buffer, so a refresh with all buffers marked makes every entry fresh
    return _refreshed(model, words, 2**model.shape.buffers - 1, zeros)


def _refreshed(model, words, mark, table):
    return accepted(calls.refresh_table(model.image, words, mark, table)).table
