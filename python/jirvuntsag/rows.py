"""What a sweep gives back for each item: how its run ended, and what its buffers hold then."""
from .calls import EVENT_WORDS, STATE_WORDS
from .events import events_from
from .refusals import HALTED, MEANINGS
from .states import WORDS_BEFORE, Buffers, state_from, with_flags
from .stores import long_words, short_stores, store_from

COUNTS = 3  # words of a row before its state: the number, the steps made, the events kept
ROW_WORDS = COUNTS + STATE_WORDS


class Row:
    """The end of a run: its item and model, the number that it ended by, the steps made, clock, buffers, the events kept.

    >>> import jirvuntsag as jv
    >>> (row,) = jv.sweep([jv.Model.load("examples/counting.model")], events=["stop"])
    >>> row
    <Row end 9 7 at 550 ms: {goal: chunk, retrieval: chunk error}>
    >>> row.halted, row.clock, [str(event) for event in row.events]
    (True, 550, ['400 fire stop'])
    """

    __slots__ = ("item", "model", "_words", "_at", "_events", "_learned")

    def __init__(self, item, model, words, at, events, learned=None):
        if len(words) == COUNTS + WORDS_BEFORE:
            words = words[:COUNTS] + with_flags(words[COUNTS:])
        # the words are those of a whole batch: nothing is taken out until it is asked for
        self.item, self.model, self._words, self._at, self._events = item, model, words, at, events
        self._learned = learned

    @property
    def number(self):
        """The number that the run ended by."""
        return self._words[self._at]

    @property
    def made(self):
        """The steps made."""
        return self._words[self._at + 1]

    @property
    def clock(self):
        """The clock at the end, in ms."""
        return self._words[self._at + COUNTS]

    @property
    def _state(self):
        return self._words[self._at + COUNTS : self._at + ROW_WORDS]

    @property
    def buffers(self):
        """The buffers at the end, by name or number."""
        return Buffers(self._state, self.model.vocabulary)

    @property
    def state(self):
        """The state at the end, as plain data: `row.model.at(row.state, store=row.store)` goes on from there."""
        return state_from(self._state, self.model.vocabulary)

    @property
    def store(self):
        """What was learned by the end: a `Store`, or None if none was lent.

        >>> import jirvuntsag as jv
        >>> jv.sweep([jv.Model.load("examples/counting.model")])[0].store
        <Store of 1 fact: count current=3 target=3>
        """
        return None if self._learned is None else store_from(long_words(self._learned), self.model)

    @property
    def events(self):
        """The events that were asked for, in their order."""
        return events_from(self._events, self.model.vocabulary.rules)

    @property
    def halted(self):
        """No rule matched and nothing was pending."""
        return self.number == HALTED

    @property
    def meaning(self):
        """What the number says, in words."""
        return MEANINGS[self.number]

    def as_dict(self):
        """The row as plain data, for a table: the number, the steps made, the clock, and each buffer as a text.

        >>> import jirvuntsag as jv
        >>> jv.sweep([jv.Model.load("examples/counting.model")], steps=2)[0].as_dict()
        {'number': 0, 'made': 2, 'clock': 150, 'goal': 'count current=1 target=3', 'retrieval': 'follows first=1 second=2'}
        """
        buffers = {str(name): str(buffer) for name, buffer in self.buffers.items()}
        return {"number": self.number, "made": self.made, "clock": self.clock, **buffers}

    def __reduce__(self):
        """How a row is kept by `pickle`: with its own words alone."""
        words = self._words[self._at : self._at + ROW_WORDS]
        return Row, (self.item, self.model, words, 0, self._events, self._learned)

    def __repr__(self):
        return f"<Row end {self.number} {self.made} at {self.clock} ms: {self.buffers!r}>"


def rows_from(items, models, made):
    """The rows of a batch: for each run its item, its model, and its words among those that the packer gave."""
    words, events, learned = made
    rows, at, stores = [], 0, short_stores(learned)
    for item, model, start in zip(items, models, range(0, len(words), ROW_WORDS)):
        end = at + EVENT_WORDS * words[start + 2]
        rows.append(Row(item, model, words, start, events[at:end] if events else events, next(stores, None)))
        at = end
    return rows
