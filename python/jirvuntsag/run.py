"""A run of a model: a state, with its table if one is kept and its store if one is lent, which moves on by steps."""
import functools
import itertools
import operator
import threading
from array import array

from . import calls
from .engines import ENTRY_WORDS, Fresh, Keeping
from .events import Ended, events_from
from .matches import Match, first_miss
from .pieces import trace_in_pieces
from .refusals import HALTED, Refused
from .states import Buffer, Buffers, buffer_words, clock_of, place, state_from, state_words, with_flags
from .stores import lent_words, store_from


def _alone(method):
    """A method that has its run for itself: a second thread waits until it is done."""

    @functools.wraps(method)
    def locked(run, *arguments, **named):
        with run._lock:
            return method(run, *arguments, **named)

    return locked


class Run:
    """A run, made by `Model.open` or `Model.at`. Its table is always the fresh one, so that number 7 never comes
    (but for a run that was pickled before request 2026-01: `run.model.at(run.words)` goes on from there).

    With `fresh=True` it has no table: every rule is matched afresh at each step, and no match is kept. All that a run can do it
    does alike and with the same answers, which is proved; copies and pickles keep nothing, either.

    It learns: a chunk that a rule clears joins its store, as `Store` says, and requests find it there from the next step on.
    With `store=None` it is lent none, and learns nothing.

    A model that halts is no error: `step` gives None, `steps` ends, `run` says 9. A clock that would pass its largest is
    one: `Refused`, by 8, after the steps that could be made. So is a step that would learn more than the store has places
    for: `Refused`, by 14.

    Threads may share a run: each call has it for itself, and the others wait. What two of them do with it in several calls
    goes in any order, so that a run of its own (`copy`) is what a thread mostly wants. A model is never written to.

    >>> from jirvuntsag import Model
    >>> run = Model.load("examples/counting.image").open()
    >>> run.step()
    Event(clock=50, kind='fire', rule=0, ms=50, name=0)
    >>> branch = run.copy()
    >>> print(run.run())
    end 9 6
    >>> run.clock, branch.clock
    (550, 50)
    """

    def __init__(self, model, state, table=None, store=None):
        self._model = model
        self._engine = Fresh if table is None else Keeping
        # what is kept is replaced, all at once, and never written to: state and table always fit, and copies may share them
        tables = () if table is None else (array("H", table),)
        self._kept = (with_flags(array("I", state)), *tables, None if store is None else array("H", store))
        self._lock = threading.RLock()

    def __reduce__(self):
        """How a run is copied and kept by `copy` and `pickle`: with table and store, if it has them, and without its lock."""
        state, *table, store = self._kept
        return Run, (self._model, state, table[0] if table else None, store)

    @property
    def model(self):
        """The model."""
        return self._model

    @property
    def fresh(self):
        """No matches are kept from step to step: the run has no table.

        >>> from jirvuntsag import Model
        >>> model = Model.load("examples/counting.image")
        >>> model.open().fresh, model.open(fresh=True).fresh, model.open(fresh=True).copy().fresh
        (False, True, True)
        """
        return self._engine is Fresh

    @property
    def clock(self):
        """The clock in ms."""
        return self._kept[0][0]

    @clock.setter
    @_alone
    def clock(self, clock):
        self._move_to([clock_of(clock), *self.words[1:]])

    @property
    def buffers(self):
        """The buffers as they are now, by name or number."""
        return Buffers(self._kept[0], self._model.vocabulary)

    @property
    def words(self):
        """The state as 89 words: the clock, then type, eight slots, delay and error flag of each of eight buffers."""
        return tuple(self._kept[0])

    @property
    def start(self):
        """The words that a run from here begins with: an array that must not be written to."""
        return self._kept[0]

    @property
    def lent(self):
        """The words of the store that a run from here is lent, or None: an array that must not be written to."""
        return self._kept[-1]

    @property
    def state(self):
        """The state as plain data. What it is set to becomes the state, and the table, if one is kept, is made to fit it.

        >>> from jirvuntsag import Model
        >>> run = Model.load("examples/counting.image").open()
        >>> kept = run.state
        >>> kept["clock"], kept["buffers"][0]
        (0, {'type': 2, 'slots': {0: 1, 1: 3}, 'delay': 0, 'error': False})
        >>> first = run.run()
        >>> run.state = kept
        >>> run.run() == first
        True
        """
        return state_from(self._kept[0], self._model.vocabulary)

    @state.setter
    @_alone
    def state(self, state):
        self._move_to(state_words(state, self._model.vocabulary))

    @property
    def store(self):
        """What the run has learned, and what it was lent: a `Store`, or None if it is lent none and learns nothing.

        What it is set to is lent from here on. State and store are apart: a run may go back without forgetting, or forget.

        >>> from jirvuntsag import Model, Store
        >>> run = Model.load("examples/pupil.model").open()
        >>> run.store, str(run.run()), run.store
        (<Store of no facts>, 'end 9 15', <Store of 1 fact: sum first=3 second=2 result=5>)
        >>> run.store = None
        >>> repr(run)[:33]
        '<Run at 1100 ms, learning nothing'
        """
        words = self.lent
        return None if words is None else store_from(words, self._model)

    @store.setter
    @_alone
    def store(self, store):
        self._kept = (*self._kept[:-1], lent_words(store, self._model))

    @property
    def table(self):
        """The table: for each rule 1 and the values of its variables 0 to 7, or nine zeros if it does not match.

        Where nothing is kept, it is made from the state now, and forgotten again: no step ever reads it.

        >>> from jirvuntsag import Model
        >>> model = Model.load("examples/counting.image")
        >>> model.open(fresh=True).table == model.open().table
        True
        """
        table = self._engine.table(self._model, self._kept)
        return [tuple(table[start : start + ENTRY_WORDS]) for start in range(0, len(table), ENTRY_WORDS)]

    @_alone
    def put(self, buffer, type, slots=None, delay=0, error=False):
        """Puts a chunk into a buffer from outside. Slots that are not named hold nil.

        With `error` an empty buffer is one whose request has failed, as a rule may ask by `state error`.

        >>> from jirvuntsag import Model
        >>> run = Model.load("examples/counting.image").open()
        >>> run.put(0, 2, {0: 2, 1: 3})
        >>> run.put(1, 0, delay=80, error=True)
        >>> print(run.buffers[0], run.buffers[1], sep="; ")
        2 0=#2 1=#3; 0 error in 80 ms
        """
        number = self._model.vocabulary.buffers.number(buffer)
        chunk = Buffer(type, {} if slots is None else slots, delay, error)
        words = array("I", self.words)
        words[place(number)] = buffer_words(chunk, self._model.vocabulary)
        self._move_to(words)

    def clear(self, buffer):
        """Empties a buffer from outside: it holds nil, which is visible, and is not in error."""
        self.put(buffer, 0)

    def matching(self):
        """The rules that match now, by rising number: the conflict set.

        Of these the one of highest utility fires next, the first among equals.

        >>> from jirvuntsag import Model
        >>> Model.load("examples/counting.image").open().matching()
        [Match(rule=0, name=0, utility=0, values={0: #1})]
        """
        entries = enumerate(self.table)
        return [self._match(rule, entry[1:]) for rule, entry in entries if entry[0] == 1]

    def why_not(self, rule):
        """The first test of a rule that does not hold now, or else the first query; None if the rule matches.

        >>> from jirvuntsag import Model
        >>> run = Model.load("examples/counting.image").open()
        >>> print(run.why_not(2))
        slot 1 of buffer 0 is #3, not #1
        >>> print(run.why_not(0))
        None
        """
        number = self._model.vocabulary.rules.number(rule)
        kept = self._kept
        if self._engine.table(self._model, kept)[ENTRY_WORDS * number] == 1:
            return None
        return first_miss(self._model, number, kept[0])

    def step(self):
        """Makes one step: its event, or None if the model has halted."""
        events = self.run(1).events
        return events[0] if events else None

    def steps(self, most=None):
        """Makes steps, one whenever an event is asked for, at most so many; ends where the model halts.

        >>> from jirvuntsag import Model
        >>> run = Model.load("examples/counting.image").open()
        >>> [str(event) for event in run.steps(2)]
        ['50 fire 0', '150 wait 100']
        """
        numbers = itertools.count() if most is None else range(_count(most))
        events = (self.step() for _ in numbers)
        return itertools.takewhile(lambda event: event is not None, events)

    @_alone
    def run(self, steps=calls.MOST_STEPS, events=True):
        """Makes at most so many steps, 65,535 at once at the most: how it ended. Without `events` none are told.

        >>> from jirvuntsag import Model
        >>> run = Model.load("examples/counting.image").open()
        >>> run.run(events=False)
        Ended(number=9, made=7, events=[])
        """
        steps = calls.small_number(steps, "the steps asked")
        number, made, told = self._traced(steps) if events else self._made(steps)
        if number not in (0, HALTED):
            raise Refused(number, made, told)
        return Ended(number, made, told)

    def _made(self, steps):
        """Makes steps and tells none."""
        number, made, self._kept = self._engine.run(self._model.image, self._kept, steps)
        return number, made, []

    def _traced(self, steps):
        """Makes steps and tells all."""
        number, made, self._kept, words = trace_in_pieces(self._engine, self._model.image, self._kept, steps)
        return number, made, events_from(words, self._model.vocabulary.rules)

    @_alone
    def until(self, clock):
        """Makes steps while the clock is below `clock`: how it ended, 0 if the clock has got there.

        >>> from jirvuntsag import Model
        >>> run = Model.load("examples/counting.image").open()
        >>> print(run.until(300), run.clock)
        end 0 4 300
        """
        clock = clock_of(clock)
        events = []
        while self.clock < clock:
            event = self.step()
            if event is None:
                return Ended(HALTED, len(events), events)
            events.append(event)
        return Ended(0, len(events), events)

    def copy(self, *, fresh=None):
        """Another run from here, which goes its own way: with a table or without, as this one, if nothing else is said.

        What this one has learned it knows, too; what either learns from here on the other does not.

        >>> from jirvuntsag import Model
        >>> run = Model.load("examples/counting.image").open()
        >>> other = run.copy(fresh=True)
        >>> other.run() == run.run(), other.words == run.words
        (True, True)
        """
        function, arguments = self.__reduce__()
        run = function(*arguments)
        return run if fresh is None or bool(fresh) == self.fresh else self._model.at(run.words, fresh=fresh, store=run.store)

    def _move_to(self, words):
        """Takes another state."""
        self._kept = self._engine.moved(self._model, self._kept, array("I", words))

    def _match(self, rule, values):
        vocabulary = self._model.vocabulary
        named = {variable: vocabulary.symbols.name(value) for variable, value in zip(vocabulary.variables[rule], values)}
        return Match(rule, vocabulary.rules.name(rule), self._model.shape.rules[rule].utility, named)

    def __repr__(self):
        told = f"{', keeping nothing' if self.fresh else ''}{', learning nothing' if self.lent is None else ''}"
        return f"<Run at {self.clock} ms{told}: {self.buffers!r}>"


def _count(number):
    try:
        number = operator.index(number)
    except TypeError:
        raise TypeError(f"the steps asked must be a whole number, not {type(number).__name__}") from None
    if number < 0:
        raise ValueError(f"the steps asked must be 0 or more, not {number}")
    return number
