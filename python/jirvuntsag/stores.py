"""What runs have learned: a store of facts, which is lent to a run and handed on to the next."""
from array import array

from . import calls
from .refusals import accepted
from .rules import Fact, fact_from
from .shape import Chunk, FactShape, Shape
from .states import MOST_SLOTS, Buffer, chunk_words
from .symbols import NIL, Symbol
from .vocabulary import Vocabulary

PLACES = 256
FACT_WORDS = 9
STORE_WORDS = 1 + FACT_WORDS * PLACES
ACTIVATION, LATENCY = 0, 50  # of every fact that is learned
NOTHING = 0xFFFF  # stands in place of a count where no store is lent
MOST_SHOWN = 4  # facts of a store that is printed in a line

# what is said by numbers where no model is known: as many types as there can be, each with as many slots
_NUMBERS = Vocabulary(Shape(0, (0, *[MOST_SLOTS] * 63), (), (), ()))


class Store:
    """Facts that were learned, in the order learned, at most 256: what a run adds to the facts of its model.

    A run that is lent a store learns: when a rule clears a buffer that is visible and not empty, its chunk joins the store,
    unless the model or the store has a fact of that type and those slots. From the next step on it is a fact like others,
    after those of the model, of activation 0 and with a latency of 50 ms. `Run.store` is what a run has then.

    A store is a value: it is never written to. A run that learns goes on with another one, so that a store can be kept and
    lent as often as one likes. Two are equal if all their words are, whatever things are called.

    It is made of facts, by the names of a model or, without one, by numbers. Of a `Fact`, or a `Buffer`, type and slots count
    alone. Facts that a model could not hold are refused by 15, as soon as they come to it.

    >>> from jirvuntsag import Fact, Model, Store
    >>> pupil = Model.load("examples/pupil.model")
    >>> run = pupil.open()
    >>> str(run.run()), run.store
    ('end 9 15', <Store of 1 fact: sum first=3 second=2 result=5>)
    >>> print(run.store)
    fact sum first 3 second 2 result 5 activation 0 latency 50
    >>> print(pupil.open(store=run.store).run())
    end 9 3
    >>> run.store == Store([Fact("sum", {"first": 3, "second": 2, "result": 5})], pupil)
    True
    >>> Store(), Store([Fact(2, {0: 4, 1: 3})]), len(Store())
    (<Store of no facts>, <Store of 1 fact: 2 0=#4 1=#3>, 0)
    """

    __slots__ = ("_words", "_model")

    def __init__(self, facts=(), model=None):
        _check_model(model)
        words = array("H", bytes(2 * STORE_WORDS))
        for number, fact in enumerate(facts):
            if number == PLACES:
                raise ValueError(f"a store has places for {PLACES} facts, and these are more")
            start = 1 + FACT_WORDS * number
            words[start : start + FACT_WORDS] = array("H", _fact_words(number, fact, model))
            words[0] = number + 1
        self._words, self._model = words, model
        if model is not None:
            _check(words, model)

    @classmethod
    def from_words(cls, words, model=None):
        """The store of 2,305 words of 16 bits, as `words` gives them: the count, then type and eight slots of each place.

        >>> Store.from_words(Store([Fact(2, {0: 4})]).words)
        <Store of 1 fact: 2 0=#4>
        """
        _check_model(model)
        words = calls.small_words(words, "store")
        if len(words) != STORE_WORDS:
            raise ValueError(f"a store has {STORE_WORDS:,} words, not {len(words):,}")
        if words[0] > PLACES:
            raise ValueError(f"a store has places for {PLACES} facts, and its count is {words[0]:,}")
        if model is not None:
            _check(words, model)
        return store_from(words, model)

    @property
    def words(self):
        """All words: the count, then type and eight slots of each place. Those past the count say nothing."""
        return tuple(self._words)

    def __len__(self):
        return self._words[0]

    def __iter__(self):
        """The facts, in the order learned, by the names of the model; without one the slots are told that are not empty."""
        for start in range(1, 1 + FACT_WORDS * len(self), FACT_WORDS):
            isa, *values = self._words[start : start + FACT_WORDS]
            if self._model is None:
                filled = {slot: Symbol(value) for slot, value in enumerate(values) if value != NIL}
                yield Fact(isa, filled, ACTIVATION, LATENCY)
            else:
                yield fact_from(FactShape(Chunk(isa, tuple(values)), ACTIVATION, LATENCY), self._model.vocabulary)

    def __eq__(self, other):
        return self._words == other._words if isinstance(other, Store) else NotImplemented

    def __hash__(self):
        return hash(self._words.tobytes())

    def __reduce__(self):
        """How a store is kept by `copy` and `pickle`: with its model, if it has one."""
        return store_from, (self._words, self._model)

    def __str__(self):
        """A line for each fact, as a model's text has it."""
        return "\n".join(map(str, self))

    def __repr__(self):
        chunks = [chunk_text(fact) for _, fact in zip(range(MOST_SHOWN), self)]
        count = f"{len(self) or 'no'} fact{'' if len(self) == 1 else 's'}"
        told = f": {', '.join(chunks)}" if chunks else ""
        return f"<Store of {count}{told}{', ..' if len(self) > MOST_SHOWN else ''}>"


def store_from(words, model):
    """The store of words that were checked: an array that nobody writes to."""
    store = Store.__new__(Store)
    store._words, store._model = words, model
    return store


def chunk_text(fact):
    """A fact as a buffer would hold it."""
    return str(Buffer(fact.type, fact.slots))


def _fact_words(number, fact, model):
    """Type and eight slots of a fact."""
    if not isinstance(fact, (Fact, Buffer)):
        raise TypeError(f"fact {number} of a store is a {type(fact).__name__}, not a jv.Fact")
    return chunk_words(fact.type, fact.slots, _NUMBERS if model is None else model.vocabulary)


def _check_model(model):
    if model is not None and not hasattr(model, "vocabulary"):
        raise TypeError(f"the model of a store is a Model, or None, not a {type(model).__name__}")


def _check(words, model):
    """Facts that a model's image could not hold are refused."""
    # a run of no steps does nothing but check what it is handed
    accepted(calls.run_fresh_lent(model.image, model.start, 0, words))


def lent_words(store, model):
    """The words that a run of a model is lent, which must not be written to: None for None, which lends nothing."""
    if store is None:
        return None
    check_store(store)
    if len(store) and store._model is not model:
        _check(store._words, model)
    return store._words


def check_store(store):
    """What is lent is a store, or None."""
    if store is not None and not isinstance(store, Store):
        raise TypeError(f"what is lent is a jv.Store, or None for nothing, not a {type(store).__name__}")


def short_words(words):
    """The words of a store without the places past its count; where none is lent, a word that is no count."""
    return array("H", [NOTHING]) if words is None else words[: 1 + FACT_WORDS * words[0]]


def short_stores(words):
    """The stores, as `short_words` gives them, that stand one after the other; None for each that is not lent."""
    at = 0
    while at < len(words):
        length = 1 if words[at] == NOTHING else 1 + FACT_WORDS * words[at]
        yield None if words[at] == NOTHING else words[at : at + length]
        at += length


def long_words(short):
    """All words of a store, from those without the places past its count."""
    return None if short is None else short + array("H", bytes(2 * (STORE_WORDS - len(short))))


# what a run is lent if nothing is said, as a printed run is
EMPTY = Store()
