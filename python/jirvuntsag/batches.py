"""The items of a sweep in batches: what each is turned into, and what a worker does with it, in this process or another."""
import pickle
from array import array
from typing import NamedTuple, Optional, Tuple, Union

from .afresh import run_all_afresh
from .model import Model
from .packer import FLAGS, Runs, run_all
from .run import Run
from .states import buffer_of, buffer_words, place
from .stores import EMPTY, Store, lent_words, short_words


class Asked(NamedTuple):
    """What is asked of every run of a sweep: the most steps, the events that are kept, that no table is, the store lent."""

    steps: int
    events: Union[bool, Tuple] = False
    fresh: bool = False
    store: Optional[Store] = EMPTY


def start_of(item, store):
    """The model of an item, and the words that its run begins with: those of the state, and those of the store or None.

    An item is a Model, from its opening; a Run, from where it is and with what it has learned; or a Model with what some of its
    buffers hold instead.
    """
    if isinstance(item, Model):
        return item, item.start, lent_words(store, item)
    if isinstance(item, Run):
        run = item.copy()  # another thread may move it meanwhile: state and store must fit
        return run.model, run.start, run.lent
    if isinstance(item, tuple) and len(item) == 2 and isinstance(item[0], Model) and isinstance(item[1], dict):
        return item[0], _put(*item), lent_words(store, item[0])
    raise TypeError(f"an item of a sweep is a Model, a Run, or a Model with chunks by buffer, not {type(item).__name__}")


def _put(model, chunks):
    """The opening words of a model with other chunks in some buffers."""
    words = array("I", model.start)
    for name, members in chunks.items():
        words[place(model.vocabulary.buffers.number(name))] = buffer_words(buffer_of(name, members), model.vocabulary)
    return words


class Batch:
    """Some items of a sweep: their models and first states, what failed of them, the runs, and what makes these."""

    def __init__(self, items, asked):
        self.models, self.failed = [], {}
        numbers, flags, jobs, starts, stores = {}, {}, [], [], []
        for at, item in enumerate(items):
            try:
                model, start, store = start_of(item, asked.store)
                if model not in numbers:
                    flags[model] = _flags(model, asked.events)
                    numbers[model] = len(numbers)
            except Exception as error:  # whatever is wrong with an item, the others are run
                self.failed[at] = error
                continue
            self.models.append(model)
            jobs.append(numbers[model])
            starts.append(start)
            stores.append(store)
        # one run that keeps nothing takes its whole batch with it: the others answer alike, a little later
        fresh = asked.fresh or any(isinstance(item, Run) and item.fresh for item in items)
        opened = not fresh and all(start is model.start for start, model in zip(starts, self.models))
        states, images = array("I", b"" if opened else b"".join(starts)), [model.image for model in numbers]
        lent = b"" if all(store is None for store in stores) else b"".join(map(short_words, stores))
        self.runs = Runs(images, array("I", jobs), states, b"".join(flags.values()), asked.steps, array("H", lent))
        self.run_all = run_all_afresh if fresh else run_all


def _flags(model, events):
    """Which events of a model are kept: none, all, or the firings of some rules."""
    if isinstance(events, bool):
        return bytes([1]) * FLAGS if events else b""
    flags = bytearray(FLAGS)
    for rule in events:
        flags[model.vocabulary.rules.number(rule)] = 1
    return bytes(flags)


def make_and_run(make, items, asked, stop=None):
    """Makes each item's model and runs it, until it is stopped: the models, what the packer gave, and what failed."""
    made, failed = {}, {}
    for at, item in enumerate(items):
        if stop is not None and stop.value:
            break
        try:
            made[at] = make(item)
        except Exception as error:  # whatever goes wrong with an item, the others are run
            failed[at] = _sendable(error)
    batch, places = Batch(made.values(), asked), list(made)
    failed.update({places[at]: _sendable(error) for at, error in batch.failed.items()})
    return batch.models, batch.run_all(batch.runs, stop), failed


def _sendable(error):
    """An error that can go to another process; its text, if it cannot itself."""
    try:
        pickle.loads(pickle.dumps(error))
    except Exception:  # an error may be anything
        return RuntimeError(f"{type(error).__name__}: {error}")
    return error
