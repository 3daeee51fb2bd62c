"""Many runs at once, on all cores or on whatever an executor has."""
import concurrent.futures
import ctypes
import os

from .batches import Asked, Batch, make_and_run
from .calls import MOST_STEPS, small_number
from .progress import reporter
from .rows import rows_from
from .stores import EMPTY, check_store

LARGEST_BATCH = 256


class SweepFailed(RuntimeError):
    """Some items of a sweep failed; all others were run.

    `rows` has a row for each item, None for one that failed; `errors` says by the item's place what went wrong.
    """

    def __init__(self, rows, errors):
        super().__init__(rows, errors)
        self.rows, self.errors = rows, errors

    def __str__(self):
        first = min(self.errors)
        error = self.errors[first]
        count = f"{len(self.errors):,} of {len(self.rows):,} items failed"
        told = f"{type(error).__name__}: {error}"
        return f"{count}, the first is item {first}: {told} (.rows has what was done, .errors the rest)"


def sweep(
    items,
    make=None,
    *,
    steps=MOST_STEPS,
    events=False,
    fresh=False,
    store=EMPTY,
    executor=None,
    workers=None,
    progress=None,
    rows=None,
):
    """Runs every item to its end, or for at most so many steps: a `Row` for each, in the order given.

    An item is a `Model`, a `Run` (which is not moved), or a pair of a Model and a dict that says what buffers hold instead.
    With `make` an item is anything, and `make(item)` gives one of these, in the worker.

    `events`: False for none, True for all, or the name or names of rules whose firings are kept.
    `fresh`: no run keeps a table, as with `Model.open`; a Run that keeps none never gets one. The rows are the same.
    `store`: what the run of each Model is lent, as with `Model.open`: an empty store, if nothing is said, so that each learns,
    as a printed run does, for itself alone; a `Store`; or None, and nothing is learned. A Run goes by its own.
    `executor`: anything with `submit` as in concurrent.futures; without one, as many threads as there are cores (`workers`).
    `progress`: None for a line if standard error is a terminal, True, False, or a function of how many are done, of how many.
    `rows`: a list that is filled as rows come. Handed in again, what is done in it is not done again.

    Nothing that was done is lost: if some items fail, all others are run, and `SweepFailed` has the rows. Whatever else ends
    it early, KeyboardInterrupt too, has an attribute `rows`: a row for each item that was done, None for the others.

    >>> import jirvuntsag as jv
    >>> model = jv.Model.load("examples/counting.model")
    >>> [row.clock for row in sweep([model, model.open(), (model, {"goal": jv.Buffer("count", {"current": 2, "target": 3})})])]
    [550, 550, 400]
    >>> [row.clock for row in sweep([0, 500, 1000], lambda ms: model.replace(failure=ms))]
    [400, 850, 1350]
    >>> [row.clock for row in sweep([0, 500, 1000], lambda ms: model.replace(failure=ms), fresh=True)]
    [400, 850, 1350]
    """
    check_store(store)
    items, rows = list(items), [] if rows is None else rows
    kept = events if isinstance(events, bool) else (events,) if isinstance(events, str) else tuple(events)
    work = Work(items, make, Asked(small_number(steps, "the steps asked"), kept, bool(fresh), store), rows)
    report, end = reporter(progress, "sweep")
    try:
        if executor is not None:
            work.run(executor, workers or os.cpu_count() or 1, report)
        else:
            workers = workers or cores()
            work.stop = ctypes.c_uint8(0)
            with concurrent.futures.ThreadPoolExecutor(workers) as threads:
                work.run(threads, workers, report)
    except BaseException as error:
        error.rows = rows
        raise
    finally:
        end()
    if work.errors:
        raise SweepFailed(rows, work.errors)
    return rows


def cores():
    """The cores that this process may use."""
    return len(os.sched_getaffinity(0)) if hasattr(os, "sched_getaffinity") else os.cpu_count() or 1


class Work:
    """A sweep while it is done: its items, its rows so far, and what failed."""

    def __init__(self, items, make, asked, rows):
        if not isinstance(rows, list) or len(rows) not in (0, len(items)):
            raise ValueError(f"rows is a list that is empty, or has a place for each of the {len(items):,} items")
        if make is not None and not callable(make):
            raise TypeError(f"make is a function from an item to a Model, not a {type(make).__name__}")
        self.items, self.make, self.asked, self.rows, self.errors = items, make, asked, rows, {}
        # a byte that threads of this process look at between two runs; nothing can be shared so with other executors
        self.stop = None
        rows.extend([None] * (len(items) - len(rows)))

    def run(self, executor, workers, report):
        """Hands all batches out and takes them in, in their order; what is done when it ends early is taken in, too."""
        left = [at for at, row in enumerate(self.rows) if row is None]
        size = max(1, min(LARGEST_BATCH, len(left) // (4 * workers)))
        handed, done = [], len(self.items) - len(left)
        try:
            for start in range(0, len(left), size):
                handed.append(self._hand_out(executor, left[start : start + size]))
            for places, known, future in handed:
                self._take_in(places, known, future)
                done += len(places)
                report(done, len(self.items))
        except BaseException:
            self._save(handed)
            raise

    def _hand_out(self, executor, places):
        """Gives a batch to the executor: its places, what is known of it before it is run, and its future."""
        items = [self.items[at] for at in places]
        stop = [] if self.stop is None else [self.stop]
        if self.make is not None:
            return places, None, executor.submit(make_and_run, self.make, items, self.asked, *stop)
        batch = Batch(items, self.asked)
        return places, (batch.models, batch.failed), executor.submit(batch.run_all, batch.runs, *stop)

    def _take_in(self, places, known, future):
        """Waits for a batch and keeps its rows. A worker that fails fails its own batch alone."""
        try:
            models, made, failed = future.result() if known is None else (known[0], future.result(), known[1])
        except Exception as error:  # an executor may raise anything of its own
            self.errors.update(dict.fromkeys(places, error))
            return
        self.errors.update({places[at]: error for at, error in failed.items()})
        done = [at for position, at in enumerate(places) if position not in failed]
        for at, row in zip(done, rows_from([self.items[at] for at in done], models, made)):
            self.rows[at] = row

    def _save(self, handed):
        """Takes in what is done or cannot be stopped, and cancels the rest."""
        if self.stop is not None:
            self.stop.value = 1
        going_on = [one for one in handed if one[2].done() or not one[2].cancel()]
        for places, known, future in going_on:
            if self.rows[places[-1]] is None:
                self._take_in(places, known, future)
