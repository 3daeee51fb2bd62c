"""What runs cost from Python: `python3 -m jirvuntsag.bench` prints runs a second of a small counting model.

One after the other, in a sweep on one core and on all, in one that keeps events, and in one that makes a model for each run;
then without a table, one after the other and in a sweep.
Other work on the machine makes the figures smaller: of some rounds the best counts.
"""
import argparse
import time

from .model import Model
from .sweeping import cores, sweep

COUNTING = """\
failure latency 200
type follows first second
type count current target
fact follows first 1 second 2 activation 10 latency 100
fact follows first 2 second 3 activation 10 latency 100
buffer goal count current 1 target 3
buffer retrieval
rule start
  =goal> count current ?number
  =retrieval> chunk
  ==>
  +retrieval> follows first ?number
rule go-on
  =goal> count current ?number
  =retrieval> follows first ?number second ?next
  ==>
  =goal> current ?next
  +retrieval> follows first ?next
rule stop utility 1
  =goal> count current ?number target ?number
  ==>
  -goal>
"""


def _one_by_one(model, runs, fresh=False):
    for _ in range(runs):
        model.open(fresh=fresh).run()


def _made(model, runs):
    facts = model.facts
    sweep(range(runs), lambda ms: model.replace(facts=[fact._replace(latency=ms % 1000) for fact in facts]), progress=False)


def _lines(model, runs):
    """What is measured: its name, how many runs it makes, and the work."""
    few = max(runs // 20, 1)
    yield "run() after run(), with events", few, lambda: _one_by_one(model, few)
    yield "sweep, one thread", runs, lambda: sweep([model] * runs, workers=1, progress=False)
    yield f"sweep, {cores()} threads", runs, lambda: sweep([model] * runs, progress=False)
    yield f"sweep, {cores()} threads, all events kept", runs, lambda: sweep([model] * runs, events=True, progress=False)
    yield "sweep, a model made for each run", few, lambda: _made(model, few)
    yield "run() after run(), no table kept", few, lambda: _one_by_one(model, few, fresh=True)
    yield f"sweep, {cores()} threads, no table kept", runs, lambda: sweep([model] * runs, fresh=True, progress=False)


def main(arguments=None):
    """Prints the table."""
    parser = argparse.ArgumentParser(prog="python3 -m jirvuntsag.bench", description=__doc__.splitlines()[0])
    parser.add_argument("--runs", type=int, default=200_000, help="runs of each sweep (200000)")
    parser.add_argument("--rounds", type=int, default=5, help="rounds, of which the best counts (5)")
    given = parser.parse_args(arguments)
    model = Model.from_text(COUNTING)
    print(f"{'the counting model, 7 steps':44} {'runs a second':>14}")
    for name, runs, work in _lines(model, max(given.runs, 1)):
        print(f"{name:44} {runs / min(_timed(work) for _ in range(max(given.rounds, 1))):>14,.0f}", flush=True)


def _timed(work):
    start = time.perf_counter()
    work()
    return time.perf_counter() - start


if __name__ == "__main__":
    main()
