"""Runs ACT-R models from packed images, on the proved library.

>>> import jirvuntsag as jv
>>> model = jv.Model.load("examples/counting.image", names="examples/counting.names.json")
>>> run = model.open()
>>> print(run.step())
50 fire start
>>> print(run.buffers["retrieval"])
follows first=1 second=2 in 100 ms
>>> run.matching()
[]
>>> print(run.why_not("go-on"))
retrieval is pending for another 100 ms
>>> branch = run.copy()
>>> for event in run.steps():
...     print(event)
150 wait 100
200 fire go-on
300 wait 100
350 fire go-on
400 fire stop
550 wait 150
>>> branch.put("retrieval", "follows", {"first": 1, "second": 3})
>>> branch.matching()
[Match(rule=1, name='go-on', utility=0, values={'number': '1', 'next': '3'})]

A run keeps the matches of all rules in a table, since that is quicker; one that is opened with `fresh=True` keeps no table and
matches every rule afresh at each step. Nobody can tell them apart by what they answer, which is proved.

>>> model.open(fresh=True).run() == model.open().run()
True

A run learns: a chunk that a rule clears joins the run's store, where later requests find it. The store is a value that can be
kept and lent to the next run; one that is opened with `store=None` learns nothing.

>>> pupil = jv.Model.load("examples/pupil.model")
>>> run = pupil.open()
>>> run.run().made, run.store
(15, <Store of 1 fact: sum first=3 second=2 result=5>)
>>> pupil.open(store=run.store).run().made
3

What is refused is raised as `Refused`, with its number, what that means and, where a field of the image is at fault, the bit
where that begins; what Python can tell by itself as ValueError or TypeError. Nothing is altered by a call that raises, but for
the steps that a run has made before it is refused.
"""
from .drawing.timeline import timeline
from .equations import base_level, failure_latency, latency, latency_factor, level, spread, strength
from .events import Ended, Event
from .explaining import explain
from .libraries import NoLibrary
from .matches import Match, Miss
from .model import Model
from .names import BadNames, Names
from .packer import NotPacked
from .refusals import MEANINGS, Refused
from .rules import Fact, Rule
from .rows import Row
from .run import Run
from .states import Buffer
from .stores import Store
from .sweeping import SweepFailed, sweep
from .symbols import symbol
from .version import VERSION as __version__

__all__ = [
    "BadNames",
    "Buffer",
    "Ended",
    "Event",
    "Fact",
    "MEANINGS",
    "Match",
    "Miss",
    "Model",
    "Names",
    "NoLibrary",
    "NotPacked",
    "Refused",
    "Row",
    "Rule",
    "Run",
    "Store",
    "SweepFailed",
    "__version__",
    "base_level",
    "explain",
    "failure_latency",
    "latency",
    "latency_factor",
    "level",
    "spread",
    "strength",
    "sweep",
    "symbol",
    "timeline",
]
