#!/usr/bin/env python3
"""The fan effect over 1,000 combinations of parameters: a table and a picture, runs beside what the equations predict.

    PYTHONPATH=python python3 examples/fan-effect/fan_effect.py -o FOLDER

For each combination of a largest strength S, a latency factor F and a base level B every fact has the latency that ACT-R's
equations give it, and a model with these facts is asked for one sentence of each kind: nine runs, 9,000 in one sweep.
"""
import argparse
import csv
import io
import itertools
import math
import pathlib
from collections import Counter
from typing import NamedTuple

import jirvuntsag as jv
from picture import picture

HERE = pathlib.Path(__file__).resolve().parent
STRENGTHS = [round(1.5 + 0.1 * step, 1) for step in range(10)]
FACTORS = [round(0.1 * step, 1) for step in range(1, 11)]
BASES = [round(-0.5 + 0.1 * step, 1) for step in range(10)]
FIRINGS = 100  # ms: one rule asks, and one answers


class Combination(NamedTuple):
    """A combination of parameters: S of equation (2.4), F of (2.5), B of (2.3)."""

    strength: float
    factor: float
    base: float


class Result(NamedTuple):
    """The ms of each kind of sentence, by how often person and place were studied: in runs, and as predicted."""

    combination: Combination
    runs: dict
    predicted: dict


def studied(facts):
    """How often each person and each place stands in a fact."""
    return Counter(value for fact in facts for value in fact.slots.values())


def kind(fact, counts):
    """How often the person and the place of a fact were studied."""
    return counts[fact.slots["person"]], counts[fact.slots["place"]]


def activation(combination, studies):
    """The activation of a fact that is asked for (2.3): its two words are sources, and the fan of each counts itself (2.4)."""
    return jv.spread(combination.base, [jv.strength(count + 1, combination.strength) for count in studies])


def predicted(combination, studies):
    """The ms until the answer, as the equations say it, before anything is rounded."""
    return FIRINGS + 1000 * combination.factor * math.exp(-activation(combination, studies))


def model_of(model, combination):
    """The model with the latencies and activations of a combination."""
    counts = studied(model.facts)

    def fitted(fact):
        value = activation(combination, kind(fact, counts))
        return fact._replace(activation=jv.level(value), latency=jv.latency(value, combination.factor))

    return model.replace(facts=[fitted(fact) for fact in model.facts])


def probes(model):
    """A sentence of each kind, as what the goal holds."""
    counts = studied(model.facts)
    sentences = {kind(fact, counts): fact for fact in model.facts}
    return {studies: jv.Buffer("probe", {**sentences[studies].slots}) for studies in sorted(sentences)}


def results(model, combinations, **options):
    """Runs every combination with every kind of sentence, in one sweep."""
    asked = probes(model)
    fitted = [model_of(model, combination) for combination in combinations]
    rows = iter(jv.sweep([(one, {"goal": probe}) for one in fitted for probe in asked.values()], events=["yes"], **options))
    answers = [{studies: answered(next(rows)) for studies in asked} for _ in combinations]
    return [
        Result(combination, clocks, {studies: predicted(combination, studies) for studies in asked})
        for combination, clocks in zip(combinations, answers)
    ]


def answered(row):
    """The clock at which the model said yes, which it must."""
    (event,) = row.events
    assert row.halted and row.buffers["goal"].slots["answer"] == "yes", row
    return event.clock


def table(found):
    """The results as CSV: for each combination and kind the ms of the run, and those of the equation to one place."""
    kinds = sorted(found[0].runs)
    heads = [f"{source}_person{person}_place{place}" for person, place in kinds for source in ("run", "equation")]
    text = io.StringIO()
    writer = csv.writer(text, lineterminator="\n")
    writer.writerow(["S", "F", "B", *heads])
    for one in found:
        times = [time for studies in kinds for time in (one.runs[studies], f"{one.predicted[studies]:.1f}")]
        writer.writerow([*one.combination, *times])
    return text.getvalue()


def main():
    parser = argparse.ArgumentParser(description=__doc__, formatter_class=argparse.RawDescriptionHelpFormatter)
    parser.add_argument("-o", "--output", metavar="FOLDER", default=".", help="where to write (here)")
    folder = pathlib.Path(parser.parse_args().output)
    combinations = [Combination(*one) for one in itertools.product(STRENGTHS, FACTORS, BASES)]
    found = results(jv.Model.load(HERE / "fan.model"), combinations)
    (folder / "fan-effect.csv").write_text(table(found), encoding="ascii")
    (folder / "fan-effect.svg").write_text(picture(found), encoding="utf-8")
    apart = max(abs(one.runs[studies] - one.predicted[studies]) for one in found for studies in one.runs)
    runs = sum(len(one.runs) for one in found)
    print(f"{len(found):,} combinations, {runs:,} runs; run and equation differ by {apart:.2f} ms at most")


if __name__ == "__main__":
    main()
