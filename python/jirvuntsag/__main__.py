"""Commands: `python3 -m jirvuntsag explain MODEL` tells a run in words, `timeline MODEL` writes a picture of it."""
import argparse
import os
import pathlib
import re
import sys
import tempfile

from .calls import MOST_STEPS
from .drawing.timeline import NARROWEST, WIDEST, timeline
from .explaining import STEPS, explain
from .model import Model
from .refusals import Refused
from .version import VERSION
from .wording import LONGEST_LINE, shown, shown_path

PROGRAM = "python3 -m jirvuntsag"

EXPLAIN = """\
Runs a model from its opening and tells the run in words: each step and what it changed, why the run ended, the buffers at the
end, what was learned (the run begins with an empty store, as a printed run does, and learns what it clears), and for each rule
whether it matches then, or the first of its tests, or else of its queries, that does not hold."""
TIMELINE = """\
Runs a model from its opening and writes a timeline as SVG: the steps, and what each buffer holds, against the clock.
The run begins with an empty store, as a printed run does, and learns what it clears.
Hatched bars are pending; what is red is in error, since a request found no fact.
Every bar says all that it stands for where a pointer rests on it."""


class Failure(Exception):
    """What is said to the user before the program ends."""


class _Parser(argparse.ArgumentParser):
    """A parser that repeats nothing whole that is long, and nothing that a terminal would obey."""

    def error(self, message):
        super().error(shown(message, LONGEST_LINE))


def _number(least, most):
    """What reads an argument that must be a whole number in this range."""

    def read(text):
        if not (re.fullmatch("[0-9]{1,9}", text) and least <= int(text) <= most):
            raise argparse.ArgumentTypeError(f"'{shown(text)}' is not a number from {least} to {most}")
        return int(text)

    return read


def _parser():
    parser = _Parser(prog=PROGRAM, description="Commands on models, texts or packed images.")
    parser.add_argument("--version", action="version", version=f"jirvuntsag for Python {VERSION}")
    commands = parser.add_subparsers(required=True, metavar="COMMAND")
    told = commands.add_parser("explain", help="tell a run in words", description=EXPLAIN)
    drawn = commands.add_parser("timeline", help="write a picture of a run as SVG", description=TIMELINE)
    for command, work, result in (told, _tell, "FILE"), (drawn, _draw, "FILE.svg"):
        command.set_defaults(work=work)
        command.add_argument("model", metavar="MODEL", help="a text, or a packed image")
        command.add_argument("--names", metavar="FILE", help="the names file of an image; without it all goes by numbers")
        command.add_argument("-o", "--output", metavar=result, help="where to write; standard output if it is not given")
        steps = {"type": _number(0, MOST_STEPS), "default": STEPS, "help": "the most steps to make, 0 to 65535 (1000)"}
        command.add_argument("--steps", metavar="N", **steps)
        fresh = "keep no table and match every rule afresh at each step: what is written is the same"
        command.add_argument("--fresh", action="store_true", help=fresh)
    width = {"type": _number(NARROWEST, 20_000), "default": WIDEST, "help": "the most pixels of the lanes (1600)"}
    drawn.add_argument("--width", metavar="PIXELS", **width)
    return parser


def _load(model, names):
    """The model; what is wrong with which of the two files, otherwise."""
    try:
        return Model.load(model, names)
    except Refused as refused:
        raise Failure(f"{shown_path(model)}: {refused}") from refused
    except OSError as error:
        raise Failure(f"{shown_path(error.filename)}: {error.strerror}" if error.filename else str(error)) from error
    except ValueError as error:
        raise Failure(str(error)) from error


def _write(text, path):
    """Writes a file whole or not at all: beside its place first, and then there."""
    if path.exists() and not path.is_file():
        raise Failure(f"{shown_path(path)}: not a file that can be replaced")
    handle, beside = tempfile.mkstemp(dir=path.parent, prefix=f".{path.name}.")
    try:
        with open(handle, "w", encoding="utf-8", newline="\n") as file:
            file.write(text)
        os.chmod(beside, 0o644)
        os.replace(beside, path)
    except BaseException:
        os.unlink(beside)
        raise


def _print(text):
    """Writes to standard output."""
    try:
        sys.stdout.buffer.write(text.encode())
        sys.stdout.buffer.flush()
    except OSError:
        # what is left over must not be tried again when the interpreter ends
        os.dup2(os.open(os.devnull, os.O_WRONLY), sys.stdout.fileno())
        raise


def _draw(model, arguments):
    run = model.open(fresh=arguments.fresh)
    return timeline(run, arguments.steps, pathlib.Path(arguments.model).name, arguments.width)


def _tell(model, arguments):
    return explain(model, arguments.steps, fresh=arguments.fresh)


def _carry_out(arguments):
    text = arguments.work(_load(arguments.model, arguments.names), arguments)
    try:
        if arguments.output is None:
            _print(text)
        else:
            _write(text, pathlib.Path(arguments.output))
    except OSError as error:
        raise Failure(f"{shown_path(arguments.output or 'standard output')}: {error.strerror}") from error


def main(arguments=None):
    """Carries out a command: the exit status, 0 if all is well and 2 if not."""
    try:
        _carry_out(_parser().parse_args(arguments))
    except Failure as failure:
        print(f"{PROGRAM}: {failure}", file=sys.stderr)
        return 2
    return 0


if __name__ == "__main__":
    sys.exit(main())
