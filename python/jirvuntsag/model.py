"""A model: an image that the library has accepted, with its names."""
import copy
import pathlib

from . import calls
from .engines import Fresh, Keeping
from .libraries import NoLibrary
from .making import built, replaced
from .names import Names
from .packer import LARGEST_TEXT, NotPacked, pack_fields, pack_text, words_of_refusal
from .refusals import TOO_LONG, Refused, accepted
from .rules import fact_from, rule_from
from .run import Run
from .shape import fields_of, shape_of
from .states import Buffers, state_words
from .stores import EMPTY, lent_words
from .vocabulary import Vocabulary
from .wording import shown_path


class Model:
    """A model, from the bytes of its image and, if there are some, its names.

    >>> model = Model.load("examples/counting.image")
    >>> model
    <Model of 71 bytes: 2 buffers, 2 types besides chunk, 2 facts, 3 rules>
    >>> Model(bytes([3]))
    Traceback (most recent call last):
    jirvuntsag.refusals.Refused: refused by 3 at bit 0 (byte 0, bit 0 of it): the version is 3 [the version must be 1 or 2]
    """

    def __init__(self, image, names=None):
        if names is not None and not isinstance(names, Names):
            raise TypeError(f"names must be a Names, not {type(names).__name__}: see Model.load for a names file")
        self._opened = _opened(image)
        self.image, self.names = bytes(image), names
        self.shape = shape_of(self.image)
        self.vocabulary = Vocabulary(self.shape, names)

    @classmethod
    def load(cls, path, names=None):
        """The model in a file: an image, with the names in another file, or a text, which has its names.

        >>> Model.load("examples/counting.model").rules
        ['start', 'go-on', 'stop']
        """
        path = pathlib.Path(path)
        with path.open("rb") as file:
            content = file.read(LARGEST_TEXT + 1)
        if not _is_text(content) and (content or path.suffix == ".image"):
            return cls(content, None if names is None else Names.load(names))
        if names is not None:
            raise ValueError(f"{shown_path(path)} is a text, which has its own names: leave the names file out")
        try:
            return cls.from_text(content.decode("utf-8", "surrogateescape"))
        except NotPacked as error:
            raise NotPacked("\n".join(_in_file(path, line) for line in str(error).split("\n"))) from None
        except NoLibrary as error:
            raise NoLibrary(f"{shown_path(path)} is a text, and without the packer only images are taken: {error}") from error

    @classmethod
    def from_text(cls, text):
        """The model of a text, as docs/MODELS.md says it is written.

        >>> Model.from_text("type t a\\nbuffer goal t a 1")
        <Model of 10 bytes: 1 buffer, 1 type besides chunk, no facts, no rules>
        >>> Model.from_text("type t a\\nbuffer goal t b 1")
        Traceback (most recent call last):
        jirvuntsag.packer.NotPacked: 2:15: slot 'b' is not a slot of type 't' (a)
        """
        image, names = pack_text(text)
        return cls(image, Names.parse(names))

    @classmethod
    def build(cls, types, buffers, facts=(), rules=(), failure=0):
        """A model from nothing: types with their slots, buffers with what they open with, `Fact`s and `Rule`s.

        >>> from jirvuntsag import Buffer, Fact, Rule
        >>> ask = Rule("ask", ["=goal> pair left ?x right nil"], ["=goal> right asked", "+retrieval> pair left ?x"])
        >>> types, buffers = {"pair": ["left", "right"]}, {"goal": Buffer("pair", {"left": "a"}), "retrieval": None}
        >>> model = Model.build(types, buffers, [Fact("pair", {"left": "a", "right": "b"}, 0, 70)], [ask])
        >>> [str(event) for event in model.open().steps()]
        ['50 fire ask', '120 wait 70']
        """
        image, names = built(types, facts, buffers, rules, failure)
        return cls(image, Names.parse(names))

    def replace(self, facts=None, opening=None, utilities=None, failure=None):
        """A new model with other facts (a whole list of `Fact`), opening chunks or utilities (by name), failure latency.

        >>> model = Model.load("examples/counting.model")
        >>> slow = model.replace(facts=[fact._replace(latency=500) for fact in model.facts], utilities={"stop": 2000})
        >>> slow.facts[0].latency, slow.utilities["stop"], model.facts[0].latency
        (500, 2000, 100)
        >>> print(model.replace(opening={"goal": {"type": "count", "slots": {"current": 2, "target": 3}}}).opening["goal"])
        count current=2 target=3
        """
        changes = {"facts": facts, "opening": opening, "utilities": utilities, "failure": failure}
        # types, rules and buffers are as many as before, so that all are called as before
        new = copy.copy(self)
        new.shape = replaced(self.shape, self.vocabulary, changes)
        new.image = pack_fields(fields_of(new.shape))
        new._opened = _opened(new.image)
        return new

    def __copy__(self):
        new = Model.__new__(Model)
        new.__dict__.update(self.__dict__)
        return new

    def __reduce__(self):
        """How a model is kept by `copy` and `pickle`: all else is made from these two."""
        return Model, (self.image, self.names)

    def open(self, *, fresh=False, store=EMPTY):
        """A run from the opening state. With `fresh` it keeps no table and matches every rule afresh at each step.

        Both run alike, word for word, which is proved: the run that keeps its matches is the quicker one, and in the one that
        keeps nothing no match can outlive its chunk.

        A run learns what its rules clear, as a printed run does: it is lent an empty store, if nothing else is said. `store`
        may be a `Store` of facts that are known from the start, or None: then nothing is lent, and nothing is learned.

        >>> model = Model.load("examples/counting.image")
        >>> run = model.open()
        >>> run.clock, str(run.buffers[0])
        (0, '2 0=#1 1=#3')
        >>> model.open(fresh=True)
        <Run at 0 ms, keeping nothing: {0: 2 0=#1 1=#3, 1: 0}>
        >>> model.open(fresh=True).run() == run.run()
        True
        >>> run.store, model.open(store=None).store
        (<Store of 1 fact: 2 0=#3 1=#3>, None)
        """
        table = None if fresh else self._opened.table
        return Run(self, self._opened.state, table, lent_words(store, self))

    def at(self, state, *, fresh=False, store=EMPTY):
        """A run from any well-formed state: plain data as `Run.state` gives it, or 89 words as `Run.words` does.

        With `fresh` it keeps no table, and `store` is what it is lent, as with `open`: `store=run.store` goes on with what a
        run has learned.

        >>> model = Model.load("examples/counting.image")
        >>> run = model.at({"clock": 350, "buffers": {0: {"type": 2, "slots": {0: 3, 1: 3}}}})
        >>> [str(event) for event in run.steps()]
        ['400 fire 2']
        """
        words = state_words(state, self.vocabulary) if isinstance(state, dict) else state
        state, *table, store = (Fresh if fresh else Keeping).at(self, words, lent_words(store, self))
        return Run(self, state, table[0] if table else None, store)

    @property
    def start(self):
        """The words that a run begins with, one and the same array each time: it must not be written to."""
        return self._opened.state

    @property
    def buffers(self):
        """What the buffers are called, in their order."""
        return list(self.vocabulary.buffers)

    @property
    def rules(self):
        """What the rules are called, in their order."""
        return list(self.vocabulary.rules)

    @property
    def types(self):
        """What the types are called, each with its slots; the first is that of an empty buffer."""
        return {name: list(slots) for name, slots in zip(self.vocabulary.types, self.vocabulary.slots)}

    @property
    def facts(self):
        """The facts, each with its activation and its latency.

        >>> print(Model.load("examples/counting.model").facts[1])
        fact follows first 2 second 3 activation 10 latency 100
        """
        return [fact_from(fact, self.vocabulary) for fact in self.shape.facts]

    @property
    def opening(self):
        """What each buffer opens with."""
        return dict(Buffers(self._opened.state, self.vocabulary))

    @property
    def utilities(self):
        """The utility of each rule, in thousandths."""
        return {name: rule.utility for name, rule in zip(self.vocabulary.rules, self.shape.rules)}

    @property
    def failure(self):
        """The ms that a request takes that no fact answers."""
        return self.shape.failure

    def rule(self, rule):
        """A rule with its tests, queries among them, and actions, by name or number.

        >>> print(Model.load("examples/counting.model").rule("stop"))
        rule stop utility 1
          =goal> count current ?number target ?number
          ==>
          -goal>
        """
        number = self.vocabulary.rules.number(rule)
        return rule_from(number, self.shape.rules[number], self.vocabulary)

    def __repr__(self):
        shape = self.shape
        things = [(shape.buffers, "buffer", ""), (len(shape.slots) - 1, "type", " besides chunk")]
        things += [(len(shape.facts), "fact", ""), (len(shape.rules), "rule", "")]
        return f"<Model of {len(self.image):,} bytes: {', '.join(_counted(*thing) for thing in things)}>"


def _in_file(path, told):
    """A fault with the file that it lies in; most begin with a line and a column."""
    return f"{shown_path(path)}:{'' if told[:1].isdigit() else ' '}{told.lstrip()}"


def _opened(image):
    """The opening state and table of an image."""
    measured = calls.table_length(image)
    if measured.number:
        raise _refusal(bytes(image), measured)
    return accepted(calls.open_image(image, [0] * measured.words))


def _refusal(image, answer):
    """The refusal of an image, in the packer's words where that is at hand: they name the field, its value and its rule."""
    refused = Refused(answer.number, position=answer.position)
    if refused.number == TOO_LONG:
        return refused
    try:
        words = words_of_refusal(image, refused.head)
    except NoLibrary:
        return refused
    return Refused(refused.number, position=refused.position, words=words)


def _counted(count, what, more):
    return f"{count or 'no'} {what}{'' if count == 1 else 's'}{more}"


def _is_text(content):
    """Whether this is a text: an image begins with its version, the byte 1 or 2, and a text has no such bytes at all."""
    return bool(content) and not any(byte < 32 and byte not in b"\t\n\v\f\r" for byte in content[:1024])
