"""States as plain data, from and to their 89 words.

As plain data, which JSON can keep, a state is
    {"clock": 0, "buffers": {"goal": {"type": "count-from", "slots": {"start": 2}, "delay": 0, "error": False}, ..}}
"""
from array import array
from collections.abc import Mapping
from typing import Dict, NamedTuple, Union

from .calls import STATE_WORDS, small_number
from .wording import shown

BUFFER_WORDS = 11
MOST_SLOTS = 8
LARGEST_CLOCK = 0xFFFF_FFFF
WORDS_BEFORE = 81  # of a state, before it had error flags

Name = Union[str, int]


class Buffer(NamedTuple):
    """What a buffer holds: a type, a value for each slot of that type, a delay in ms, and whether its last request has failed.

    `error` is set by a request that finds no fact, and cleared by every other action on the buffer; it stands beside an empty
    chunk alone. Rules ask for it by `?buffer> state error`, which holds once the failure is visible.

    >>> print(Buffer("count-from", {"start": 2, "end": 4}))
    count-from start=2 end=4
    >>> print(Buffer("chunk", {}, 200), Buffer("chunk", {}, 200, True), sep="; ")
    chunk in 200 ms; chunk error in 200 ms
    """

    type: Name
    slots: Dict[Name, Name]
    delay: int = 0
    error: bool = False

    @property
    def visible(self):
        """Rules can see it: its delay is 0. Otherwise it is pending."""
        return self.delay == 0

    def __str__(self):
        slots = "".join(f" {slot}={value}" for slot, value in self.slots.items())
        return f"{self.type}{slots}{' error' if self.error else ''}" + (f" in {self.delay} ms" if self.delay else "")


def place(number):
    """Where the words of a buffer stand among those of a state."""
    return slice(1 + BUFFER_WORDS * number, 1 + BUFFER_WORDS * (number + 1))


def with_flags(words):
    """The words of a state: one that was kept before version 0.7.0 has no flags, and gets flags that are clear."""
    if len(words) != WORDS_BEFORE:
        return words
    flagged = array("I", words[:1])
    for start in range(1, WORDS_BEFORE, BUFFER_WORDS - 1):
        flagged.extend([*words[start : start + BUFFER_WORDS - 1], False])
    return flagged


def buffer_from(words, number, vocabulary):
    """Buffer `number` of a well-formed state."""
    isa, *slots, delay, flag = words[place(number)]
    named = {slot: vocabulary.symbols.name(value) for slot, value in zip(vocabulary.slots[isa], slots)}
    return Buffer(vocabulary.types.name(isa), named, delay, bool(flag))


class Buffers(Mapping):
    """The buffers of a state, by name or number.

    >>> from jirvuntsag import Model
    >>> buffers = Model.load("examples/counting.image").open().buffers
    >>> buffers[0].visible, 2 in buffers
    (True, False)
    """

    def __init__(self, words, vocabulary):
        self._words, self._vocabulary = words, vocabulary

    def __getitem__(self, key):
        try:
            number = self._vocabulary.buffers.number(key)
        except (ValueError, TypeError) as error:
            raise KeyError(str(error)) from None
        return buffer_from(self._words, number, self._vocabulary)

    def __iter__(self):
        return iter(self._vocabulary.buffers)

    def __len__(self):
        return len(self._vocabulary.buffers)

    def __repr__(self):
        return "{" + ", ".join(f"{name}: {buffer}" for name, buffer in self.items()) + "}"


def chunk_words(type_name, slots, vocabulary):
    """The nine words of a chunk, its type and eight slots. A slot that is not named holds nil."""
    isa = vocabulary.types.number(type_name)
    values = [0] * MOST_SLOTS
    if not isinstance(slots, dict):
        raise TypeError(f"slots are given as a dict, not as {type(slots).__name__}")
    for slot, value in slots.items():
        values[vocabulary.slots[isa].number(slot)] = vocabulary.symbols.number(value)
    return isa, *values


def buffer_words(buffer, vocabulary):
    """The eleven words of a buffer."""
    chunk, delay = chunk_words(buffer.type, buffer.slots, vocabulary), small_number(buffer.delay, "a delay")
    return array("I", [*chunk, delay, _flag_of(buffer.error)])


def _flag_of(error):
    """The flag, if it is one."""
    if not isinstance(error, bool):
        raise TypeError(f"an error flag is True or False, not {type(error).__name__}")
    return error


def state_from(words, vocabulary):
    """A well-formed state as plain data."""
    buffers = {name: _plain(words, number, vocabulary) for number, name in enumerate(vocabulary.buffers)}
    return {"clock": words[0], "buffers": buffers}


def _plain(words, number, vocabulary):
    """A buffer as plain data: a symbol without a name is written so that it is the same symbol when it is read again."""
    isa, *slots, delay, flag = words[place(number)]
    named = {slot: vocabulary.symbols.plain(value) for slot, value in zip(vocabulary.slots[isa], slots)}
    return {"type": vocabulary.types.name(isa), "slots": named, "delay": delay, "error": bool(flag)}


def state_words(state, vocabulary):
    """The 89 words of a state. A buffer that is not named holds nil."""
    _check_members(state, "a state", {"clock", "buffers"}, {"clock", "buffers"})
    words = array("I", bytes(4 * STATE_WORDS))
    words[0] = clock_of(state["clock"])
    if not isinstance(state["buffers"], dict):
        raise TypeError(f"the buffers of a state are given as a dict, not as {type(state['buffers']).__name__}")
    for name, members in state["buffers"].items():
        words[place(vocabulary.buffers.number(name))] = buffer_words(buffer_of(name, members), vocabulary)
    return words


def buffer_of(name, members):
    """What is said of a buffer: a `Buffer`, plain data, or None for nil."""
    if members is None:
        return Buffer(0, {})
    if isinstance(members, Buffer):
        return members
    _check_members(members, f"buffer '{shown(name)}'", {"type"}, {"type", "slots", "delay", "error"})
    return Buffer(members["type"], members.get("slots", {}), members.get("delay", 0), members.get("error", False))


def clock_of(clock):
    """The clock, if it is a whole number of 32 bits."""
    if isinstance(clock, bool) or not isinstance(clock, int):
        raise TypeError(f"a clock must be a whole number of ms, not {type(clock).__name__}")
    if not 0 <= clock <= LARGEST_CLOCK:
        raise ValueError(f"a clock must be from 0 to {LARGEST_CLOCK:,} ms, not {clock}")
    return clock


def _check_members(members, what, needed, known):
    if not isinstance(members, dict):
        raise TypeError(f"{what} is given as a dict, not as {type(members).__name__}")
    for name in sorted(needed - set(members)):
        raise ValueError(f"{what} lacks '{name}'")
    for name in members:
        if name not in known:
            raise ValueError(f"{what} has no '{shown(name)}'; it has {', '.join(sorted(known))}")
