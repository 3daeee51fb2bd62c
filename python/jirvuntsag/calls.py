"""The nine calls of the library, on words.

What is handed in is checked and copied, and what is given back is new: no call alters its arguments, and the library never
sees memory that Python could change or free meanwhile. An image is bytes, a state 89 words of 32 bits, a table nine words of
16 bits for each rule, a store 2,305 words of 16 bits. See include/jirvuntsag.h for what the words are.

Every answer has a number and a `position`: for a number that is about a field of the image (2, 3, 11, 12, 13) the first bit of
that field, counted from 0, the most significant bit of byte 0; for every other number 0.

>>> import pathlib
>>> image = pathlib.Path("examples/counting.image").read_bytes()
>>> opened = open_image(image, [0] * table_length(image).words)
>>> opened.number, list(opened.table[:3])
(0, [1, 1, 0])
>>> run_steps(image, opened.state, opened.table, 100)[:2]
(9, 7)
>>> run_fresh(image, opened.state, 100)[:2]
(9, 7)
>>> learned = run_lent(image, opened.state, opened.table, 100, [0] * 2305)
>>> learned.number, learned.made, list(learned.store[:4])
(9, 7, [1, 2, 3, 3])
>>> refused = run_fresh(image[:1] + bytes([0x90]) + image[2:], opened.state, 100)  # nine buffers
>>> refused.number, refused.position
(3, 8)
"""
import ctypes
import functools
import operator
from array import array
from typing import NamedTuple, Optional

from .libraries import NoLibrary, load_library
from .version import VERSION as MODULE_VERSION
from .wording import shown

STATE_WORDS = 89
EVENT_WORDS = 3
MOST_STEPS = 0xFFFF

VARIABLE = "JIRVUNTSAG_LIBRARY"

_C_WORD = {"H": ctypes.c_uint16, "I": ctypes.c_uint32}
_IMAGE = [ctypes.c_char_p, ctypes.c_size_t]
_STATE = [ctypes.POINTER(ctypes.c_uint32)]
_TABLE = [ctypes.POINTER(ctypes.c_uint16), ctypes.c_size_t]
_EVENTS = [ctypes.POINTER(ctypes.c_uint32), ctypes.c_size_t]
_LENT = [ctypes.c_uint16, ctypes.POINTER(ctypes.c_uint16), ctypes.c_size_t]

# what a word says is lent
_A_STORE = 1

# the arguments of each call of include/jirvuntsag.h; all of them answer 64 bits
_ARGUMENTS = {
    "jirvuntsag_table_len": _IMAGE,
    "jirvuntsag_open": _IMAGE + _TABLE + _STATE,
    "jirvuntsag_run": _IMAGE + _STATE + _TABLE + [ctypes.c_uint16],
    "jirvuntsag_trace": _IMAGE + _STATE + _TABLE + [ctypes.c_uint16] + _EVENTS,
    "jirvuntsag_refresh": _IMAGE + _STATE + [ctypes.c_uint16] + _TABLE,
    "jirvuntsag_run_fresh": _IMAGE + _STATE + [ctypes.c_uint16],
    "jirvuntsag_trace_fresh": _IMAGE + _STATE + [ctypes.c_uint16] + _EVENTS,
    "jirvuntsag_run_lent": _IMAGE + _STATE + _TABLE + [ctypes.c_uint16] + _EVENTS + _LENT,
    "jirvuntsag_run_fresh_lent": _IMAGE + _STATE + [ctypes.c_uint16] + _EVENTS + _LENT,
}


class Measured(NamedTuple):
    """What `table_length` gives back; `words` is 0 for an image that is refused, and for one without rules."""

    number: int
    words: int
    position: int


class Opened(NamedTuple):
    """What `open_image` gives back."""

    number: int
    state: array
    table: array
    position: int


class Ran(NamedTuple):
    """What `run_steps` gives back."""

    number: int
    made: int
    state: array
    table: array
    position: int


class Traced(NamedTuple):
    """What `trace_steps` gives back; `events` has three words for each step made."""

    number: int
    made: int
    state: array
    table: array
    events: array
    position: int


class RanFresh(NamedTuple):
    """What `run_fresh` gives back: there is no table."""

    number: int
    made: int
    state: array
    position: int


class TracedFresh(NamedTuple):
    """What `trace_fresh` gives back; `events` has three words for each step made."""

    number: int
    made: int
    state: array
    events: array
    position: int


class RanLent(NamedTuple):
    """What `run_lent` gives back; `store` is None where none was lent."""

    number: int
    made: int
    state: array
    table: array
    events: array
    store: Optional[array]
    position: int


class RanFreshLent(NamedTuple):
    """What `run_fresh_lent` gives back: there is no table; `store` is None where none was lent."""

    number: int
    made: int
    state: array
    events: array
    store: Optional[array]
    position: int


class Refreshed(NamedTuple):
    """What `refresh_table` gives back; `count` is how many rules test or query a marked buffer."""

    number: int
    count: int
    table: array
    position: int


@functools.lru_cache(maxsize=1)
def _library():
    """The library, loaded once and with its functions declared."""
    functions = {name: (arguments, ctypes.c_uint64) for name, arguments in _ARGUMENTS.items()}
    functions["jirvuntsag_version"] = [], ctypes.c_char_p
    library = load_library("libjirvuntsag.so", VARIABLE, "make lib", functions)
    # another version may lay out its answers otherwise, and nothing in an answer would tell
    version = library.jirvuntsag_version().decode("ascii", "replace")
    if version != MODULE_VERSION:
        told = f"the library is of version {shown(version)}, this module of {MODULE_VERSION}"
        raise NoLibrary(f"{told}: make the wheel, or the libraries, again")
    return library


def _image_of(image):
    if not isinstance(image, (bytes, bytearray, memoryview)):
        raise TypeError(f"an image must be bytes, not {type(image).__name__}")
    return bytes(image)


def _copy_of(code, words, what):
    """The words in a new array. They may be any sequence of numbers that are in range."""
    if isinstance(words, (str, bytes, bytearray, memoryview)) or not hasattr(words, "__len__"):
        raise TypeError(f"a {what} must be a sequence of whole numbers, not {type(words).__name__}")
    try:
        return array(code, words)
    except TypeError as error:
        raise TypeError(f"each word of a {what} must be a whole number: {error}") from error
    except OverflowError as error:
        largest = 256 ** array(code).itemsize - 1
        raise ValueError(f"each word of a {what} must be from 0 to {largest:,}") from error


def small_words(words, what):
    """Words of 16 bits in a new array."""
    return _copy_of("H", words, what)


def _state_of(state):
    words = _copy_of("I", state, "state")
    if len(words) != STATE_WORDS:
        raise ValueError(f"a state has {STATE_WORDS} words, not {len(words)}")
    return words


def small_number(number, what):
    """The number, if it is a whole one of 16 bits."""
    try:
        number = operator.index(number)
    except TypeError as error:
        raise TypeError(f"{what} must be a whole number, not {type(number).__name__}") from error
    if not 0 <= number <= 0xFFFF:
        raise ValueError(f"{what} must be from 0 to 65,535, not {number}")
    return number


def _lent(words):
    """The words of an array of ours, for the library to write to."""
    return (_C_WORD[words.typecode] * len(words)).from_buffer(words)


def _taken_apart(answer):
    """The number of an answer, its count and its position."""
    return answer & 0xFFFF, answer >> 16 & 0xFFFF, answer >> 32


def table_length(image):
    """The words that the table of an image needs, nine for each rule, and by which number it is refused, if it is.

    >>> table_length(bytes.fromhex("0110000000000000"))  # it has no rules
    Measured(number=0, words=0, position=0)
    >>> table_length(bytes.fromhex("0110000000000020"))  # its one buffer is of type 1, and it has no types
    Measured(number=3, words=0, position=53)
    """
    image = _image_of(image)
    return Measured(*_taken_apart(_library().jirvuntsag_table_len(image, len(image))))


def open_image(image, table):
    """Opens an image: the number; the opening state and the fresh table if it is 0.

    >>> open_image(b"", []).number
    2
    """
    image, table = _image_of(image), _copy_of("H", table, "table")
    state = array("I", bytes(4 * STATE_WORDS))
    answer = _library().jirvuntsag_open(image, len(image), _lent(table), len(table), _lent(state))
    number, _, position = _taken_apart(answer)
    return Opened(number, state, table, position)


def run_steps(image, state, table, steps):
    """Runs at most `steps` steps: the number, the steps made, and state and table after them."""
    image, state, table = _image_of(image), _state_of(state), _copy_of("H", table, "table")
    steps = small_number(steps, "the steps asked")
    answer = _library().jirvuntsag_run(image, len(image), _lent(state), _lent(table), len(table), steps)
    number, made, position = _taken_apart(answer)
    return Ran(number, made, state, table, position)


def trace_steps(image, state, table, steps):
    """Runs as `run_steps` does, and gives events too: of each step the clock after it; 0 and the rule, or 1 and the ms."""
    image, state, table = _image_of(image), _state_of(state), _copy_of("H", table, "table")
    steps = small_number(steps, "the steps asked")
    events = _room_for(steps)
    answer = _library().jirvuntsag_trace(
        image, len(image), _lent(state), _lent(table), len(table), steps, _lent(events), len(events)
    )
    number, made, position = _taken_apart(answer)
    return Traced(number, made, state, table, events[: EVENT_WORDS * made], position)


def refresh_table(image, state, mark, table):
    """Makes the entries of the rules that test or query a marked buffer afresh: the number, how many, and the table."""
    image, state, table = _image_of(image), _state_of(state), _copy_of("H", table, "table")
    mark = small_number(mark, "a mark")
    answer = _library().jirvuntsag_refresh(image, len(image), _lent(state), mark, _lent(table), len(table))
    number, count, position = _taken_apart(answer)
    return Refreshed(number, count, table, position)


def run_fresh(image, state, steps):
    """Runs as `run_steps` does, without a table: every rule is matched afresh at each step, and the state alone is kept.

    The number, the steps made and the state are those of `run_steps` with the fresh table of that state; 5 and 7 never come.

    >>> run_fresh(b"", [0] * 89, 1).number
    2
    """
    image, state, steps = _image_of(image), _state_of(state), small_number(steps, "the steps asked")
    answer = _library().jirvuntsag_run_fresh(image, len(image), _lent(state), steps)
    number, made, position = _taken_apart(answer)
    return RanFresh(number, made, state, position)


def trace_fresh(image, state, steps):
    """Runs as `run_fresh` does, and gives events as `trace_steps` does."""
    image, state, steps = _image_of(image), _state_of(state), small_number(steps, "the steps asked")
    events = _room_for(steps)
    answer = _library().jirvuntsag_trace_fresh(image, len(image), _lent(state), steps, _lent(events), len(events))
    number, made, position = _taken_apart(answer)
    return TracedFresh(number, made, state, events[: EVENT_WORDS * made], position)


def run_lent(image, state, table, steps, store=None, *, events=True):
    """Runs as `trace_steps` does, where a store may be lent: the run learns, and `store` is what it has then.

    Without a store nothing is lent, and nothing is learned. Without `events` none are told.

    >>> run_lent(b"", [0] * 89, [], 1, [0] * 2305).number
    2
    """
    image, state, table = _image_of(image), _state_of(state), small_words(table, "table")
    steps, store = small_number(steps, "the steps asked"), None if store is None else small_words(store, "store")
    noted = _room_for(steps if events else 0)
    answer = _library().jirvuntsag_run_lent(
        image, len(image), _lent(state), _lent(table), len(table), steps, _lent(noted), len(noted), *_lending(store)
    )
    number, made, position = _taken_apart(answer)
    return RanLent(number, made, state, table, noted[: EVENT_WORDS * made], store, position)


def run_fresh_lent(image, state, steps, store=None, *, events=True):
    """Runs as `trace_fresh` does, where a store may be lent as to `run_lent`."""
    image, state, steps = _image_of(image), _state_of(state), small_number(steps, "the steps asked")
    store = None if store is None else small_words(store, "store")
    noted = _room_for(steps if events else 0)
    answer = _library().jirvuntsag_run_fresh_lent(
        image, len(image), _lent(state), steps, _lent(noted), len(noted), *_lending(store)
    )
    number, made, position = _taken_apart(answer)
    return RanFreshLent(number, made, state, noted[: EVENT_WORDS * made], store, position)


def _room_for(steps):
    """The words for the events of so many steps."""
    return array("I", bytes(4 * EVENT_WORDS * steps))


def _lending(store):
    """What is lent, as the library is told: a word that says it, the words of the store, and how many they are."""
    return (0, None, 0) if store is None else (_A_STORE, _lent(store), len(store))
