"""The packer: a shared library that makes images from texts and from fields, and many runs in one call.

What is handed in is checked and copied before the library sees it; what it answers is copied and freed at once.
"""
import ctypes
import functools
from array import array
from typing import NamedTuple

from .libraries import NoLibrary, load_library
from .wording import shown_lines

VARIABLE = "JIRVUNTSAG_PACKER"
INTERFACE = 3
LARGEST_TEXT = 16 * 1024 * 1024
FLAGS = 257

_BYTES, _WORDS, _SMALL = ctypes.c_char_p, ctypes.POINTER(ctypes.c_uint32), ctypes.POINTER(ctypes.c_uint16)
_SIZE, _ANSWER = ctypes.c_size_t, ctypes.c_void_p


class _Batch(ctypes.Structure):
    """The runs of one call, as host/packer/src/c.rs has them."""

    _fields_ = [
        ("images", _BYTES), ("images_len", _SIZE),
        ("ends", _WORDS), ("ends_len", _SIZE),
        ("jobs", _WORDS), ("jobs_len", _SIZE),
        ("states", _WORDS), ("states_len", _SIZE),
        ("stores", _SMALL), ("stores_len", _SIZE),
        ("keep", _BYTES), ("keep_len", _SIZE),
        ("steps", ctypes.c_uint16), ("stop", ctypes.POINTER(ctypes.c_uint8)),
    ]  # fmt: skip


_FUNCTIONS = {
    "jirvuntsag_packer_interface": ([], ctypes.c_uint32),
    "jirvuntsag_packer_text": ([_BYTES, _SIZE], _ANSWER),
    "jirvuntsag_packer_fields": ([_SMALL, _SIZE], _ANSWER),
    "jirvuntsag_packer_runs": ([ctypes.POINTER(_Batch)], _ANSWER),
    "jirvuntsag_packer_part": ([_ANSWER, ctypes.c_uint32, ctypes.POINTER(_SIZE)], ctypes.c_void_p),
    "jirvuntsag_packer_free": ([_ANSWER], None),
}


class NotPacked(ValueError):
    """The packer refuses a text, fields or runs; the error says why."""


class Runs(NamedTuple):
    """What `run_all` is to run.

    `images`: bytes; `jobs`: for each run the number of its image; `states`: 89 words for each run, or none, if each begins
    with its image's opening; `keep`: 257 flags for each image that say which events are kept, one for each rule and the last
    for waits, or none; `steps`: the most steps of a run; `stores`: for each run the count of what its store has learned before
    and nine words for each fact, or 65,535 alone if it is lent none, or none at all, if no run is lent one.
    """

    images: list
    jobs: array
    states: array
    keep: bytes
    steps: int
    stores: array = array("H")


@functools.lru_cache(maxsize=1)
def _packer():
    """The library, loaded once."""
    packer = load_library("libjirvuntsag_packer.so", VARIABLE, "tools/wheel --libraries", _FUNCTIONS)
    if packer.jirvuntsag_packer_interface() != INTERFACE:
        raise NoLibrary("the packer is of another version than this module: make the wheel, or the libraries, again")
    return packer


def _parts(answer, count):
    """The parts 1 to `count` of an answer, which is freed."""
    packer, length = _packer(), _SIZE()

    def part(number):
        at = packer.jirvuntsag_packer_part(answer, number, ctypes.byref(length))
        return ctypes.string_at(at, length.value)

    try:
        error = part(0)
        if error:
            raise NotPacked(shown_lines(error.decode("utf-8", "replace")))
        return [part(number) for number in range(1, count + 1)]
    finally:
        packer.jirvuntsag_packer_free(answer)


def pack_text(text):
    """The image of a text, and its names as JSON.

    >>> pack_text("buffer goal")[0].hex()
    '0110000000000000'
    """
    if not isinstance(text, str):
        raise TypeError(f"a model's text is a str, not {type(text).__name__}")
    content = text.encode("utf-8", "surrogatepass")
    if len(content) > LARGEST_TEXT:
        raise NotPacked(f"the text has over {LARGEST_TEXT:,} bytes, too many for a model")
    image, names = _parts(_packer().jirvuntsag_packer_text(content, len(content)), 2)
    return image, names.decode("utf-8")


def pack_fields(fields):
    """The image of its fields, each a whole number of 16 bits, in the image's order.

    >>> pack_fields([1, 1, 0, 0, 0, 0, 0]).hex()
    '0110000000000000'
    """
    words = array("H", fields)
    lent = (ctypes.c_uint16 * len(words)).from_buffer(words)
    (image,) = _parts(_packer().jirvuntsag_packer_fields(lent, len(words)), 1)
    return image


def run_all(runs, stop=None):
    """Makes runs: 92 words for each, its number, the steps made, the events kept and the state; three words for each event;
    and for each what its store has then, in the words of `Runs.stores`.

    Where another thread makes the value of `stop`, a byte of ctypes, 1, no further run is begun, and there are fewer words.
    """
    ends, at = array("I"), 0
    for image in runs.images:
        at += len(image)
        ends.append(at)
    images = b"".join(runs.images)
    given = [ends, runs.jobs, runs.states, runs.stores]
    types = [ctypes.c_uint32] * 3 + [ctypes.c_uint16]
    lent = [(word * len(words)).from_buffer(words) if words else None for word, words in zip(types, given)]
    pairs = [value for pair in zip(lent, map(len, given)) for value in pair]
    stopped = None if stop is None else ctypes.pointer(stop)
    batch = _Batch(images, len(images), *pairs, runs.keep, len(runs.keep), runs.steps, stopped)
    parts = _parts(_packer().jirvuntsag_packer_runs(ctypes.byref(batch)), 3)
    return [array(code, part) for code, part in zip("IIH", parts)]


def words_of_refusal(image, head):
    """What is told of an image that is refused: its field, the value in it and the rule that it breaks.

    `head` is what goes before: the number and the place. None if the packer tells others, or takes the image.

    >>> words_of_refusal(bytes([3]), "refused by 3 at bit 0 (byte 0, bit 0 of it)")
    'the version is 3 [the version must be 1 or 2]'
    """
    none = array("I")
    try:
        # of an image without runs all that is done is that it is opened
        run_all(Runs([image], none, none, b"", 0))
    except NotPacked as refused:
        told, start = str(refused), f"image 0: {head}: "
        return told[len(start) :] if told.startswith(start) else None
    return None
