"""The names of a model, which its image does not hold, and the JSON file that keeps them.

    {"buffers": ["goal", ..], "types": [{"name": "chunk", "slots": []}, ..],
     "symbols": {"0": "nil", ..}, "rules": [{"name": "start", "variables": ["x", ..]}, ..]}

Each list has a name for every number from 0 on; symbols may be left out. Further members are passed over.
"""
import json
import pathlib
import re
from typing import Dict, NamedTuple, Tuple

from .symbols import MOST_SYMBOLS, written_number
from .wording import shown, shown_path

LARGEST_FILE = 16 * 1024 * 1024


class BadNames(ValueError):
    """A names file is not in its format, or does not fit the image."""


class Owner(NamedTuple):
    """A type with its slots, or a rule with its variables."""

    name: str
    parts: Tuple[str, ...]


class Names(NamedTuple):
    """The names of everything in a model, each at its number."""

    buffers: Tuple[str, ...]
    types: Tuple[Owner, ...]
    symbols: Dict[int, str]
    rules: Tuple[Owner, ...]

    @classmethod
    def load(cls, path):
        """The names in a file."""
        with pathlib.Path(path).open("rb") as file:
            content = file.read(LARGEST_FILE + 1)
        try:
            if len(content) > LARGEST_FILE:
                raise BadNames(f"over {LARGEST_FILE:,} bytes, too large for names")
            return cls.parse(content.decode("utf-8"))
        except (BadNames, UnicodeDecodeError) as error:
            raise BadNames(f"{shown_path(path)}: {error}") from error

    @classmethod
    def parse(cls, text):
        """The names in a text.

        >>> Names.parse('{"buffers": ["goal"], "types": [{"name": "chunk", "slots": []}], "symbols": {}, "rules": []}').buffers
        ('goal',)
        """
        try:
            parsed = json.loads(text, object_pairs_hook=_once)
        except BadNames:
            raise
        except (ValueError, RecursionError) as error:
            raise BadNames(f"not JSON: {error}") from error
        return cls(
            _texts(_member(parsed, "buffers"), "buffers"),
            _owners(_member(parsed, "types"), "types", "slots"),
            _symbols(_member(parsed, "symbols")),
            _owners(_member(parsed, "rules"), "rules", "variables"),
        )


def _once(pairs):
    """A JSON object, whose members must differ in their names."""
    members = dict(pairs)
    if len(members) != len(pairs):
        raise BadNames(f"a member stands twice among {shown(', '.join(name for name, _ in pairs))}")
    return members


def _member(parsed, name):
    if not isinstance(parsed, dict):
        raise BadNames("an object with members is expected")
    if name not in parsed:
        raise BadNames(f'the member "{name}" is missing')
    return parsed[name]


def _text(value, where):
    if not isinstance(value, str) or not value:
        raise BadNames(f"{where}: a name must be a string that is not empty")
    return value


def _texts(values, where):
    """Names that all differ: a name that stands twice would name neither."""
    if not isinstance(values, list):
        raise BadNames(f"{where}: a list is expected")
    texts = {}
    for value in values:
        if _text(value, where) in texts:
            raise BadNames(f"{where}: '{shown(value)}' stands twice")
        texts[value] = None
    return tuple(texts)


def _owners(values, where, parts):
    if not isinstance(values, list):
        raise BadNames(f"{where}: a list is expected")
    names = _texts([_member(value, "name") for value in values], where)
    lists = [_member(value, parts) for value in values]
    return tuple(Owner(name, _texts(texts, f"{where}, {parts} of '{shown(name)}'")) for name, texts in zip(names, lists))


def _symbols(values):
    if not isinstance(values, dict):
        raise BadNames("symbols: an object is expected")
    for key in values:
        if not (re.fullmatch("0|[1-9][0-9]{0,3}", key) and int(key) < MOST_SYMBOLS):
            raise BadNames(f"symbols: '{shown(key)}' is no symbol number, 0 to 4095")
    names = dict(zip(map(int, values), _texts(list(values.values()), "symbols")))
    for number, name in names.items():
        if written_number(name) not in (None, number):
            raise BadNames(f"symbols: '{name}' would name symbol {number}, and stands for symbol {name[1:]}")
    return names
