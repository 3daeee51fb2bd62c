"""Where the two shared libraries are: in the package, if a wheel brought them, or in the clone that this file is in."""
import ctypes
import os
import pathlib

from .wording import shown_path

_HERE = pathlib.Path(__file__).resolve().parent

_ADVICE = """\
a wheel brings it (`make wheel` in the project's folder, then `pip install` of the file that it names); \
in a clone `{make}` makes it; {variable} may name it"""


class NoLibrary(OSError):
    """A shared library is not there, or is another one."""


def library_path(name, variable):
    """Where a library is: what the environment variable names, else the package's own, else that of the clone."""
    named = os.environ.get(variable)
    if named:
        return pathlib.Path(named)
    own = _HERE / "lib" / name
    return own if own.is_file() else _HERE.parents[1] / "target" / "lib" / name


def load_library(name, variable, make, functions):
    """A library with its functions declared: of each its arguments and what it answers."""
    path, advice = library_path(name, variable), _ADVICE.format(make=make, variable=variable)
    if not path.is_file():
        raise NoLibrary(f"no shared library at {shown_path(path)}: {advice}")
    try:
        library = ctypes.CDLL(str(path.resolve()))
        for function, (arguments, answer) in functions.items():
            declared = getattr(library, function)
            declared.argtypes, declared.restype = arguments, answer
    except (OSError, AttributeError) as error:
        raise NoLibrary(f"{shown_path(path)} is not the library of this module ({error}): {advice}") from error
    return library
