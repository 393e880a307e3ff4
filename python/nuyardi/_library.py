"""Finds and loads the shared libraries.

Each is looked for where its environment variable says, then next to this file, where a wheel has it, then by name with the
system's loader. ctypes releases the interpreter's lock during a call of a library that is loaded this way.
"""

import ctypes
import os
import threading
from pathlib import Path
from typing import Any, Callable, Dict, List


class LibraryError(OSError):
    """Something is wrong with a shared library."""


class LibraryNotFound(LibraryError):
    """A shared library is missing, or cannot be loaded."""


class LibraryMismatch(LibraryError):
    """A shared library has another version than this package."""


#: The soname of the library that this package is for.
SONAME = "libnuyardi.so.0"

_BYTES = ctypes.c_void_p
_LENGTH = ctypes.c_size_t
_STEPS = ctypes.c_uint32


def _places(name: str, soname: str, variable: str) -> List[str]:
    named = os.environ.get(variable)
    if named:
        return [named]
    beside = Path(__file__).with_name(name)
    return [str(beside)] if beside.is_file() else [soname]


def _loaded(name: str, soname: str, variable: str, functions: Dict[str, List[Any]], result: type) -> ctypes.CDLL:
    """The library with its functions declared."""
    (place,) = _places(name, soname, variable)
    try:
        library = ctypes.CDLL(place)
    except OSError as error:
        raise LibraryNotFound(f"{name} cannot be loaded ({error}); the environment variable {variable} can name another") from error
    for function, arguments in functions.items():
        try:
            declared = getattr(library, function)
        except AttributeError:
            raise LibraryMismatch(f"{place} has no function {function}") from None
        declared.argtypes = arguments
        declared.restype = result
    return library


def _once(load: Callable[[], ctypes.CDLL]) -> Callable[[], ctypes.CDLL]:
    """The same function, but it loads only at its first call; after a failure the next call tries again."""
    lock = threading.Lock()
    found: List[ctypes.CDLL] = []

    def loaded() -> ctypes.CDLL:
        with lock:
            if not found:
                found.append(load())
            return found[0]

    return loaded


_AREA = [_BYTES, _LENGTH]


@_once
def station() -> ctypes.CDLL:
    """libnuyardi.so: check, run, trial, lean, bound, fill and count."""
    functions = {
        "station_check": [*_AREA, *_AREA],
        "station_run": [*_AREA, *_AREA, _STEPS, *_AREA],
        "station_trial": [*_AREA, *_AREA, _STEPS, *_AREA],
        "station_lean": [*_AREA, *_AREA, _STEPS, *_AREA],
        "station_bound": [*_AREA, *_AREA, *_AREA],
        "station_fill": [*_AREA, *_AREA, *_AREA],
        "station_count": [_STEPS, _STEPS, *(4 * _AREA), *_AREA, *(4 * [_STEPS]), *_AREA],
    }
    return _loaded("libnuyardi.so", SONAME, "NUYARDI_LIBRARY", functions, ctypes.c_uint32)


@_once
def explaining() -> ctypes.CDLL:
    """libnuyardi_explain.so: explain, trace, cards and draw."""
    functions = {
        "nuyardi_explain": [*_AREA, *_AREA],
        "nuyardi_explain_run": [*_AREA, _STEPS, *_AREA],
        "nuyardi_cards": [*_AREA, _STEPS, *_AREA],
        "nuyardi_draw": [*_AREA, _STEPS, *_AREA],
        "nuyardi_trace": [*_AREA, _STEPS, *_AREA],
    }
    name = "libnuyardi_explain.so"
    return _loaded(name, name, "NUYARDI_EXPLAIN_LIBRARY", functions, ctypes.c_size_t)
