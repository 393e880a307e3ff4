"""The calls over the caller's own areas. They return the raw number * 65536 + line.

What C cannot check is checked here before the call: an area is a writable buffer of the right length (a bytearray, a writable
memoryview of bytes), and overlaps neither another area nor the text. There are no null pointers: a buffer always has an address. The
buffers cannot be resized or freed during the call. The caller must ensure that no other thread writes to them during the call.

Most callers want nuyardi.check, nuyardi.run, nuyardi.trial, nuyardi.lean, nuyardi.bound, nuyardi.fill and nuyardi.count, which need no
areas.
"""

import ctypes
from typing import Any, Sequence, Tuple, Union

from . import _library
from .numbers import BOUNDS_BYTES, COUNT_BYTES, MOST_STEPS, PLACES_BYTES, RESULTS_BYTES, SCRIPTS, WORK_BYTES

#: A writable buffer of bytes.
Area = Union[bytearray, memoryview, "ctypes.Array[Any]"]
#: A text: bytes, or a writable buffer with a text in it.
Text = Union[bytes, Area]


class _Lent:
    """A buffer lent to a call: its name in messages, its address and its length. It keeps the buffer from moving."""

    def __init__(self, name: str, length: int, address: int, owner: object) -> None:
        self.name, self.length, self.address, self._owner = name, length, address, owner

    def overlaps(self, other: "_Lent") -> bool:
        end, other_end = self.address + self.length, other.address + other.length
        return max(self.address, other.address) < min(end, other_end)


def _buffer(name: str, buffer: Any) -> _Lent:
    """A writable buffer, lent."""
    try:
        view = memoryview(buffer)
    except TypeError:
        raise TypeError(f"{name} is not a buffer of bytes: {type(buffer).__name__}") from None
    if view.readonly or not view.c_contiguous or view.itemsize != 1:
        raise TypeError(f"{name} is not a writable, contiguous buffer of bytes")
    kept = (ctypes.c_ubyte * view.nbytes).from_buffer(buffer)
    return _Lent(name, view.nbytes, ctypes.addressof(kept), kept)


def _text(text: Any) -> _Lent:
    if isinstance(text, bytes):
        address = ctypes.cast(ctypes.c_char_p(text), ctypes.c_void_p).value
        return _Lent("text", len(text), address or 0, text)
    if isinstance(text, str):
        raise TypeError('text is a str, not bytes: pass text.encode("ascii")')
    return _buffer("text", text)


def _area(name: str, area: Any, length: int) -> _Lent:
    lent = _buffer(name, area)
    if lent.length != length:
        raise ValueError(f"{name} has {lent.length} bytes, and must have {length}")
    return lent


def word_in_range(name: str, value: Any) -> int:
    """The value, if it is a number from 0 to 4294967295."""
    if isinstance(value, bool) or not isinstance(value, int):
        raise TypeError(f"{name} is not an int: {type(value).__name__}")
    if not 0 <= value <= MOST_STEPS:
        raise ValueError(f"{name} is {value}, and must be from 0 to {MOST_STEPS}")
    return value


def steps_in_range(steps: Any) -> int:
    """The steps, if they are a number from 0 to 4294967295."""
    return word_in_range("steps", steps)


def _apart(*lent: _Lent) -> None:
    for at, one in enumerate(lent):
        for other in lent[at + 1 :]:
            if one.overlaps(other):
                raise ValueError(f"{one.name} and {other.name} overlap")


def _pair(lent: _Lent) -> Tuple[int, int]:
    return lent.address, lent.length


def check(text: Text, work: Area) -> int:
    """station_check. Afterwards work is all zero."""
    said, room = _text(text), _area("work", work, WORK_BYTES)
    _apart(said, room)
    return int(_library.station().station_check(*_pair(said), *_pair(room)))


def _ran(function: str, text: Text, work: Area, steps: int, results: Area) -> int:
    said, room = _text(text), _area("work", work, WORK_BYTES)
    left = _area("results", results, RESULTS_BYTES)
    _apart(said, room, left)
    allowed = steps_in_range(steps)
    call = getattr(_library.station(), function)
    return int(call(*_pair(said), *_pair(room), allowed, *_pair(left)))


def run(text: Text, work: Area, steps: int, results: Area) -> int:
    """station_run. Afterwards work is all zero, and results has the steps and the values, 4 bytes each, low byte first."""
    return _ran("station_run", text, work, steps, results)


def trial(text: Text, work: Area, steps: int, results: Area) -> int:
    """station_trial: like run, for a text that check may refuse."""
    return _ran("station_trial", text, work, steps, results)


def lean(text: Text, work: Area, steps: int, results: Area) -> int:
    """station_lean: always what run returns and leaves, from a machine that tests no permission."""
    return _ran("station_lean", text, work, steps, results)


def _told(function: str, text: Text, work: Area, left: _Lent) -> int:
    said, room = _text(text), _area("work", work, WORK_BYTES)
    _apart(said, room, left)
    call = getattr(_library.station(), function)
    return int(call(*_pair(said), *_pair(room), *_pair(left)))


def bound(text: Text, work: Area, bounds: Area) -> int:
    """station_bound. Afterwards work is all zero, and bounds has the steps and the frames, 4 bytes each, low byte first."""
    return _told("station_bound", text, work, _area("bounds", bounds, BOUNDS_BYTES))


def fill(text: Text, work: Area, places: Area) -> int:
    """station_fill. Afterwards work is all zero, and places has the places of the permissions, a byte each, rising, then zeros."""
    return _told("station_fill", text, work, _area("places", places, PLACES_BYTES))


def _four(name: str, values: Sequence[Any]) -> Sequence[Any]:
    if len(values) != SCRIPTS:
        raise ValueError(f"{name} has {len(values)} entries, and must have {SCRIPTS}")
    return values


def count(scripts: int, rounds: int, texts: Sequence[Text], work: Area, shares: Sequence[int], results: Area) -> int:
    """station_count, with four texts and four shares, of which only the first `scripts` are used. Afterwards work is all zero, and
    results has 56 bytes for each script: what run returned, then its results."""
    said, room = [_text(text) for text in _four("texts", texts)], _area("work", work, WORK_BYTES)
    left = _area("results", results, COUNT_BYTES)
    for text in said:
        _apart(text, room, left)
    first = word_in_range("scripts", scripts), word_in_range("rounds", rounds)
    parts = [word_in_range("a share", share) for share in _four("shares", shares)]
    pairs = [word for text in said for word in _pair(text)]
    return int(_library.station().station_count(*first, *pairs, *_pair(room), *parts, *_pair(left)))
