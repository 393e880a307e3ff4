"""explain, trace, cards and draw, over a second library, libnuyardi_explain.so, which is not proved."""

import ctypes
import json
from dataclasses import dataclass
from pathlib import Path
from typing import Any, Callable, Dict, Iterator, List, Optional, Union

from . import _library
from .calls import steps_in_range
from .scripts import script_bytes

#: The room of a first call; if it is too small, the second call has as much as the first asked for.
FIRST_ROOM = 65536


def written(call: Callable[..., int], *words: Any) -> bytes:
    """The output of a function that takes room and its size last, and returns the length that it needs."""
    size = FIRST_ROOM
    while True:
        room = ctypes.create_string_buffer(size)
        needed = call(*words, room, size)
        if needed <= size:
            return room.raw[:needed]
        size = needed


def _answer(function: str, *words: Any) -> bytes:
    """What a function of the library writes; every answer has some bytes."""
    said = written(getattr(_library.explaining(), function), *words)
    if not said:
        raise _library.LibraryError(f"{function} gave no answer: an internal fault of the library")
    return said


def explain(text: bytes) -> Dict[str, Any]:
    """Check's answer, with cause, notes and fix if it refuses the text, and the warnings: the object that `station check --warn --json -` prints."""
    said = script_bytes(text)
    answer: Dict[str, Any] = json.loads(_answer("nuyardi_explain", said, len(said)))
    return answer


def explain_run(text: bytes, steps: int) -> Dict[str, Any]:
    """How a run of at most `steps` steps ends, with cause, notes and fix if it stops, as `station run --json -` prints it."""
    said, allowed = script_bytes(text), steps_in_range(steps)
    answer: Dict[str, Any] = json.loads(_answer("nuyardi_explain_run", said, len(said), allowed))
    return answer


def cards(text: bytes, steps: int) -> List[Dict[str, Any]]:
    """The cards that such a run made, each a dict with `object`, `class` and `fields`: a field's `name`, `value` (None is null), whether
    it is a `link` and the links by it form a `ring`, and who holds it. There are none for a refused text, nor after more than 20,000,000 steps:
    ValueError."""
    said, allowed = script_bytes(text), steps_in_range(steps)
    answer: Dict[str, Any] = json.loads(_answer("nuyardi_cards", said, len(said), allowed))
    made: Optional[List[Dict[str, Any]]] = answer.get("cards")
    if made is None:
        raise ValueError("there are no cards: the text is refused, or its run takes too many steps")
    return made


def trace(text: bytes, steps: int) -> Iterator[Dict[str, Any]]:
    """Each step of such a run, at most 100,000, as a dict: they make a data frame without conversion. A refused text has none."""
    said, allowed = script_bytes(text), steps_in_range(steps)
    lines = _answer("nuyardi_trace", said, len(said), allowed).splitlines()
    # The last line is what explain_run gives.
    return (json.loads(line) for line in lines[:-1])


@dataclass(frozen=True)
class Drawing:
    """The cards after a run as a picture, which a notebook shows."""

    svg: str

    def _repr_svg_(self) -> str:
        return self.svg

    def save(self, path: Union[str, Path]) -> None:
        """Writes the picture to a file."""
        Path(path).write_text(self.svg, encoding="utf-8")


def draw(text: bytes, steps: int) -> Drawing:
    """The cards as such a run leaves them. There is no picture for a refused text, nor after more than 20,000,000 steps: ValueError."""
    said, allowed = script_bytes(text), steps_in_range(steps)
    svg = written(_library.explaining().nuyardi_draw, said, len(said), allowed)
    if not svg:
        raise ValueError("there is no picture: the text is refused, or its run takes too many steps")
    return Drawing(svg.decode("utf-8"))
