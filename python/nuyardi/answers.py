"""What the calls answer, as frozen dataclasses."""

import re
import struct
from dataclasses import dataclass
from typing import Iterator, List, Optional, Sequence, Tuple, Union

from ._library import LibraryMismatch
from .numbers import SCRIPT_BYTES, VALUES, Number


@dataclass(frozen=True)
class Object:
    """An object, by its number from 1."""

    number: int


#: What a variable holds: a number, an object, or None for null.
Value = Union[int, Object, None]


@dataclass(frozen=True)
class Variable:
    """A variable of main after a run; its type is `int` or the name of a class."""

    name: str
    type: str
    value: Value


@dataclass(frozen=True)
class _Answer:
    number: Number
    line: int

    def __str__(self) -> str:
        place = f"line {self.line}: " if self.line else ""
        return f"{place}{self.number.meaning} (number {int(self.number)})"


@dataclass(frozen=True)
class Checked(_Answer):
    """What check says: number 0, or 2 to 14 with the line, which is 0 if the whole text is refused."""

    @property
    def accepted(self) -> bool:
        return self.number == Number.DONE


@dataclass(frozen=True)
class Ran(_Answer):
    """How a run ended: its number and line, the steps taken, and main's variables, none if the text was not run."""

    steps: int
    values: Tuple[int, ...]
    variables: Tuple[Variable, ...]

    @property
    def finished(self) -> bool:
        """Is main's `end` done?"""
        return self.number == Number.DONE

    @property
    def refused(self) -> bool:
        """Was the text not run?"""
        return self.number.refuses

    def variable(self, name: str) -> Variable:
        """Main's variable with this name."""
        for variable in self.variables:
            if variable.name == name:
                return variable
        raise KeyError(name)


@dataclass(frozen=True)
class Bounded(_Answer):
    """The most that a run can take; None if there is no bound, and then the number says why."""

    steps: Optional[int]
    frames: Optional[int]

    @property
    def bounded(self) -> bool:
        return self.number == Number.DONE


@dataclass(frozen=True)
class Filled(_Answer):
    """What a line `requires *` stands for: the places of the permissions, the line that takes its place, and the text with it.

    Line and text are None if there is no set, and then the number says why.
    """

    places: Tuple[int, ...]
    requires: Optional[str]
    text: Optional[bytes]

    @property
    def filled(self) -> bool:
        return self.number == Number.DONE


@dataclass(frozen=True)
class Counted(_Answer):
    """How the scripts of a count ended, in order; none if the shares do not fit."""

    scripts: Tuple[Ran, ...]

    @property
    def finished(self) -> bool:
        """Is main's `end` done in every script?"""
        return self.number == Number.DONE and all(script.finished for script in self.scripts)


def _number_and_line(returned: int) -> Tuple[Number, int]:
    number, line = divmod(returned, 65536)
    try:
        return Number(number), line
    except ValueError:
        raise LibraryMismatch(f"number {number}: the library and this package have different versions") from None


def _declared(text: bytes) -> Iterator[Tuple[str, str]]:
    """The types and names of main's `var` lines, for a text that was run."""
    main = re.search(rb"^main\n((?:var\t[^\n]*\n)*)", text, re.MULTILINE)
    for line in main.group(1).decode("ascii").splitlines() if main else ():
        _, kind, name = line.split("\t")
        yield kind, name


def _held(kind: str, value: int) -> Value:
    if kind == "int":
        return value
    return Object(value) if value else None


def checked(returned: int) -> Checked:
    """What check returned."""
    return Checked(*_number_and_line(returned))


def ran(returned: int, text: bytes, results: bytes) -> Ran:
    """What run, trial or lean returned for a text, and left in the results area."""
    number, line = _number_and_line(returned)
    steps, *values = struct.unpack(f"<I{VALUES}i", results)
    declared = () if number.refuses else _declared(text)
    variables = tuple(Variable(name, kind, _held(kind, value)) for (kind, name), value in zip(declared, values))
    return Ran(number, line, steps, tuple(values), variables)


#: The line that is filled in.
_STAR = "requires\t*"


def _permissions(lines: List[str], variable: str, kind: str) -> Iterator[str]:
    """A permission to each field of a class (the `field` lines follow its line); none for an int."""
    if kind != "int":
        for line in lines[lines.index(f"class\t{kind}") + 1 :]:
            if not line.startswith("field\t"):
                return
            yield f"acc\t{variable}\t" + line.split("\t")[2]


def _filled_in(text: bytes, places: Tuple[int, ...]) -> Tuple[str, bytes]:
    """The line in the star's place, and the text with it."""
    lines = text.decode("ascii").split("\n")
    star = lines.index(_STAR)
    *_, own = (line.split("\t")[1] for line in lines[:star] if line.startswith("class\t"))
    _, _, _, kind, parameter = lines[star - 1].split("\t")
    choice = [*_permissions(lines, "this", own), *_permissions(lines, parameter, kind)]
    lines[star] = "\t".join(["requires", *(choice[place - 1] for place in places)])
    return lines[star], "\n".join(lines).encode("ascii")


def filled(returned: int, text: bytes, places: bytes) -> Filled:
    """What fill returned for a text, and left in the places area."""
    number, line = _number_and_line(returned)
    given = tuple(place for place in places if place)
    return Filled(number, line, given, *(_filled_in(text, given) if number == Number.DONE else (None, None)))


def bounded(returned: int, bounds: bytes) -> Bounded:
    """What bound returned, and left in the bounds area."""
    number, line = _number_and_line(returned)
    steps, frames = struct.unpack("<II", bounds)
    return Bounded(number, line, steps, frames) if number == Number.DONE else Bounded(number, line, None, None)


def counted(returned: int, texts: Sequence[bytes], results: bytes) -> Counted:
    """What count returned for some texts, and left in the results area."""
    number, line = _number_and_line(returned)
    parts = zip(texts, (results[at : at + SCRIPT_BYTES] for at in range(0, len(results), SCRIPT_BYTES)))
    scripts = (ran(*struct.unpack("<I", part[:4]), text, part[4:]) for text, part in parts)
    return Counted(number, line, tuple(scripts) if number == Number.DONE else ())
