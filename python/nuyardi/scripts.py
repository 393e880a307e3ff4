"""check, run, trial, lean, bound, fill and count. Each call has its own areas, so calls may run in any number of threads."""

from typing import Any, Optional, Sequence

from . import answers, calls
from .answers import Bounded, Checked, Counted, Filled, Ran
from .numbers import BOUNDS_BYTES, COUNT_BYTES, OBJECTS, PLACES_BYTES, RESULTS_BYTES, SCRIPTS, WORK_BYTES


def script_bytes(text: Any) -> bytes:
    """The text, if it is bytes: nobody can change bytes during a call."""
    if isinstance(text, bytes):
        return text
    fix = 'text.encode("ascii")' if isinstance(text, str) else "bytes(text)"
    raise TypeError(f"text is not bytes but {type(text).__name__}: pass {fix}")


def check(text: bytes) -> Checked:
    """Is the text a script that keeps to its permissions?"""
    return answers.checked(calls.check(script_bytes(text), bytearray(WORK_BYTES)))


def run(text: bytes, steps: int) -> Ran:
    """Checks the text, and if it is accepted runs it for at most `steps` steps.

    The number is 2 to 14 if check refuses the text, and otherwise 0, 21, 22, 23 or 27: never 24, 25 or 26, by a theorem.
    """
    results = bytearray(RESULTS_BYTES)
    returned = calls.run(script_bytes(text), bytearray(WORK_BYTES), steps, results)
    return answers.ran(returned, text, results)


def trial(text: bytes, steps: int) -> Ran:
    """Runs the text as run does, without checking it first; the machine tests every permission."""
    results = bytearray(RESULTS_BYTES)
    returned = calls.trial(script_bytes(text), bytearray(WORK_BYTES), steps, results)
    return answers.ran(returned, text, results)


def lean(text: bytes, steps: int) -> Ran:
    """Always the answer of run, from a machine that keeps no permissions: faster in a long run over many objects.

    It checks the text first, as run does. An accepted text never lacks a permission, by a theorem, so none is tested.
    """
    results = bytearray(RESULTS_BYTES)
    returned = calls.lean(script_bytes(text), bytearray(WORK_BYTES), steps, results)
    return answers.ran(returned, text, results)


def bound(text: bytes) -> Bounded:
    """The most steps and frames that a run of the text can take, known before the run."""
    bounds = bytearray(BOUNDS_BYTES)
    returned = calls.bound(script_bytes(text), bytearray(WORK_BYTES), bounds)
    return answers.bounded(returned, bounds)


def fill(text: bytes) -> Filled:
    """The first set of at most 4 permissions that, in place of the star of `requires *`, makes the text accepted, apart from its length."""
    places = bytearray(PLACES_BYTES)
    returned = calls.fill(script_bytes(text), bytearray(WORK_BYTES), places)
    return answers.filled(returned, text, places)


def count(texts: Sequence[bytes], rounds: int, shares: Optional[Sequence[int]] = None) -> Counted:
    """Runs 1 to 4 texts over one heap, one step of each per round, each with its share of the objects.

    Without `shares` they are equal parts of 256. By a theorem, the answer for a text is that of run for it alone, with its share as
    the heap and the rounds as steps.
    """
    if isinstance(texts, (bytes, bytearray, str)):
        raise TypeError("texts is one text: pass a list of texts")
    given = [script_bytes(text) for text in texts]
    parts = [OBJECTS // max(len(given), 1)] * len(given) if shares is None else list(shares)
    if len(parts) != len(given):
        raise ValueError(f"{len(given)} texts, but {len(parts)} shares")
    missing = SCRIPTS - len(given)
    results = bytearray(COUNT_BYTES)
    four, fours = (given + missing * [b""])[:SCRIPTS], (parts + missing * [0])[:SCRIPTS]
    returned = calls.count(len(given), rounds, four, bytearray(WORK_BYTES), fours, results)
    return answers.counted(returned, given, results)
