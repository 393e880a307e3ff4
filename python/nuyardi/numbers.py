"""The numbers that the calls return and the lengths of areas, as the header station.h has them; the tests compare the two."""

import enum

WORK_BYTES = 65536
RESULTS_BYTES = 52
BOUNDS_BYTES = 8
PLACES_BYTES = 4
COUNT_BYTES = 224
TEXT_BYTES = 32768
VALUES = 12
BOUND = 1000000
FILLED = 4
SCRIPTS = 4
SCRIPT_BYTES = 56
OBJECTS = 256
#: The most steps that can be allowed: 32 bits.
MOST_STEPS = 2**32 - 1


class Number(enum.IntEnum):
    """What a call says about a text."""

    DONE = 0
    AREA_LENGTH = 1
    TEXT_TOO_LONG = 2
    BYTE = 3
    FORM = 4
    LIMIT = 5
    NAME = 6
    TYPE = 7
    UNFINISHED = 8
    ASSIGNED = 9
    UNFRAMED = 10
    UNRESOLVED = 11
    NO_PERMISSION = 12
    NOT_SHOWN = 13
    STATE_FULL = 14
    UNBOUNDED = 15
    BOUND_PASSED = 16
    UNFILLED = 17
    STARS = 18
    SHARES = 19
    OUT_OF_STEPS = 21
    HEAP_FULL = 22
    FRAMES_FULL = 23
    PERMISSION_MISSING = 24
    NULL_FOLLOWED = 25
    FORMULA_FALSE = 26
    OVERFLOW = 27

    @property
    def meaning(self) -> str:
        """What it means, in words."""
        return _MEANINGS[self]

    @property
    def refuses(self) -> bool:
        """Does check refuse a text with it?"""
        return Number.TEXT_TOO_LONG <= self <= Number.STATE_FULL

    @property
    def stops(self) -> bool:
        """Does it stop a run?"""
        return self >= Number.OUT_OF_STEPS


_MEANINGS = {
    Number.DONE: "accepted; main's `end` done",
    Number.AREA_LENGTH: "a lent area of wrong length",
    Number.TEXT_TOO_LONG: "text too long",
    Number.BYTE: "byte other than tab, LF, 33 to 126; last line without LF",
    Number.FORM: "unknown word, count or form of fields, line out of place",
    Number.LIMIT: "a limit of the text passed",
    Number.NAME: "name undeclared, not allowed, reserved, declared twice",
    Number.TYPE: "wrong type",
    Number.UNFINISHED: "text ends before main's `end`",
    Number.ASSIGNED: "variable that may not be assigned; `call x` with x as y or z; `open x x`",
    Number.UNFRAMED: "path read before its `acc` or `read`",
    Number.UNRESOLVED: "path that does not resolve",
    Number.NO_PERMISSION: "permission not shown",
    Number.NOT_SHOWN: "`eq` or `ne` not shown",
    Number.STATE_FULL: "checker's state full",
    Number.UNBOUNDED: "`loop`, or `call` that can lead back to its own method",
    Number.BOUND_PASSED: "bound above 1000000 steps",
    Number.UNFILLED: "no set of at most 4 permissions for `requires *`",
    Number.STARS: "no `requires *`, or a second one",
    Number.SHARES: "no scripts or more than 4; a share of 0, or shares above 256",
    Number.OUT_OF_STEPS: "allowed steps taken",
    Number.HEAP_FULL: "more than 256 objects or 1024 fields",
    Number.FRAMES_FULL: "more than 64 frames",
    Number.PERMISSION_MISSING: "permission missing",
    Number.NULL_FOLLOWED: "null followed",
    Number.FORMULA_FALSE: "formula false",
    Number.OVERFLOW: "sum or difference beyond 32 bits signed",
}
