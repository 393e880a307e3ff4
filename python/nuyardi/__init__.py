"""Check and run catalogue scripts with the proved library.

    >>> import nuyardi
    >>> text = b"main\\nvar\\tint\\ta\\nlet\\ta\\t7\\nend\\n"
    >>> nuyardi.check(text).accepted
    True
    >>> nuyardi.run(text, 1000).variable("a").value
    7
    >>> nuyardi.bound(text).steps
    2

`check`, `run`, `trial`, `lean`, `bound`, `fill` and `count` answer with what the library returns: a refusal is an answer. Only misuse is an exception:
a text that is not bytes (TypeError), steps out of range (ValueError), a missing library (LibraryNotFound).

`explain`, `trace`, `cards` and `draw` need a second library, libnuyardi_explain.so, and raise LibraryNotFound without it. The functions of
`nuyardi.calls` work over the caller's own areas.
"""

from ._explain import Drawing, cards, draw, explain, explain_run, trace
from ._library import LibraryError, LibraryMismatch, LibraryNotFound
from ._version import __version__
from .answers import Bounded, Checked, Counted, Filled, Object, Ran, Value, Variable
from .numbers import Number
from .scripts import bound, check, count, fill, lean, run, trial

__all__ = [
    "Bounded",
    "Checked",
    "Counted",
    "Filled",
    "Drawing",
    "LibraryError",
    "LibraryMismatch",
    "LibraryNotFound",
    "Number",
    "Object",
    "Ran",
    "Value",
    "Variable",
    "__version__",
    "bound",
    "cards",
    "check",
    "count",
    "draw",
    "explain",
    "explain_run",
    "fill",
    "lean",
    "run",
    "trace",
    "trial",
]
