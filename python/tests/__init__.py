"""Tests over the shared libraries that are built in the repository, or those that NUYARDI_LIBRARY and NUYARDI_EXPLAIN_LIBRARY name."""

import os
from pathlib import Path

PYTHON = Path(__file__).parents[1]
ROOT = PYTHON.parent

os.environ.setdefault("NUYARDI_LIBRARY", str(ROOT / "target" / "libnuyardi.so"))
EXPLAIN = ROOT / "rust" / "target" / "release" / "libnuyardi_explain.so"
if EXPLAIN.is_file():
    os.environ.setdefault("NUYARDI_EXPLAIN_LIBRARY", str(EXPLAIN))


def example(name: str) -> bytes:
    """A script of the folder examples."""
    return (ROOT / "examples" / name).read_bytes()
