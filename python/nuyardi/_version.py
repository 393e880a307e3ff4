"""The version: in a checkout, the one in the file VERSION; in a wheel, this file is replaced by one that contains it."""

from pathlib import Path

__version__ = (Path(__file__).parents[2] / "VERSION").read_text().strip()
