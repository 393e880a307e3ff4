"""The package has the header's numbers and lengths."""

import re
import unittest

from nuyardi import _library, numbers
from nuyardi.numbers import Number

from . import ROOT

HEADER = (ROOT / "include" / "station.h").read_text()
SIZES = {name: int(size) for name, size in re.findall(r"^#define STATION_(\w+) (\d+)$", HEADER, re.MULTILINE)}


class Header(unittest.TestCase):
    def test_numbers(self):
        named = re.findall(r"^    STATION_(\w+) = (\d+),?\s*/\* (.*) \*/$", HEADER, re.MULTILINE)
        self.assertGreater(len(named), 20)
        size = lambda found: str(SIZES[found.group(1)])
        theirs = [(name, int(number), re.sub(r"STATION_(\w+)", size, meaning)) for name, number, meaning in named]
        self.assertEqual([(number.name, number.value, number.meaning) for number in Number], theirs)

    def test_lengths(self):
        for name in ["WORK_BYTES", "RESULTS_BYTES", "BOUNDS_BYTES", "PLACES_BYTES", "TEXT_BYTES", "VALUES", "BOUND", "FILLED", "COUNT_BYTES", "SCRIPTS", "SCRIPT_BYTES", "OBJECTS"]:
            self.assertEqual(getattr(numbers, name), SIZES[name], name)

    def test_functions(self):
        declared = set(re.findall(r"^uint32_t (station_\w+)\(", HEADER, re.MULTILINE))
        self.assertEqual(len(declared), 7)
        for name in declared:
            self.assertTrue(getattr(_library.station(), name).argtypes, name)

    def test_soname(self):
        major = (ROOT / "VERSION").read_text().split(".")[0]
        self.assertEqual(_library.SONAME, f"libnuyardi.so.{major}")


if __name__ == "__main__":
    unittest.main()
