"""Missing and wrong libraries."""

import os
import subprocess
import sys
import tempfile
import unittest
from pathlib import Path

from nuyardi import LibraryError, LibraryMismatch, LibraryNotFound
from nuyardi._library import SONAME
from nuyardi.answers import checked

from . import PYTHON

CALL = "import nuyardi\ntry:\n    nuyardi.{call}\nexcept nuyardi.{error} as error:\n    print(error)\nelse:\n    print('no error')"


def said(call: str, error: str, **places: str) -> str:
    """What a new interpreter says about a call, with these environment variables."""
    words = [sys.executable, "-c", CALL.format(call=call, error=error)]
    environment = {**os.environ, "PYTHONPATH": str(PYTHON), **places}
    done = subprocess.run(words, env=environment, cwd="/", stdout=subprocess.PIPE, stderr=subprocess.STDOUT)
    return done.stdout.decode()


class Library(unittest.TestCase):
    def test_not_there(self):
        nowhere = "/nowhere/libnuyardi.so"
        found = said("check(b'')", "LibraryNotFound", NUYARDI_LIBRARY=nowhere)
        self.assertIn("libnuyardi.so cannot be loaded", found)
        self.assertIn("NUYARDI_LIBRARY", found)
        self.assertIn(nowhere, found)

    def test_explaining_not_there(self):
        nowhere = "/nowhere/libnuyardi_explain.so"
        for call in ["explain(b'')", "explain_run(b'', 1)", "trace(b'', 1)", "cards(b'', 1)", "draw(b'', 1)"]:
            found = said(call, "LibraryNotFound", NUYARDI_EXPLAIN_LIBRARY=nowhere)
            self.assertIn("libnuyardi_explain.so cannot be loaded", found, call)

    def test_the_calls_need_no_explaining(self):
        found = said("check(b'')", "LibraryNotFound", NUYARDI_EXPLAIN_LIBRARY="/nowhere")
        self.assertEqual(found, "no error\n")

    def test_no_library_at_all(self):
        with tempfile.TemporaryDirectory() as folder:
            empty = Path(folder) / "empty.so"
            empty.write_bytes(b"no library")
            self.assertIn("cannot be loaded", said("check(b'')", "LibraryNotFound", NUYARDI_LIBRARY=str(empty)))

    def test_found_by_the_loader(self):
        """As if the library were installed."""
        with tempfile.TemporaryDirectory() as folder:
            (Path(folder) / SONAME).symlink_to(os.environ["NUYARDI_LIBRARY"])
            found = said("check(b'')", "LibraryNotFound", NUYARDI_LIBRARY="", LD_LIBRARY_PATH=folder)
            self.assertEqual(found, "no error\n")

    def test_another_library(self):
        self.assertIn("has no function station_check", said("check(b'')", "LibraryMismatch", NUYARDI_LIBRARY="libc.so.6"))

    def test_number_of_another_version(self):
        with self.assertRaisesRegex(LibraryMismatch, "number 99"):
            checked(99 * 65536)

    def test_errors(self):
        for error in [LibraryNotFound, LibraryMismatch]:
            self.assertTrue(issubclass(error, LibraryError) and issubclass(error, OSError))


if __name__ == "__main__":
    unittest.main()
