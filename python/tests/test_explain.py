"""explain, trace and draw: how they take what the library writes, and, if the library is available, what it says."""

import ctypes
import tempfile
import unittest
from pathlib import Path

import nuyardi
from nuyardi import _explain

from . import ROOT, example

WORKED = example("worked.txt")
WRITES = ctypes.CFUNCTYPE(ctypes.c_size_t, ctypes.c_void_p, ctypes.c_size_t, ctypes.c_void_p, ctypes.c_size_t)


def has_library() -> bool:
    try:
        nuyardi.explain(WORKED)
    except nuyardi.LibraryNotFound:
        return False
    return True


class Room(unittest.TestCase):
    """A call without enough room returns the length that is needed."""

    def written(self, content: bytes):
        rooms = []

        @WRITES
        def writes(text, length, out, capacity):
            rooms.append(capacity)
            if len(content) <= capacity:
                ctypes.memmove(out, content, len(content))
            return len(content)

        return _explain.written(writes, b"text", 4), rooms

    def test_room_is_enough(self):
        for length in [0, 1, _explain.FIRST_ROOM]:
            content = b"x" * length
            self.assertEqual(self.written(content), (content, [_explain.FIRST_ROOM]))

    def test_more_room_is_needed(self):
        content = b"y" * (_explain.FIRST_ROOM + 1)
        self.assertEqual(self.written(content), (content, [_explain.FIRST_ROOM, len(content)]))


class Misuse(unittest.TestCase):
    def test_words(self):
        """These are refused before any library is loaded."""
        for call in [nuyardi.explain_run, nuyardi.trace, nuyardi.cards, nuyardi.draw]:
            with self.assertRaises(ValueError):
                call(WORKED, -1)
            with self.assertRaises(TypeError):
                call(WORKED.decode(), 1)
        with self.assertRaises(TypeError):
            nuyardi.explain(WORKED.decode())


@unittest.skipUnless(has_library(), "there is no libnuyardi_explain.so here")
class Explained(unittest.TestCase):
    def test_refused(self):
        said = nuyardi.explain(example("refused-12.script"))
        self.assertEqual((said["accepted"], said["number"], said["line"]), (False, 12, 6))
        self.assertIn("acc this n", said["cause"])
        self.assertEqual(said["headline"], "nobody gave `m` of class S the permission to `this.n`")

    def test_warnings(self):
        said = nuyardi.explain(example("follow.script"))
        self.assertEqual([(one["kind"], one["line"]) for one in said["warnings"]], [("unused-permission", 5)])
        self.assertEqual(nuyardi.explain(example("tag.script"))["warnings"], [])

    def test_every_example_as_check(self):
        for path in sorted((ROOT / "examples").iterdir()):
            text = path.read_bytes()
            said, checked = nuyardi.explain(text), nuyardi.check(text)
            self.assertEqual((said["accepted"], said["number"], said["line"]), (checked.accepted, checked.number, checked.line))

    def test_run(self):
        said, ran = nuyardi.explain_run(WORKED, 1000), nuyardi.run(WORKED, 1000)
        self.assertEqual((said["number"], said["line"], said["steps"]), (ran.number, ran.line, ran.steps))
        self.assertEqual([known["name"] for known in said["variables"]], ["s", "a", "b"])

    def test_trace(self):
        steps = list(nuyardi.trace(WORKED, 1000))
        self.assertEqual([step["step"] for step in steps], list(range(1, 9)))
        self.assertEqual([step["line"] for step in steps], [14, 15, 16, 7, 8, 17, 18, 19])
        self.assertEqual(len({tuple(step) for step in steps}), 1, "each step has the same columns")
        self.assertEqual(len(list(nuyardi.trace(WORKED, 3))), 3)
        self.assertEqual(list(nuyardi.trace(example("refused-12.script"), 9)), [])

    def test_long_trace(self):
        """More than the first room holds."""
        steps = list(nuyardi.trace(example("forever.script"), 5000))
        self.assertEqual(steps[-1]["step"], 5000)

    def test_cards(self):
        made = nuyardi.cards(WORKED, 1000)
        self.assertEqual([(card["object"], card["class"]) for card in made], [(1, "S")])
        fields = [(field["name"], field["link"], field["value"], field["holder"]) for field in made[0]["fields"]]
        self.assertEqual(fields, [("prev", True, None, 0), ("n", False, 7, 0)])
        self.assertEqual(nuyardi.cards(WORKED, 0), [])
        self.assertEqual(len(nuyardi.cards(example("catalogue.script"), 1000)), 125)
        with self.assertRaisesRegex(ValueError, "there are no cards"):
            nuyardi.cards(example("refused-12.script"), 9)

    def test_draw(self):
        drawing = nuyardi.draw(WORKED, 1000)
        self.assertTrue(drawing._repr_svg_().startswith("<svg") and drawing.svg.rstrip().endswith("</svg>"))
        with tempfile.TemporaryDirectory() as folder:
            drawing.save(Path(folder) / "cards.svg")
            self.assertEqual((Path(folder) / "cards.svg").read_text(encoding="utf-8"), drawing.svg)
        with self.assertRaisesRegex(ValueError, "no picture"):
            nuyardi.draw(example("refused-12.script"), 9)


if __name__ == "__main__":
    unittest.main()
