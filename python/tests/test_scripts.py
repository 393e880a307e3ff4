"""check, run, trial, lean, bound, fill and count on scripts with known answers."""

import dataclasses
import doctest
import re
import unittest

import nuyardi
from nuyardi import Number, Object, Variable

from . import ROOT, example

WORKED = example("worked.txt")
FOREVER = example("forever.script")


def numbered(prefix: str):
    """The examples that are named after the number that they get."""
    for path in sorted((ROOT / "examples").glob(f"{prefix}-*.script")):
        yield path.name, int(re.findall(r"\d+", path.name)[0]), path.read_bytes()


class Worked(unittest.TestCase):
    """The worked script of the README."""

    def test_checked(self):
        answer = nuyardi.check(WORKED)
        self.assertEqual((answer.number, answer.line, answer.accepted), (Number.DONE, 0, True))

    def test_ran(self):
        for call in [nuyardi.run, nuyardi.trial, nuyardi.lean]:
            ended = call(WORKED, 1000)
            self.assertEqual((ended.number, ended.line, ended.steps), (0, 19, 8))
            self.assertTrue(ended.finished and not ended.refused)
            self.assertEqual(ended.values, (1, 7, 7) + (0,) * 9)
            known = (Variable("s", "S", Object(1)), Variable("a", "int", 7), Variable("b", "int", 7))
            self.assertEqual(ended.variables, known)
            self.assertEqual(ended.variable("b").value, 7)
            with self.assertRaises(KeyError):
                ended.variable("c")

    def test_bounded(self):
        bound = nuyardi.bound(WORKED)
        self.assertEqual((bound.steps, bound.frames, bound.bounded), (9, 2, True))
        self.assertTrue(nuyardi.run(WORKED, bound.steps).finished)
        # The method's `end` is in the bound, and not done after its `return`.
        self.assertTrue(nuyardi.run(WORKED, 8).finished)
        self.assertEqual(nuyardi.run(WORKED, 7).number, Number.OUT_OF_STEPS)

    def test_without_requires(self):
        bare = WORKED.replace(b"requires\tacc\tthis\tn\n", b"requires\n")
        self.assertNotEqual(bare, WORKED)
        refused = nuyardi.check(bare)
        self.assertEqual((refused.number, refused.line, refused.accepted), (12, 7, False))
        self.assertEqual(str(refused), "line 7: permission not shown (number 12)")
        ran = nuyardi.run(bare, 1000)
        self.assertEqual(nuyardi.lean(bare, 1000), ran)
        self.assertEqual((ran.number, ran.line, ran.steps, ran.variables), (12, 7, 0, ()))
        self.assertTrue(ran.refused)
        tried = nuyardi.trial(bare, 1000)
        self.assertEqual((tried.number, tried.line), (Number.PERMISSION_MISSING, 7))
        self.assertEqual([variable.name for variable in tried.variables], ["s", "a", "b"])


class Answers(unittest.TestCase):
    def test_refused_examples(self):
        count = 0
        for name, number, text in numbered("refused"):
            later = {15: nuyardi.bound, 16: nuyardi.bound, 17: nuyardi.fill, 18: nuyardi.fill}
            self.assertEqual(later.get(number, nuyardi.check)(text).number, number, name)
            count += 1
        self.assertGreater(count, 12)

    def test_stopped_examples(self):
        count = 0
        for name, number, text in numbered("stopped"):
            ended = nuyardi.trial(text, 1 if number == Number.OUT_OF_STEPS else 1000)
            self.assertEqual(ended.number, number, name)
            self.assertTrue(ended.number.stops and not ended.refused)
            count += 1
        self.assertEqual(count, 7)

    def test_lean_as_run(self):
        count = 0
        for path in sorted((ROOT / "examples").iterdir()):
            text = path.read_bytes()
            for steps in [0, 5, 3000]:
                self.assertEqual(nuyardi.lean(text, steps), nuyardi.run(text, steps), path.name)
            count += 1
        self.assertGreater(count, 20)
        ended = nuyardi.lean(example("catalogue.script"), 1000000)
        self.assertEqual((ended.finished, ended.steps, ended.variable("tours").value), (True, 178205, 100))

    def test_no_bound(self):
        bound = nuyardi.bound(FOREVER)
        self.assertEqual((bound.number, bound.steps, bound.frames), (Number.UNBOUNDED, None, None))
        self.assertTrue(nuyardi.check(FOREVER).accepted)

    def test_filled(self):
        text = example("fill.script")
        filled = nuyardi.fill(text)
        self.assertEqual((filled.number, filled.line, filled.filled, filled.places), (Number.DONE, 0, True, (1, 2, 6)))
        self.assertEqual(filled.requires, "requires\tacc\tthis\tprev\tacc\tthis\ttag\tacc\told\tseen")
        self.assertEqual(filled.text, text.replace(b"requires\t*", filled.requires.encode()))
        self.assertTrue(nuyardi.run(filled.text, 1000).finished)
        self.assertEqual(nuyardi.check(text).number, Number.FORM)
        of_int = b"class\tS\nfield\tint\ta\nfield\tint\tb\nmethod\tint\tm\tint\tk\nrequires\t*\nensures\tacc\tthis\tb\nend\nmain\nend\n"
        self.assertEqual(nuyardi.fill(of_int).requires, "requires\tacc\tthis\tb")
        for text, number, line in [(WORKED, 18, 0), (example("refused-17.script"), 17, 4), (b"main", 3, 1)]:
            none = nuyardi.fill(text)
            self.assertEqual((none.number, none.line, none.filled), (number, line, False))
            self.assertEqual((none.places, none.requires, none.text), ((), None, None))

    def test_counted(self):
        north, south = example("north.script"), example("south.script")
        counted = nuyardi.count([north, south], 1000)
        self.assertEqual((counted.number, counted.line, counted.finished), (Number.DONE, 0, True))
        self.assertEqual(counted.scripts, (nuyardi.run(north, 1000), nuyardi.run(south, 1000)))
        full = nuyardi.count([north, south, b"main"], 30, [3, 252, 1])
        self.assertEqual([script.number for script in full.scripts], [Number.HEAP_FULL, Number.DONE, Number.BYTE])
        self.assertFalse(full.finished)
        self.assertEqual(nuyardi.count([south], 5).scripts, (nuyardi.run(south, 5),))
        for texts, shares in [([], None), (5 * [south], None), ([south], [257]), ([south], [0]), (2 * [south], [2**32 - 1, 1])]:
            none = nuyardi.count(texts, 9, shares)
            self.assertEqual((none.number, none.line, none.finished, none.scripts), (Number.SHARES, 0, False, ()))

    def test_counts_misused(self):
        for error, message, words in [
            (TypeError, "texts is one text", (WORKED, 9)),
            (TypeError, "text is not bytes", ([WORKED.decode()], 9)),
            (ValueError, "2 texts, but 1 shares", ([WORKED, WORKED], 9, [1])),
            (ValueError, "rounds is -1", ([WORKED], -1)),
            (ValueError, "a share is 4294967296", ([WORKED], 9, [2**32])),
        ]:
            with self.assertRaisesRegex(error, message):
                nuyardi.count(*words)

    def test_null_and_negative(self):
        text = b"class\tS\nfield\tS\tn\nmain\nvar\tS\ts\nvar\tint\ta\nlet\ta\t-5\nend\n"
        ended = nuyardi.run(text, 10)
        self.assertEqual([variable.value for variable in ended.variables], [None, -5])

    def test_texts_of_any_bytes(self):
        self.assertEqual(nuyardi.check(b"").number, Number.UNFINISHED)
        self.assertEqual(nuyardi.check(b"\0\xff").number, Number.BYTE)
        self.assertEqual(nuyardi.check(b"a" * 40000).number, Number.TEXT_TOO_LONG)

    def test_answers_are_frozen(self):
        for answer in [nuyardi.check(WORKED), nuyardi.run(WORKED, 9), nuyardi.bound(WORKED), nuyardi.fill(WORKED)]:
            with self.assertRaises(dataclasses.FrozenInstanceError):
                answer.line = 1
            self.assertEqual(len({answer, answer}), 1)


class Documented(unittest.TestCase):
    def test_lines_of_the_package(self):
        tried = doctest.testmod(nuyardi, verbose=False)
        self.assertEqual((tried.failed, tried.attempted), (0, 5))


class Misuse(unittest.TestCase):
    def test_text_is_bytes(self):
        for text in [WORKED.decode(), bytearray(WORKED), memoryview(WORKED), None, 5]:
            runs = [nuyardi.run, nuyardi.trial, nuyardi.lean]
            for call in [nuyardi.check, nuyardi.bound, nuyardi.fill, *(lambda text, run=run: run(text, 1) for run in runs)]:
                with self.assertRaisesRegex(TypeError, "text is not bytes"):
                    call(text)

    def test_steps_in_range(self):
        for call in [nuyardi.run, nuyardi.trial, nuyardi.lean]:
            for steps in [-1, 2**32, 10**30]:
                with self.assertRaisesRegex(ValueError, "steps is"):
                    call(WORKED, steps)
            for steps in [1.0, "1", None, True]:
                with self.assertRaisesRegex(TypeError, "steps is not an int"):
                    call(WORKED, steps)
            self.assertTrue(call(WORKED, 2**32 - 1).finished)
            self.assertEqual(call(WORKED, 0).number, Number.OUT_OF_STEPS)


if __name__ == "__main__":
    unittest.main()
