"""The calls over the caller's own areas: what they leave there, and the areas that they refuse."""

import ctypes
import struct
import unittest

from nuyardi import calls
from nuyardi.numbers import BOUNDS_BYTES, COUNT_BYTES, PLACES_BYTES, RESULTS_BYTES, TEXT_BYTES, WORK_BYTES

from . import example

WORKED = example("worked.txt")


def filled(length: int) -> bytearray:
    return bytearray(b"\xa5" * length)


class Areas(unittest.TestCase):
    def setUp(self):
        self.work, self.results, self.bounds = filled(WORK_BYTES), filled(RESULTS_BYTES), filled(BOUNDS_BYTES)
        self.places = filled(PLACES_BYTES)

    def every_call(self, text=WORKED, work=None, results=None, bounds=None, places=None):
        """Each call, with these in place of its usual arguments."""
        work = self.work if work is None else work
        results = self.results if results is None else results
        bounds = self.bounds if bounds is None else bounds
        places = self.places if places is None else places
        yield lambda: calls.check(text, work)
        yield lambda: calls.run(text, work, 1000, results)
        yield lambda: calls.trial(text, work, 1000, results)
        yield lambda: calls.lean(text, work, 1000, results)
        yield lambda: calls.bound(text, work, bounds)
        yield lambda: calls.fill(text, work, places)

    def refused(self, error, message, which=slice(None), **words):
        for call in list(self.every_call(**words))[which]:
            with self.assertRaisesRegex(error, message):
                call()
        areas = [self.work, self.results, self.bounds, self.places]
        self.assertEqual(set().union(*areas), {0xA5}, "an area was changed")

    def test_what_is_left(self):
        self.assertEqual(calls.check(WORKED, self.work), 0)
        self.assertEqual(set(self.work), {0})
        for call in [calls.run, calls.trial, calls.lean]:
            results = filled(RESULTS_BYTES)
            self.assertEqual(call(WORKED, filled(WORK_BYTES), 1000, results), 19)
            self.assertEqual(struct.unpack("<I12i", results), (8, 1, 7, 7) + (0,) * 9)
        self.assertEqual(calls.bound(WORKED, self.work, self.bounds), 0)
        self.assertEqual(struct.unpack("<II", self.bounds), (9, 2))
        self.assertEqual(calls.fill(WORKED, self.work, self.places), 18 * 65536)
        self.assertEqual(self.places, bytes(PLACES_BYTES))
        self.assertEqual(calls.fill(example("fill.script"), filled(WORK_BYTES), self.places), 0)
        self.assertEqual(self.places, bytes([1, 2, 6, 0]))
        self.assertEqual(calls.check(b"main\n", self.work), 8 * 65536 + 1)

    def test_every_kind_of_buffer(self):
        for text in [WORKED, bytearray(WORKED), memoryview(bytearray(WORKED)), (ctypes.c_ubyte * len(WORKED))(*WORKED)]:
            for call, returned in zip(self.every_call(text=text), [0, 19, 19, 19, 0, 18 * 65536]):
                self.assertEqual(call(), returned)
        whole = filled(WORK_BYTES + RESULTS_BYTES + len(WORKED))
        view = memoryview(whole)
        text, work = view[: len(WORKED)], view[len(WORKED) : len(WORKED) + WORK_BYTES]
        text[:] = WORKED
        self.assertEqual(calls.run(text, work, 1000, view[len(WORKED) + WORK_BYTES :]), 19)

    def test_empty_text(self):
        for text in [b"", bytearray()]:
            self.assertEqual(calls.check(text, self.work), 8 * 65536)

    def test_wrong_lengths(self):
        for length in [0, 1, WORK_BYTES - 1, WORK_BYTES + 1]:
            self.refused(ValueError, f"work has {length} bytes, and must have {WORK_BYTES}", work=filled(length))
        self.refused(ValueError, "results has 51 bytes, and must have 52", slice(1, 4), results=filled(51))
        self.refused(ValueError, "bounds has 9 bytes, and must have 8", slice(4, 5), bounds=filled(9))
        self.refused(ValueError, "places has 3 bytes, and must have 4", slice(5, 6), places=filled(3))

    def test_no_buffer(self):
        """Including null pointers."""
        for nothing in [None, 0, 5, "text", object()]:
            self.refused(TypeError, "text is", text=nothing if nothing is not None else 0)
        for call in [lambda: calls.check(None, self.work), lambda: calls.check(WORKED, None)]:
            with self.assertRaises(TypeError):
                call()
        self.refused(TypeError, "work is not a writable, contiguous buffer", work=bytes(WORK_BYTES))
        self.refused(TypeError, "work is not a writable, contiguous buffer", work=memoryview(filled(2 * WORK_BYTES))[::2])
        self.refused(TypeError, "results is not a writable, contiguous buffer", slice(1, 4), results=bytes(RESULTS_BYTES))

    def test_overlapping_areas(self):
        shared = memoryview(filled(WORK_BYTES + TEXT_BYTES))
        work = shared[:WORK_BYTES]
        for at in [WORK_BYTES - 1, WORK_BYTES - RESULTS_BYTES, 0]:
            lengths = {"results": RESULTS_BYTES, "bounds": BOUNDS_BYTES, "places": PLACES_BYTES}
            areas = {name: shared[at : at + length] for name, length in lengths.items()}
            self.refused(ValueError, "work and (results|bounds|places) overlap", slice(1, 6), work=work, **areas)
            self.refused(ValueError, "text and work overlap", text=shared[at : at + 100], work=work)
        self.refused(ValueError, "text and results overlap", slice(1, 4), text=self.results)
        self.refused(ValueError, "work and results overlap", slice(1, 4), results=memoryview(self.work)[:RESULTS_BYTES])
        self.assertEqual(set(shared), {0xA5})
        beside = shared[WORK_BYTES : WORK_BYTES + RESULTS_BYTES]
        self.assertEqual(calls.run(WORKED, work, 1000, beside), 19)

    def test_overlap_with_bytes(self):
        """An area that someone lays over the bytes of a text."""
        text = bytes(WORK_BYTES)
        address = ctypes.cast(ctypes.c_char_p(text), ctypes.c_void_p).value
        over = (ctypes.c_ubyte * WORK_BYTES).from_address(address)
        with self.assertRaisesRegex(ValueError, "text and work overlap"):
            calls.check(text, over)

    def test_steps(self):
        for steps in [-1, 2**32]:
            for call in [calls.run, calls.trial, calls.lean]:
                with self.assertRaises(ValueError):
                    call(WORKED, self.work, steps, self.results)

    def count(self, texts=4 * (WORKED,), work=None, shares=(1, 1, 1, 1), results=None, scripts=2, rounds=1000):
        results = filled(COUNT_BYTES) if results is None else results
        returned = calls.count(scripts, rounds, texts, self.work if work is None else work, shares, results)
        return returned, results

    def test_count(self):
        returned, results = self.count()
        one = struct.pack("<II12i", 19, 8, 1, 7, 7, *(0,) * 9)
        self.assertEqual((returned, results), (0, 2 * one + bytes(2 * len(one))))
        self.assertEqual(set(self.work), {0})
        for scripts, shares in [(0, (1, 1, 1, 1)), (5, (1, 1, 1, 1)), (2, (0, 1, 1, 1)), (2, (2**32 - 1, 2, 0, 0))]:
            self.assertEqual(self.count(scripts=scripts, shares=shares), (19 * 65536, bytes(COUNT_BYTES)))
        self.assertEqual(self.count(texts=(WORKED, b"", b"\xff", b""))[0], 0)

    def test_counts_that_are_refused(self):
        shared = memoryview(filled(WORK_BYTES + COUNT_BYTES))
        for error, message, words in [
            (ValueError, "work has 5 bytes", {"work": filled(5)}),
            (ValueError, "results has 52 bytes, and must have 224", {"results": filled(52)}),
            (ValueError, "texts has 3 entries, and must have 4", {"texts": 3 * (WORKED,)}),
            (ValueError, "shares has 5 entries, and must have 4", {"shares": 5 * (1,)}),
            (TypeError, "text is a str", {"texts": 4 * ("main",)}),
            (ValueError, "a share is -1", {"shares": (1, 1, 1, -1)}),
            (TypeError, "a share is not an int", {"shares": (1, 1, 1, None)}),
            (ValueError, "rounds is 4294967296", {"rounds": 2**32}),
            (TypeError, "scripts is not an int", {"scripts": 1.0}),
            (ValueError, "work and results overlap", {"work": shared[:WORK_BYTES], "results": shared[WORK_BYTES - 1 : -1]}),
            (ValueError, "text and work overlap", {"texts": (WORKED, WORKED, WORKED, self.work)}),
        ]:
            with self.assertRaisesRegex(error, message):
                self.count(**words)
        self.assertEqual(set(self.work) | set(shared), {0xA5}, "an area was changed")

    def test_lean_leaves_what_run_leaves(self):
        for text in [WORKED, WORKED.replace(b"requires\tacc\tthis\tn\n", b"requires\n"), b"", b"\xff"]:
            for steps in [0, 3, 8, 2**32 - 1]:
                left = []
                for call in [calls.run, calls.lean]:
                    work, results = filled(WORK_BYTES), filled(RESULTS_BYTES)
                    left.append((call(text, work, steps, results), work, results))
                self.assertEqual(left[0], left[1], (text, steps))
                self.assertEqual(set(left[1][1]), {0})


if __name__ == "__main__":
    unittest.main()
