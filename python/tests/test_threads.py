"""Calls in threads: the interpreter's lock is free during a call, and answers do not mix."""

import ctypes
import threading
import time
import unittest
from concurrent.futures import ThreadPoolExecutor

import nuyardi
from nuyardi import Number, _library
from nuyardi.numbers import RESULTS_BYTES, WORK_BYTES

from . import example

FOREVER = example("forever.script")
SCRIPTS = ["worked.txt", "sum.script", "refused-12.script", "stopped-27.script", "chain.script", "fill.script"]


def steps_for(seconds: float) -> int:
    """About as many steps of a loop as take a processor this long."""
    steps = 10000
    while True:
        began = time.thread_time()
        nuyardi.run(FOREVER, steps)
        took = time.thread_time() - began
        if took > 0.05:
            return min(int(steps * seconds / took), 2**32 - 1)
        steps *= 4


def calls_beside(long_call) -> int:
    """How many short calls another thread completes in the middle half of the time that a long one takes."""
    begins, lasted = threading.Event(), []

    def lasts():
        begins.set()
        began = time.perf_counter()
        long_call()
        lasted.append((began, time.perf_counter()))

    thread = threading.Thread(target=lasts)
    thread.start()
    begins.wait()
    times = []
    while not lasted:
        nuyardi.check(b"main\nend\n")
        times.append(time.perf_counter())
    thread.join()
    ((began, ended),) = lasted
    quarter = (ended - began) / 4
    return sum(began + quarter < at < ended - quarter for at in times)


class Threads(unittest.TestCase):
    def test_lock_is_free_during_a_call(self):
        steps = steps_for(0.5)
        free = calls_beside(lambda: nuyardi.run(FOREVER, steps))
        # The same function, called with the lock held: the other thread waits.
        held = ctypes.PyDLL(_library.station()._name).station_run
        held.argtypes = _library.station().station_run.argtypes
        work, results = ctypes.create_string_buffer(WORK_BYTES), ctypes.create_string_buffer(RESULTS_BYTES)
        few = calls_beside(lambda: held(FOREVER, len(FOREVER), work, WORK_BYTES, steps, results, RESULTS_BYTES))
        self.assertGreater(free, 100)
        self.assertGreater(free, 10 * few)

    def test_answers_do_not_mix(self):
        texts = [example(name) for name in SCRIPTS]

        def answers(text):
            runs = [nuyardi.trial(text, 500), nuyardi.lean(text, 500)]
            return [nuyardi.check(text), *runs, nuyardi.bound(text), nuyardi.fill(text)]

        alone = [answers(text) for text in texts]
        self.assertEqual(alone[0][1].number, Number.DONE)
        self.assertTrue(alone[-1][-1].filled)
        with ThreadPoolExecutor(8) as pool:
            for at, found in enumerate(pool.map(answers, texts * 80)):
                self.assertEqual(found, alone[at % len(texts)])


if __name__ == "__main__":
    unittest.main()
