"""The package as pip installs it, without downloading anything."""

import os
import subprocess
import sys
import tempfile
import unittest
import zipfile
from pathlib import Path

from . import PYTHON, ROOT, example

USE = "import nuyardi, sys\nprint(nuyardi.__version__, nuyardi.run(sys.stdin.buffer.read(), 1000).steps, nuyardi.__file__)"
PIP = [sys.executable, "-m", "pip", "--disable-pip-version-check", "--no-cache-dir", "--quiet"]


def has_pip() -> bool:
    return subprocess.run([*PIP, "--version"], stdout=subprocess.DEVNULL, stderr=subprocess.DEVNULL).returncode == 0


def done(words, **more):
    ran = subprocess.run(words, stdout=subprocess.PIPE, stderr=subprocess.STDOUT, **more)
    if ran.returncode != 0:
        raise AssertionError(f"{words}: {ran.stdout.decode()}")
    return ran.stdout.decode()


class Wheel(unittest.TestCase):
    def setUp(self):
        room = tempfile.TemporaryDirectory()
        self.addCleanup(room.cleanup)
        self.room = Path(room.name)
        self.version = (ROOT / "VERSION").read_text().strip()

    def built(self, name):
        """The wheel made by the backend, as pip calls it."""
        folder = self.room / name
        folder.mkdir()
        build = "import sys, nuyardi_build; print(nuyardi_build.build_wheel(sys.argv[1]))"
        environment = {**os.environ, "PYTHONPATH": str(PYTHON / "backend")}
        done([sys.executable, "-c", build, str(folder)], env=environment, cwd=str(PYTHON))
        (wheel,) = folder.glob("*.whl")
        return wheel

    def test_what_is_inside(self):
        wheel = self.built("one")
        self.assertEqual(wheel.name, f"nuyardi-{self.version}-py3-none-linux_x86_64.whl")
        with zipfile.ZipFile(wheel) as files:
            names = set(files.namelist())
            library = files.read("nuyardi/libnuyardi.so")
        self.assertEqual(library, Path(os.environ["NUYARDI_LIBRARY"]).read_bytes())
        sources = {f"nuyardi/{path.name}" for path in (PYTHON / "nuyardi").iterdir() if path.suffix == ".py"}
        self.assertLessEqual(sources | {"nuyardi/py.typed"}, names)
        self.assertEqual(wheel.read_bytes(), self.built("two").read_bytes())

    def test_installed(self):
        if not has_pip():
            self.skipTest("there is no pip here")
        own = self.room / "own"
        words = [*PIP, "install", "--no-index", "--no-build-isolation", "--no-deps", "--target", str(own), "."]
        done(words, cwd=str(PYTHON))
        environment = {**os.environ, "PYTHONPATH": str(own)}
        del environment["NUYARDI_LIBRARY"]
        said = done([sys.executable, "-c", USE], input=example("worked.txt"), env=environment, cwd=str(self.room))
        self.assertEqual(said, f"{self.version} 8 {own / 'nuyardi' / '__init__.py'}\n")


class Host(unittest.TestCase):
    """The program of the folder hosts."""

    def said(self, name):
        words = [sys.executable, "-B", str(ROOT / "hosts" / "python" / "license.py"), str(ROOT / "examples" / name)]
        environment = {**os.environ, "PYTHONPATH": str(PYTHON)}
        ran = subprocess.run(words, stdout=subprocess.PIPE, stderr=subprocess.STDOUT, env=environment)
        return ran.returncode, ran.stdout.decode()

    def test_worked_script(self):
        expected = "line 19 after 8 steps: accepted; main's `end` done\ns = Object(number=1)\na = 7\nb = 7\n"
        self.assertEqual(self.said("worked.txt"), (0, expected))

    def test_refused_script(self):
        status, said = self.said("refused-12.script")
        self.assertEqual(status, 1)
        self.assertIn("refused-12.script: line 6: permission not shown (number 12)", said)


if __name__ == "__main__":
    unittest.main()
