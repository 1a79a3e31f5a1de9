"""Where the library is found, and which one is refused."""

import os
import shutil
import subprocess
import sys
import tempfile
import tomllib
import unittest
from unittest import mock

import beanwhile_h3
from beanwhile_h3 import Version, raw

HERE = os.path.dirname(os.path.abspath(__file__))
PACKAGE = os.path.dirname(os.path.abspath(beanwhile_h3.__file__))
PROGRAM = "from beanwhile_h3 import Config, Endpoint, raw; Endpoint(Config.client()); print(raw.path())"


def loaded() -> str:
    """The file of the library that this program has loaded."""
    raw.library()
    if raw.path() != raw.NAME:
        return os.path.realpath(raw.path())
    with open("/proc/self/maps") as file:
        return next(line.split()[-1] for line in file if line.rstrip().endswith(raw.NAME))


class Library(unittest.TestCase):
    def setUp(self) -> None:
        self.folder = tempfile.mkdtemp()
        self.addCleanup(shutil.rmtree, self.folder)
        self.package = os.path.join(self.folder, "beanwhile_h3")
        shutil.copytree(PACKAGE, self.package, ignore=shutil.ignore_patterns(raw.NAME, "__pycache__"))
        self.library = loaded()

    def run_there(self, **variables: str) -> "subprocess.CompletedProcess[str]":
        variables |= {"PYTHONPATH": self.folder, "PYTHONDONTWRITEBYTECODE": "1"}
        return subprocess.run([sys.executable, "-c", PROGRAM], env=variables, capture_output=True, text=True, timeout=60)

    def test_the_library_of_a_wheel_comes_first(self) -> None:
        there = shutil.copy(self.library, self.package)
        self.assertEqual(self.run_there(BEANWHILE_H3_LIBRARY="/nowhere").stdout.strip(), there)

    def test_the_variable_names_it(self) -> None:
        there = shutil.copy(self.library, os.path.join(self.folder, "other.so"))
        self.assertEqual(self.run_there(BEANWHILE_H3_LIBRARY=there).stdout.strip(), there)

    def test_else_it_is_the_systems(self) -> None:
        os.mkdir(os.path.join(self.folder, "lib"))
        shutil.copy(self.library, os.path.join(self.folder, "lib", raw.NAME))
        self.assertEqual(self.run_there(LD_LIBRARY_PATH=os.path.join(self.folder, "lib")).stdout.strip(), raw.NAME)

    def test_a_library_that_is_missing_or_another_is_named(self) -> None:
        run = self.run_there(BEANWHILE_H3_LIBRARY="/nowhere/libbeanwhile_h3.so.1")
        self.assertNotEqual(run.returncode, 0)
        self.assertRegex(run.stderr, "ImportError: /nowhere/libbeanwhile_h3.so.1: .*BEANWHILE_H3_LIBRARY")
        run = self.run_there(BEANWHILE_H3_LIBRARY="libc.so.6")
        self.assertRegex(run.stderr, "ImportError: .*h3_raw_version.*BEANWHILE_H3_LIBRARY")

    def test_another_version_is_refused(self) -> None:
        for needed in (0x020000, 0x00FFFF, 0x01FFFF):
            with mock.patch.object(raw, "VERSION", needed), self.assertRaisesRegex(ImportError, "has version 0x1"):
                raw.library.__wrapped__()

    def test_the_version_is_that_of_the_package(self) -> None:
        version = Version.of_library()
        with open(os.path.join(HERE, "..", "pyproject.toml"), "rb") as file:
            self.assertEqual(f"{version.major}.{version.minor}.{version.patch}", tomllib.load(file)["project"]["version"])
        self.assertEqual(version.is_proved, raw.library().h3_raw_version() >> 31 == 0)


if __name__ == "__main__":
    unittest.main()
