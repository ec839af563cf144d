"""Where the library is looked for, and what is said where there is none to use."""

import os
import shutil
import subprocess
import sys
import tempfile
import unittest
from pathlib import Path

import lindypo
from lindypo import library

from places import MODULE

LOADED = Path(library.library()._name)


def said(folder, **environment):
    """The last line that Python says where it reads a sheet by a module's copy."""
    kept = {name: value for name, value in os.environ.items() if name != "LINDYPO_LIB"}
    read = "import lindypo; print(len(lindypo.Sheet.read('kind name a b c\\nG - 0 - -\\n').lines))"
    words = [sys.executable, "-B", "-c", read]
    done = subprocess.run(
        words,
        env={**kept, "PYTHONPATH": str(folder), **environment},
        stdout=subprocess.PIPE,
        stderr=subprocess.STDOUT,
        universal_newlines=True,
    )
    return done.stdout.splitlines()[-1]


class Found(unittest.TestCase):
    def setUp(self):
        self.folder = Path(tempfile.mkdtemp())
        self.addCleanup(shutil.rmtree, self.folder)
        self.python = self.folder / "lib/python3"
        shutil.copytree(MODULE, self.python / "lindypo")

    def put(self, place):
        shutil.copy(LOADED.resolve(), place)

    def test_two_folders_above(self):
        self.put(self.folder / "lib" / library.SONAME)
        self.assertEqual(said(self.python), "1")

    def test_beside_the_module(self):
        self.put(self.python / "lindypo" / library.SONAME)
        self.assertEqual(said(self.python), "1")

    def test_by_its_name(self):
        self.put(self.folder / "other.so")
        self.assertEqual(said(self.python, LINDYPO_LIB=str(self.folder / "other.so")), "1")

    def test_where_the_system_looks(self):
        self.put(self.folder / library.SONAME)
        self.assertEqual(said(self.python, LD_LIBRARY_PATH=str(self.folder)), "1")

    def test_nowhere(self):
        words = said(self.python)
        self.assertIn("LibraryError: liblindypo.so.0 was not found: LINDYPO_LIB is not set", words)
        self.assertIn("./install PREFIX", words)

    def test_not_where_it_is_said_to_be(self):
        self.put(self.folder / "lib" / library.SONAME)
        words = said(self.python, LINDYPO_LIB=str(self.folder / "no.so"))
        self.assertIn("no.so, which cannot be loaded", words)

    def test_no_library(self):
        (self.folder / "lib" / library.SONAME).write_text("no library")
        self.assertIn("cannot be loaded", said(self.python))

    def test_another_library(self):
        words = said(self.python, LINDYPO_LIB="libc.so.6")
        self.assertIn("LibraryError: libc.so.6 has no lindypo_read", words)

    def test_another_version(self):
        constants = self.python / "lindypo/constants.py"
        series = ".".join(lindypo.__version__.split(".")[:2])
        constants.write_text(constants.read_text().replace(f'"{series}.', '"0.999.'))
        words = said(self.python, LINDYPO_LIB=str(LOADED))
        self.assertIn(f"is version {lindypo.__version__}, and this module is for 0.999", words)

    def test_the_builder_needs_none(self):
        words = [sys.executable, "-B", "-c", "from lindypo.build import Group; print(Group().text())"]
        kept = {name: value for name, value in os.environ.items() if name != "LINDYPO_LIB"}
        printed = subprocess.check_output(words, env={**kept, "PYTHONPATH": str(self.python)})
        self.assertEqual(printed.decode(), "b'kind name a b c\\nG - 0 - -\\n'\n")
