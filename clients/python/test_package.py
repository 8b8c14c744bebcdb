"""Tests of the package as its users install it."""
from __future__ import annotations

import ast
import importlib.util
import os
import subprocess
import sys
import tempfile
import unittest
from pathlib import Path

import pibroulez
from stores import PROGRAM

HERE = Path(__file__).resolve().parent
# Makes a store by the installed package, whose program is the one of the search path.
USER = """
import sys
sys.path.insert(0, sys.argv[1])
from pibroulez import Store
with Store("/r", {"a": (100, 100)}) as store:
    print(store.prepare("a", "k", "").id)
"""


class Package(unittest.TestCase):
    @unittest.skipUnless(importlib.util.find_spec("pip"), "there is no pip")
    def test_installed(self) -> None:
        """`pip install ./clients/python` fetches nothing, and leaves nothing beside the sources."""
        before = sorted(HERE.rglob("*"))
        with tempfile.TemporaryDirectory() as folder:
            environment = {**os.environ, "PYTHONDONTWRITEBYTECODE": "1", "PATH": folder}
            pip = [sys.executable, "-m", "pip", "--isolated", "install", "--no-index", "--target", folder, str(HERE)]
            ran = subprocess.run(pip, env=environment, stdout=subprocess.PIPE, stderr=subprocess.STDOUT, text=True)
            self.assertEqual(ran.returncode, 0, ran.stdout)
            self.assertTrue(Path(folder, "pibroulez/py.typed").is_file())
            Path(folder, "snap_replay").symlink_to(Path(PROGRAM).resolve())
            user = [sys.executable, "-I", "-c", USER, folder]
            ran = subprocess.run(user, cwd=folder, env=environment, stdout=subprocess.PIPE, text=True, check=True)
            self.assertEqual(ran.stdout, "1\n")
        self.assertEqual(sorted(HERE.rglob("*")), before)

    def test_version(self) -> None:
        """It is that of the program."""
        said = subprocess.run([PROGRAM, "--version"], stdout=subprocess.PIPE, text=True, check=True)
        self.assertEqual(said.stdout.split()[-1], pibroulez.__version__)

    def test_syntax(self) -> None:
        """It is that of Python 3.9."""
        for path in HERE.rglob("*.py"):
            with self.subTest(path.name):
                ast.parse(path.read_text(encoding="utf-8"), feature_version=(3, 9))


if __name__ == "__main__":
    unittest.main()
