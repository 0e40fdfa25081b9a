"""What the tests of the tools share: running a tool, and a folder with files."""

import os
import subprocess
import sys
import tempfile
import unittest

sys.dont_write_bytecode = True

TOP = os.path.dirname(os.path.dirname(os.path.dirname(os.path.abspath(__file__))))
sys.path.insert(0, os.path.join(TOP, "tools"))
from project import copy, example_files  # noqa: E402, F401

PROGRAM = os.environ.get("WYVERN", "")
HELLO = 'program\n  grant console: Console\n  run: {console.Out}\n    console.write("hello\\n")\n'


class ToolTest(unittest.TestCase):
    """A test in a folder of its own. `tool` runs a tool there, and `write` makes a file."""

    def setUp(self):
        room = tempfile.TemporaryDirectory(prefix="wyvern-test-")
        self.addCleanup(room.cleanup)
        self.room = room.name

    def write(self, name, text):
        path = os.path.join(self.room, name)
        os.makedirs(os.path.dirname(path), exist_ok=True)
        with open(path, "w", encoding="utf-8", newline="") as it:
            it.write(text)
        return path

    def read(self, name):
        with open(os.path.join(self.room, name), encoding="utf-8", newline="") as it:
            return it.read()

    def tool(self, name, *words, given=""):
        path = os.path.join(TOP, "tools", name)
        return subprocess.run([path, *words], cwd=self.room, input=given, capture_output=True, text=True)


needs_program = unittest.skipUnless(PROGRAM, "no program: set WYVERN")
