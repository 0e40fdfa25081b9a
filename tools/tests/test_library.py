"""The page of library/: its program runs, and its table names each module and each method."""

import glob
import os
import re
import subprocess

from support import PROGRAM, TOP, ToolTest, needs_program

FILES = sorted(glob.glob(os.path.join(TOP, "library", "*.wy")))
# What the other modules of the library call, and its users do not.
INNER = {"height", "left", "right", "keys", "items", "full"}


def text_of(path):
    with open(path, encoding="utf-8") as it:
        return it.read()


class Library(ToolTest):
    def page(self):
        return text_of(os.path.join(TOP, "library", "README.md"))

    @needs_program
    def test_its_program_runs(self):
        path = self.write("main.wy", re.search(r"^```\n(program\n.*?)^```$", self.page(), re.M | re.S)[1])
        ran = subprocess.run([PROGRAM, "run", path, *FILES], capture_output=True, text=True)
        self.assertEqual((ran.returncode, ran.stdout), (0, "apple fig pear\n"))

    def test_its_table_names_each_module_and_each_method(self):
        rows = dict(re.findall(r"^\| `(\w+\.wy)` (\|.*)", self.page(), re.M))
        self.assertEqual(sorted(rows), [os.path.basename(it) for it in FILES])
        for file in FILES:
            types = re.split(r"^(?:resource )?module ", text_of(file), maxsplit=1, flags=re.M)[0]
            named = set(re.findall(r"`(\w+)`", rows[os.path.basename(file)]))
            for name in set(re.findall(r"^  def (\w+)", types, re.M)) - INNER:
                self.assertIn(name, named, file)
            for name in re.findall(r"^(?:resource )?module (\w+)", text_of(file), re.M):
                self.assertIn(name, named, file)

    def test_each_file_needs_what_its_head_and_its_row_say(self):
        rows = dict(re.findall(r"^\| `(\w+)\.wy` \| ([^|]*?) ?\|", self.page(), re.M))
        for file in FILES:
            name, head = os.path.basename(file)[:-3], text_of(file).partition("\ntype ")[0]
            needed = re.search(r"Needs ((?:[^.]|[.]wy)*)[.]", head)[1]
            self.assertEqual(re.findall(r"(\w+)[.]wy", needed), [it for it in rows[name].split(", ") if it], file)

    @needs_program
    def test_each_file_is_accepted_with_those_that_it_needs(self):
        rows = dict(re.findall(r"^\| `(\w+)\.wy` \| ([^|]*?) ?\|", self.page(), re.M))
        main = self.write("main.wy", "program\n  run: {}\n    ()\n")
        for name, needs in rows.items():
            files = [os.path.join(TOP, "library", f"{it}.wy") for it in [name, *needs.split(", ")] if it]
            ran = subprocess.run([PROGRAM, "check", *files, main], capture_output=True, text=True)
            self.assertEqual((ran.stdout, ran.stderr), ("accepted\n", ""))
