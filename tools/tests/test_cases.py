"""cases: runs cases, finds an answer that is another one, and writes answers only where it is told to."""

import os
import shutil
import subprocess

from support import TOP, ToolTest

# Answers `run` as a program does that copies its input and its file; and any other word with status 4.
STAND_IN = """#!/bin/sh
case $1 in
  run) cat - "$2"; echo 'done: "\\' >&2; mkdir -p disk; printf 'a\\001' >disk/made; rm -f old ;;
  *) printf 'refused'; exit 4 ;;
esac
"""
ANSWERS = """# what it shows
@ disk
$ run x.wy <given
! done: "\\\\
> in
> text
+ disk/made
| a\\x01\\
- old
= 0
$ check x.wy
> refused\\
= 4
"""


class Cases(ToolTest):
    def setUp(self):
        super().setUp()
        for name in ("cases", "project.py"):
            os.makedirs(os.path.join(self.room, "tools"), exist_ok=True)
            shutil.copy(os.path.join(TOP, "tools", name), os.path.join(self.room, "tools", name))
        os.chmod(self.write("program", STAND_IN), 0o755)
        for name, text in (("x.wy", "text\n"), ("given", "in\n"), ("old", "")):
            self.write(f"tests/cases/run/both/{name}", text)
        self.write("tests/cases/run/both.expected", ANSWERS)
        self.write("tests/cases/rules/one.wy", "")
        self.write("tests/cases/rules/one.expected", "$ check one.wy\n> refused\\\n= 4\n")

    def cases(self, *words):
        program = os.path.join(self.room, "program")
        ran = subprocess.run([os.path.join(self.room, "tools/cases"), "--program", program, *words], capture_output=True, text=True)
        return ran.returncode, ran.stdout

    def test_all_answers_are_as_expected(self):
        self.assertEqual(self.cases(), (0, "cases: 2 cases, 3 calls, 0 wrong\n"))

    def test_some_cases(self):
        self.assertEqual(self.cases("rules"), (0, "cases: 1 cases, 1 calls, 0 wrong\n"))
        self.assertEqual(self.cases("run/both"), (0, "cases: 1 cases, 2 calls, 0 wrong\n"))
        self.assertEqual(self.cases("run/none")[0], 2)

    def test_another_answer(self):
        self.write("tests/cases/run/both.expected", ANSWERS.replace("> text", "> test").replace("= 4", "= 3"))
        status, said = self.cases()
        self.assertEqual(status, 1)
        for wanted in ("-> test", "+> text", "-= 3", "+= 4", "2 cases, 3 calls, 1 wrong"):
            self.assertIn(wanted, said)

    def test_cases_that_are_not_whole(self):
        self.write("tests/cases/rules/two.wy", "")
        self.write("tests/cases/rules/gone.expected", "$ check gone.wy\n= 4\n")
        self.write("tests/cases/rules/one.expected", "# no call\n")
        status, said = self.cases("rules")
        self.assertEqual(status, 1)
        for wanted in ("two: there are no answers", "gone: neither a file", "one: no line is a call", "3 wrong"):
            self.assertIn(wanted, said)

    def test_a_copy_of_a_file_of_the_repository(self):
        self.write("library/texts.wy", "copied\n")
        self.write("tests/cases/rules/one.expected", "% library/texts.wy\n$ run library/texts.wy\n! done: \"\\\\\n> copied\n+ disk/made\n| a\\x01\\\n= 0\n")
        self.assertEqual(self.cases("rules/one"), (0, "cases: 1 cases, 1 calls, 0 wrong\n"))
        for name in ("library/gone.wy", "../program", "library"):
            self.write("tests/cases/rules/one.expected", f"% {name}\n$ check one.wy\n= 4\n")
            status, said = self.cases("rules/one")
            self.assertEqual((status, f"there is no file {name}" in said), (1, True))

    def test_a_new_case(self):
        self.write("tests/cases/rules/bug.wy", "text\n")
        self.assertEqual(self.cases("--new", "rules/bug", "check", "check --steps 1 bug.wy")[0], 0)
        written = "$ check bug.wy\n> refused\\\n= 4\n$ check --steps 1 bug.wy\n> refused\\\n= 4\n"
        self.assertEqual(self.read("tests/cases/rules/bug.expected"), written)
        self.assertEqual(self.cases("--new", "rules/bug", "check")[0], 2)
        self.assertEqual(self.read("tests/cases/rules/bug.expected"), written)

    def test_answers_are_written_again_for_the_named_case_alone(self):
        for name in ("run/both", "rules/one"):
            self.write(f"tests/cases/{name}.expected", self.read(f"tests/cases/{name}.expected").replace("= 4", "= 3"))
        status, said = self.cases("--again", "run/both")
        self.assertEqual((status, "-= 3" in said, "+= 4" in said), (0, True, True))
        self.assertEqual(self.read("tests/cases/run/both.expected"), ANSWERS)
        self.assertIn("= 3", self.read("tests/cases/rules/one.expected"))
        self.assertEqual(self.cases("--again")[0], 2)
