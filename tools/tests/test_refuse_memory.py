"""refuse_memory: a program out of memory answers so, and a program that does not is found."""

import os
import shutil
import unittest

from support import ToolTest, needs_program

needs_compiler = unittest.skipUnless(shutil.which("cc"), "no C compiler")


class RefuseMemory(ToolTest):
    @needs_program
    @needs_compiler
    def test_the_program_answers_as_promised(self):
        ran = self.tool("refuse_memory", "--every", "60", "check", "run", "usage")
        self.assertEqual((ran.returncode, ran.stdout.count(", 0 wrong answers\n")), (0, 3))

    @needs_compiler
    def test_an_answer_without_its_line_is_found(self):
        quiet = self.write("quiet.c", "#include <stdlib.h>\nint main(void) { return malloc(1) ? 0 : 11; }\n")
        self.assertEqual(os.system(f"cc -O0 -fno-builtin -o {self.room}/quiet {quiet}"), 0)
        ran = self.tool("refuse_memory", "--program", os.path.join(self.room, "quiet"), "usage")
        self.assertEqual(ran.returncode, 1)
        self.assertIn("usage: allocation 1: no last line\n", ran.stdout)

    def test_invalid_arguments(self):
        for words in (["--every", "none"], ["--every"], ["dance"]):
            self.assertEqual(self.tool("refuse_memory", *words).returncode, 2)
