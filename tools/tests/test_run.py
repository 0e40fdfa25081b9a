"""run: what the program writes, its report in a file, and what went wrong."""

import os
import subprocess

from support import HELLO, TOP, ToolTest, needs_program

REPORT = "authority of main: console.Out\n  run: console.Out\n"


@needs_program
class Run(ToolTest):
    def test_only_what_the_program_writes(self):
        self.write("x.wy", HELLO)
        ran = self.tool("run", "--report", "kept/report.txt", "x.wy")
        self.assertEqual((ran.returncode, ran.stdout, ran.stderr), (0, "hello\n", ""))
        self.assertEqual(self.read("kept/report.txt"), REPORT)

    def test_the_report_goes_to_the_cache_folder(self):
        self.write("x.wy", HELLO)
        given = {**os.environ, "XDG_CACHE_HOME": f"{self.room}/cache"}
        subprocess.run([os.path.join(TOP, "tools", "run"), "x.wy"], cwd=self.room, env=given, check=True, capture_output=True)
        self.assertEqual(self.read("cache/wyvern/last_report.txt"), REPORT)

    def test_what_went_wrong_is_explained(self):
        self.write("x.wy", HELLO)
        ran = self.tool("run", "--report", "r", "--steps", "1", "x.wy")
        self.assertEqual((ran.returncode, ran.stderr.splitlines()[0]), (8, "spent: 1"))
        self.assertIn("--steps N", ran.stderr)
        self.assertEqual(self.read("r"), REPORT)
        self.write("x.wy", HELLO.replace("{console.Out}", "{}"))
        ran = self.tool("run", "--report", "r", "x.wy")
        self.assertEqual((ran.returncode, ran.stderr.splitlines()[0]), (4, "x.wy:3:3: refused: T-Body premise 2 lacks console.Out"))
        self.assertIn("`run` declares {}, which does not allow console.Out", ran.stderr)
        self.assertEqual(self.read("r"), "")

    def test_standard_input_is_the_programs(self):
        self.write("x.wy", "program\n  grant c: Console\n  run: {c.In, c.Out}\n    c.write(c.read())\n")
        self.assertEqual(self.tool("run", "--report", "r", "x.wy", given="one\ntwo\n").stdout, "one\n")

    def test_faulty_words(self):
        self.assertEqual(self.tool("run").returncode, 2)
        self.write("folder/x", "")
        self.assertEqual(self.tool("run", "--report", "folder", "x.wy").returncode, 2)
