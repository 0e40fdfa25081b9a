"""policy_from: the program keeps to the policy that is written, and one that may do more does not."""

import glob
import os
import subprocess

from support import PROGRAM, TOP, ToolTest, example_files, needs_program

REPORT = """authority of pure a: -
  init: -
authority of pure b: -
  init: -
authority of lg: disk.Append, disk.Read
  init: -
  log: disk.Append, disk.Read
authority of main: -
  run: -
"""


class PolicyFrom(ToolTest):
    def policy(self, report):
        ran = self.tool("policy_from", "-", given=report)
        return ran.returncode, [it for it in ran.stdout.splitlines() if not it.startswith("//")]

    def test_a_row_for_each_instance(self):
        self.assertEqual(self.policy(REPORT), (0, ["pure *: -", "lg: disk.Append, disk.Read", "main: -"]))

    def test_what_is_not_a_report(self):
        self.assertEqual(self.policy("accepted\n"), (2, []))
        self.assertEqual(self.policy(REPORT[:-10]), (2, []))
        self.assertEqual(self.tool("policy_from").returncode, 2)

    @needs_program
    def test_the_examples_keep_to_theirs(self):
        for folder in glob.glob(os.path.join(TOP, "examples", "*", "")):
            self.write("first.pol", self.tool("policy_from", folder + "report.txt").stdout)
            files = example_files(os.path.basename(os.path.dirname(folder)))
            ran = subprocess.run([PROGRAM, "policy", "first.pol", *files], cwd=self.room, capture_output=True, text=True)
            self.assertEqual((ran.returncode, ran.stdout), (0, "allowed\n"), folder)

    @needs_program
    def test_what_may_do_more_is_denied(self):
        self.write("first.pol", self.tool("policy_from", "-", given="authority of main: -\n  run: -\n").stdout)
        self.write("x.wy", "program\n  grant c: Console\n  run: {c.Out}\n    ()\n")
        ran = subprocess.run([PROGRAM, "policy", "first.pol", "x.wy"], cwd=self.room, capture_output=True, text=True)
        self.assertEqual((ran.returncode, ran.stderr), (16, "first.pol:2: denied: main c.Out\n"))
