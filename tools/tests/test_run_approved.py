"""run_approved: what runs is what was judged, or nothing."""

import os

from support import HELLO, ToolTest, needs_program

REPORT = "authority of main: console.Out\n  run: console.Out\n"


@needs_program
class RunApproved(ToolTest):
    def setUp(self):
        super().setUp()
        self.write("hello.wy", HELLO)
        self.write("approved", REPORT)

    def test_what_was_approved_runs(self):
        ran = self.tool("run_approved", "approved", "--steps", "100", "hello.wy")
        self.assertEqual((ran.returncode, ran.stdout, ran.stderr), (0, "hello\n", REPORT))

    def test_what_may_do_more_does_not_run(self):
        self.write("approved", "authority of main: -\n  run: -\n")
        ran = self.tool("run_approved", "approved", "hello.wy")
        self.assertEqual((ran.returncode, ran.stdout), (71, ""))
        self.assertIn("+ main: console.Out   (run)", ran.stderr)

    def test_a_refusal_has_the_name_that_was_given(self):
        self.write("hello.wy", HELLO.replace("{console.Out}", "{}"))
        ran = self.tool("run_approved", "approved", "hello.wy")
        self.assertEqual((ran.returncode, ran.stderr), (4, "hello.wy:3:3: refused: T-Body premise 2 lacks console.Out\n"))

    def test_the_status_of_the_run_is_kept(self):
        self.assertEqual(self.tool("run_approved", "approved", "--steps=1", "hello.wy").returncode, 8)

    def test_an_approved_report_that_is_none(self):
        self.write("approved", "authority of main: console.Out\n")
        self.assertEqual(self.tool("run_approved", "approved", "hello.wy").returncode, 72)
        self.assertEqual(self.tool("run_approved", "approved").returncode, 72)
        self.assertEqual(self.tool("run_approved", "approved", "none.wy").returncode, 72)

    def test_nothing_is_left_behind(self):
        self.tool("run_approved", "approved", "hello.wy")
        self.assertEqual(sorted(os.listdir(self.room)), ["approved", "hello.wy"])
