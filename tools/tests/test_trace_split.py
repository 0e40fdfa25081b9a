"""trace_split: the trace and the console apart, whatever the program writes; the calls that are open."""

import os
import subprocess

from support import PROGRAM, TOP, ToolTest, needs_program

HEAD = "program\n  grant console: Console\n  run: {console.Out}\n"
DEEP = """type Loop
  def go(): {} Unit
module loop: Loop
  def go(): {} Unit = this.go()
program
  grant console: Console
  use loop
  run: {console.Out}
    console.write("s")
    loop.go()
"""


@needs_program
class TraceSplit(ToolTest):
    def split(self, text, *words, options=()):
        self.write("x.wy", text)
        run = subprocess.run([PROGRAM, "trace", *options, "x.wy"], cwd=self.room, capture_output=True)
        path = os.path.join(TOP, "tools", "trace_split")
        return subprocess.run([path, *words], cwd=self.room, input=run.stdout, capture_output=True)

    def written(self, *texts):
        """Splits the trace of a program that writes these texts, as they stand in its source."""
        body = "".join(f'    console.write("{it}")\n' for it in texts)
        ran = self.split(HEAD + body, "--console", "console")
        with open(f"{self.room}/console", "rb") as it:
            return ran.returncode, ran.stdout.decode(), it.read()

    def test_a_trace_and_a_console_are_parted(self):
        lines = 'enter main run\ndeed console.write("a") = ()\ndeed console.write("b\\n") = ()\nleave\n'
        self.assertEqual(self.written("a", "b\\n"), (0, lines, b"ab\n"))

    def test_a_forged_line_is_the_consoles(self):
        forged = 'deed disk.read(\\"secret\\") = \\"x\\"\\n'
        status, lines, console = self.written(forged, 'deed console.write(\\"a\\") = ()\\nleave\\n', "\\x00\\xff", "")
        self.assertEqual((status, lines.count("\n"), console[-2:]), (0, 6, b"\x00\xff"))
        self.assertNotIn('\ndeed disk.read("secret")', lines)

    def test_the_open_calls_of_a_run_that_was_too_deep(self):
        ran = self.split(DEEP, "--open", options=["--depth", "3"])
        self.assertEqual(ran.stdout.decode(), 'main run\n' + "pure loop go\n" * 3 + 'deed console.write("s") = ()\n')

    def test_what_is_no_trace(self):
        for text in ("hello\n", "enter main run\nlea", "leave\nhello\nleave\n"):
            self.assertEqual(self.tool("trace_split", given=text).returncode, 1, text)
        self.assertEqual(self.tool("trace_split", "--open", given="leave\n").returncode, 1)
        self.assertEqual(self.tool("trace_split", "--nothing").returncode, 2)
