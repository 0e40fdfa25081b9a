"""fill: all effects that are missing, each at its set."""

import os

from support import HELLO, ToolTest, needs_program

TEXT = """type Log
  effect Put
  def log(line: String): {Put} Unit
resource module log(disk: Folder, clock: Clock): Log
  effect Put = {disk.Append}
  val now: Int = clock.now()
  val there: Bool = disk.has("a")
  def log(line: String): {Put} Unit
    disk.append("a", line)
    disk.write("b", text_show(clock.now()))
type Plug
  effect Go
  def go(): {Go} Unit
plain module plug(l: Log, c: Console): Plug
  def go(): Unit = l.log("a")
program
  grant disk: Folder
  grant clock: Clock
  grant console: Console
  instance lg = log(disk, clock)
  import p = plug(lg, console) at {lg.Put}
  run: {}
    val h = new
      def go(): {} Unit = console.write("x")
    h.go()
"""
MISSING = [
    "x.wy:4:1: disk.Read is missing in resource module log, which has no line `init: {..}`",
    "x.wy:4:1: clock.Tick is missing in resource module log, which has no line `init: {..}`",
    "x.wy:5:16: disk.Write is missing in effect Put = {disk.Append}",
    "x.wy:5:16: clock.Tick is missing in effect Put = {disk.Append}",
    "x.wy:21:35: console.In is missing in import p = plug(lg, console) at {lg.Put}",
    "x.wy:21:35: console.Out is missing in import p = plug(lg, console) at {lg.Put}",
    "x.wy:24:17: console.Out is missing in def go(): {}",
    "x.wy:22:8: console.Out is missing in run: {}",
]


@needs_program
class Fill(ToolTest):
    def fill(self, text):
        self.write("x.wy", text)
        ran = self.tool("fill", "x.wy")
        self.assertEqual((self.read("x.wy"), os.listdir(self.room)), (text, ["x.wy"]))
        return ran.returncode, ran.stdout.splitlines(), ran.stderr

    def test_what_is_accepted_lacks_nothing(self):
        self.assertEqual(self.fill(HELLO), (0, [], ""))

    def test_all_that_is_missing(self):
        status, told, other = self.fill(TEXT)
        self.assertEqual((status, sorted(told), other), (1, sorted(MISSING), ""))

    def test_another_fault_comes_last(self):
        status, told, other = self.fill(TEXT.replace("h.go()", "h.no()"))
        self.assertEqual((status, other), (4, "x.wy:25:7: refused: T-Call premise 2\n"))
        self.assertIn(MISSING[0], told)
        self.assertEqual(self.fill("program\n"), (3, [], "x.wy:2:1: syntax: Unexpected\n"))

    def test_several_files(self):
        module = "type T\n  def go(): {} Unit\nresource module m(c: Console): T\n  def go(): {} Unit = c.write(\"a\")\n"
        self.write("a.wy", module)
        self.write("b.wy", "program\n  grant c: Console\n  instance x = m(c)\n  run: {}\n    c.write(\"b\")\n")
        ran = self.tool("fill", "a.wy", "b.wy")
        self.assertEqual(ran.stdout, "a.wy:4:13: c.Out is missing in def go(): {}\n")
        self.assertEqual((ran.returncode, ran.stderr), (4, "a.wy:3:17: refused: M-Ascribe premise 1\n"))

    def test_faulty_words(self):
        self.assertEqual(self.tool("fill").returncode, 2)
        self.assertEqual(self.tool("fill", "none.wy").returncode, 2)
