"""explain: the line that is meant, what the files say of it, and the paragraph of docs/MESSAGES.md."""

import os
import subprocess

from support import HELLO, PROGRAM, TOP, ToolTest, needs_program

END = "program\n  run: {}\n    ()\n"
METHOD = "type T\n  def go(n: Int): {} Int\n"
FIELD = "type T\n  def go(n: Int): {} Unit\nresource module m(): T\n  var x: Int = 0\n  def go(n: Int): {} Unit\n    "
# A text, the word that is unexpected, and words of the likely cause.
UNEXPECTED = [
    (HELLO + "    val b = if true then 1 else 2\n    ()\n", "`if`", "val x: Int = if"),
    (HELLO + "    if true\n      ()\n    else if true\n      ()\n    else\n      ()\n", "`if`", "no `else if`"),
    (FIELD + "if n == 0 then x = n else ()\n" + END, "`=`", "an assignment cannot follow"),
    (FIELD + "x += n\n" + END, "`=`", "there is no `+=`"),
    ("resource module m(): T\n  effect G = {}\n  use x\n" + END, "`use`", "comes too late"),
    ("program\n  effect G = {}\n  run: {}\n    ()\n", "`effect`", "has no `effect` line"),
    ("plain module m(): T\n  use x\n" + END, "`use`", "a plain module has fields and methods alone"),
    ("type T\n  def go(at: Int): {} Int\n" + END, "`at`", "reserved word"),
    ("type T\n  def go(n: Int): Int\n" + END, "`Int`", "needs its set"),
    ("plain module m(): T\n  def go(): {} Int = 1\n" + END, "`{`", "has no set"),
    (HELLO + "    if true\n      ()\n    ()\n", "`(`", "needs an `else`"),
    (HELLO + "    val x = 1\n", "the end of the file", "end it with a value"),
    ("resource module m(n: Int): T\n" + END, "`Int`", "a module takes objects"),
    (HELLO + "    val x = 1 < 2 < 3\n    ()\n", "`<`", "comparisons do not follow"),
    (HELLO + "    while true\n      ()\n", "`true`", "there are no loops"),
    ("program\n  run:\n    ()\n", "the end of the line", "the set of effects is missing"),
    (HELLO + "    val x = true and false\n    ()\n", "`and`", "`&&`"),
    (METHOD + "module m: T\n  def go(n: Int): {} Int = go(n)\n" + END, "`(`", "`this.go(..)`"),
    (HELLO + "    console.write(if true then \"a\" else \"b\" ++ 1 if)\n", "`if`", "in parentheses"),
    (HELLO + "    val x = y => y\n    ()\n", "`=`", "no lambdas"),
    ("program\n  import p = m()\n  run: {}\n    ()\n", "the end of the line", "has a bound"),
]
POLICIES = {
    "*.pure *: -": "only at its end",
    "main:-": "one space follows the colon",
    "main: ": "an empty set is `-`",
    "main: console.Out,console.In": "one space follows each comma",
    "main: console": "GRANT.MEMBER or GRANT.*",
    "main: {console.Out}": "no braces",
    " // main": "first byte",
    "main": "no colon",
    "main: - // none": "a line of its own",
}
OBJECTS = """type Sink
  effect Put
  def put(line: String): {Put} Unit
resource module screen(console: Console): Sink
  effect Put = {console.Out}
  def put(line: String): {Put} Unit = console.write(line)
plain module plug(out: Sink): Plug
  def go(): Unit = out.put("a")
type Plug
  effect Go
  def go(): {Go} Unit
program
  grant console: Console
  instance out = screen(console)
  import plug = plug(out) at {out.Put}
  run: {out.Put}
    plug.go()
"""


def told_of(heading):
    """Returns the first line that docs/MESSAGES.md has under a heading."""
    with open(os.path.join(TOP, "docs", "MESSAGES.md"), encoding="utf-8") as it:
        return it.read().split(f"### {heading}\n")[1].split("\n")[1]


@needs_program
class Explain(ToolTest):
    def explain(self, text, command="check"):
        self.write("x.wy", text)
        return self.tool("explain", command, "x.wy")

    def test_a_refusal_is_shown_with_a_caret(self):
        ran = self.explain(HELLO.replace("{console.Out}", "{}"))
        lines = ran.stderr.splitlines()
        self.assertEqual(ran.returncode, 4)
        self.assertEqual(lines[0], "x.wy:3:3: refused: T-Body premise 2 lacks console.Out")
        self.assertEqual(lines[1:4], ["    2 |   grant console: Console", "    3 |   run: {}", "      |   ^"])
        self.assertEqual(lines[4:6], ["`run` declares {}, which does not allow console.Out", ""])
        self.assertEqual(lines[6], told_of("T-Body premise 2"))

    def test_a_column_counts_bytes(self):
        ran = self.explain('program\n  run: {}\n    val t = "\u00e9\\q"\n    ()\n')
        self.assertEqual((ran.returncode, ran.stderr.splitlines()[3]), (3, "      |                ^"))

    def test_what_is_accepted_is_passed_on(self):
        ran = self.explain(HELLO)
        self.assertEqual((ran.returncode, ran.stdout, ran.stderr), (0, "accepted\n", ""))

    def test_limits_and_other_last_lines_have_their_paragraphs(self):
        self.assertIn(told_of("limit: files"), self.tool("explain", "check", *["x.wy"] * 65).stderr)
        self.assertIn(told_of("unread"), self.tool("explain", "check", "none.wy").stderr)
        self.assertIn(told_of("usage"), self.tool("explain", "nothing").stderr)
        self.write("x.wy", HELLO)
        self.assertIn(told_of("bad certificate"), self.tool("explain", "recheck", "x.wy", "x.wy").stderr)

    def test_without_words_it_lists_the_commands(self):
        ran = self.tool("explain")
        self.assertEqual(ran.returncode, 1)
        for command in ("check FILE...", "policy POLICY FILE...", "sample NUMBER"):
            self.assertIn(f"  {command}: ", ran.stderr)
        self.assertIn("the nearest is `check`", self.tool("explain", "chekc", "x.wy").stderr)

    def test_the_unexpected_word_and_its_likely_cause(self):
        for text, word, cause in UNEXPECTED:
            said = self.explain(text).stderr
            self.assertIn("syntax: Unexpected", said)
            self.assertIn(f"\n{word} cannot follow what comes before it\nlikely: ", said)
            self.assertIn(cause, said.split("likely: ")[1].split("\n")[0])

    def test_all_declarations_of_a_name(self):
        self.write("y.wy", "type Sink\n  def put(): {} Unit\n")
        self.write("x.wy", OBJECTS)
        said = self.tool("explain", "check", "y.wy", "x.wy").stderr
        self.assertIn("`Sink` is declared here:\n  y.wy:1:6: type Sink\n  x.wy:1:6: type Sink\n", said)
        said = self.explain(OBJECTS.replace("import plug", "import out")).stderr
        self.assertIn("  x.wy:14:12: instance out = screen(console)\n  x.wy:15:10: import out = plug(out) at {out.Put}\n", said)
        self.assertIn("Clock is a primitive type", self.explain("type Clock\ntype Clock\n" + OBJECTS).stderr)

    def test_the_nearest_name_of_a_misspelt_one(self):
        for right, wrong, near in (
            ("console.write(line)", "consol.write(line)", "console"),
            ("console.write(line)", "console.write(lime)", "line"),
            ("screen(console)\n  import", "scren(console)\n  import", "screen"),
            ("): Plug\n", "): Plugg\n", "Plug"),
            ("effect Put = {console.Out}", "effect Put = {console.Ouf}", "Out"),
            ("plug.go()", "plug.goo()", "go"),
        ):
            self.assertIn(f"\nthe nearest name is `{near}`\n", self.explain(OBJECTS.replace(right, wrong)).stderr, wrong)
        self.assertNotIn("the nearest name", self.explain(OBJECTS.replace("console.write(line)", "console.write(xyz)")).stderr)

    def test_arguments_have_numbers(self):
        said = self.explain(OBJECTS.replace("plug(out) at", "plug(console) at")).stderr
        self.assertIn("plain module plug takes 1 argument, and the line gives 1:\n  1. console (Console, a grant) for out: Sink\n", said)
        self.assertIn("\nargument 1 (console) may do console.In, which the bound {out.Put} does not allow\n", said)
        said = self.explain(OBJECTS.replace("screen(console)\n  import", "screen(console, console)\n  import")).stderr
        self.assertIn("  2. console (Console, a grant) for no parameter\n", said)
        said = self.explain(OBJECTS.replace("grant console: Console", "grant console: Clock")).stderr
        self.assertIn("  1. console (Clock, a grant) for console: Console: it has no effect member In, Out\n", said)
        said = self.explain(OBJECTS.replace("console.write(line)", "console.write(line, 1)")).stderr
        self.assertIn("the call of `write` has 2 arguments:\n  1. line\n  2. 1\nmethods of this name:\n", said)
        self.assertIn("  def write(t: String): {Out} Unit, of Console\n", said)

    def test_an_argument_of_another_type(self):
        other = "type Sinks\n  effect Put\n  def put(line: Int): {Put} Unit\n  def more(): {Put} Unit\n"
        module = "resource module twice(out: Sinks): Plug\n  effect Go = {out.Put}\n  def go(): {Go} Unit = out.put(1)\n"
        text = other + module + OBJECTS.replace("  import plug", "  instance two = twice(out)\n  import plug")
        said = self.explain(text).stderr
        self.assertIn("M-Inst premise 4", said)
        told = ["Sinks has def put(line: Int): {Put} Unit, and Sink has def put(line: String): {Put} Unit"]
        told.append("Sinks has def more(): {Put} Unit, and Sink has no such method")
        self.assertIn("  1. out (Sink, an instance of screen) for out: Sinks\n     " + "\n     ".join(told) + "\n", said)

    def test_the_operand_of_another_type(self):
        for text, told in (
            ('text_part("a", "b", 1)', "operand 2 of `text_part` is \"b\""),
            ('1 + "a"', "operand 2 of `+` is the one after it"),
            ('"a" + 1', "operand 1 of `+` is the one before it"),
            ('1 == 2 && !3', "operand 1 of `!` is the one after it"),
        ):
            self.assertIn(f"\n{told}\n", self.explain(HELLO + f"    val x = {text}\n    ()\n").stderr, text)

    def test_methods_that_differ_from_the_type(self):
        said = self.explain(OBJECTS.replace("  def go(): {Go} Unit\n", "  def go(): {Go} Int\n  def no(): {Go} Int\n")).stderr
        told = ["def go(): {Go} Int: the module has def go(): Unit", "def no(): {Go} Int: the module has no such method"]
        self.assertEqual([it.strip() for it in said.splitlines()[5:7]], told)

    def test_policies(self):
        self.write("x.wy", HELLO)
        for row, reason in POLICIES.items():
            self.write("x.pol", row + "\n")
            ran = self.tool("explain", "policy", "x.pol", "x.wy")
            self.assertEqual(ran.returncode, 17, row)
            self.assertIn(reason, ran.stderr.splitlines()[2], row)
        self.write("x.pol", "other: -\n")
        self.assertIn("no row of x.pol is for main", self.tool("explain", "policy", "x.pol", "x.wy").stderr)
        self.write("x.pol", "// a\nmai*: console.In\n")
        said = self.tool("explain", "policy", "x.pol", "x.wy").stderr
        self.assertIn("    2 | mai*: console.In\nmain goes by this row, which does not allow console.Out\n", said)

    def test_a_certificate_that_does_not_prove(self):
        with open(self.write("x.cert", ""), "wb") as it:
            subprocess.run([PROGRAM, "certify", self.write("x.wy", OBJECTS)], stdout=it, check=True)
        self.write("x.wy", OBJECTS.replace("run: {out.Put}", "run: {}"))
        said = self.tool("explain", "recheck", "x.cert", "x.wy").stderr
        self.assertIn("\nscope 2 is the program, at x.wy:12:1\nby the certificate node 2 is T-Body at x.wy:16:3\n", said)
        self.write("x.wy", OBJECTS.replace("at {out.Put}", "at {}"))
        said = self.tool("explain", "recheck", "x.cert", "x.wy").stderr
        self.assertIn("is I-Import of the line `import plug = plug(out) at {}`\n", said)
