"""authority_diff: what is wider and through what, and what is not a report."""

import json
import subprocess

from support import ToolTest

OLD = "authority of lg: disk.Append\n  init: -\n  log: disk.Append\nauthority of main: disk.Append\n  run: disk.Append\n"


class AuthorityDiff(ToolTest):
    def compare(self, new, old=OLD):
        self.write("old", old)
        self.write("new", new)
        return self.tool("authority_diff", "old", "new")

    def test_the_same_report_is_not_wider(self):
        ran = self.compare(OLD)
        self.assertEqual((ran.returncode, ran.stdout), (0, ""))

    def test_a_new_effect_is_wider(self):
        ran = self.compare(OLD.replace("log: disk.Append", "log: disk.Write, disk.Append"))
        self.assertEqual((ran.returncode, ran.stdout), (1, "+ lg log: disk.Write\n"))

    def test_a_new_instance_is_wider_by_all_it_may_do(self):
        ran = self.compare("authority of pure p: -\n  init: -\nauthority of x: clock.Tick\n  init: -\n  go: clock.Tick\n" + OLD)
        self.assertEqual((ran.returncode, ran.stdout), (1, "+ x: clock.Tick   (go)\n"))

    def test_bodies_that_say_the_same_are_one_line(self):
        bodies = "".join(f"  {it}: clock.Tick, console.Out\n" for it in ("init", "a", "b", "c"))
        main = "authority of main: -\n  run: -\n"
        old = f"authority of x: clock.Tick, console.Out\n{bodies}{main}"
        ran = self.compare(old.replace("of x", "of y"), old)
        told = ["+ y: clock.Tick, console.Out   (4 bodies), all as x had", "- x: clock.Tick, console.Out   (4 bodies)"]
        self.assertEqual((ran.returncode, ran.stdout.splitlines()), (1, told))
        ran = self.compare(old.replace("a: clock.Tick", "a: disk.Read, clock.Tick").replace("x: clock", "x: disk.Read, clock"), old)
        self.assertEqual(ran.stdout, "+ x: disk.Read   (a)\n")

    def test_bodies_that_say_other_things_are_lines_of_their_own(self):
        ran = self.compare("authority of x: a.Read, a.Write\n  init: a.Read\n  go: a.Write\n  do: a.Write\n" + OLD)
        self.assertEqual(ran.stdout, "+ x: a.Read, a.Write\n+ x init: a.Read\n+ x go, do: a.Write\n")

    def test_json(self):
        self.write("old", OLD)
        self.write("new", OLD.replace("log: disk.Append", "log: disk.Write"))
        ran = self.tool("authority_diff", "--json", "old", "new")
        log = {"added": ["disk.Write"], "removed": ["disk.Append"]}
        change = {"instance": "lg", "added": [], "removed": [], "bodies": {"log": log}}
        self.assertEqual((ran.returncode, json.loads(ran.stdout)), (1, {"wider": True, "changes": [change]}))

    def test_less_is_not_wider(self):
        ran = self.compare(OLD.replace("log: disk.Append", "log: -"))
        self.assertEqual((ran.returncode, ran.stdout), (0, "- lg log: disk.Append\n"))

    def test_a_cut_report_is_refused(self):
        for end in (0, 10, 30, 40, 62, 95, len(OLD) - 1):
            self.assertEqual(self.compare(OLD[:end]).returncode, 2, OLD[:end])

    def test_a_line_of_another_kind_is_refused(self):
        self.assertEqual(self.compare(OLD + "accepted\n").returncode, 2)
        self.assertEqual(self.compare(OLD + OLD).returncode, 2)

    def test_standard_input_may_be_compared(self):
        self.write("old", OLD)
        self.assertEqual(self.tool("authority_diff", "old", "-", given=OLD).returncode, 0)

    def test_faulty_words(self):
        self.assertEqual(self.tool("authority_diff", "old").returncode, 2)
        self.assertEqual(self.tool("authority_diff", "none", "none").returncode, 2)
        self.assertEqual(self.tool("authority_diff", "--other", "old", "old").returncode, 2)


MAIN = """type Sink
  effect Put
module other: Other
program
  grant disk: Folder
  grant clock: Clock
  instance lg = log(disk)
  import plug = plug(lg) at {lg.Put}
  import late = plug(lg, clock) at {lg.Put}
  run: {}
    ()
resource module log(disk: Folder): Sink
  instance in = inner(disk)
"""
NAMES = ("lg.in", "lg", "plug", "late", "main")


def report(*wider):
    """Returns a report of the instances of MAIN, of which some may do more than append."""
    sets = {it: "disk.Append, clock.Tick" if it in wider else "disk.Append" for it in NAMES}
    return "".join(f"authority of {it}: {said}\n  {'run' if it == 'main' else 'init'}: {said}\n" for it, said in sets.items())


class Causes(ToolTest):
    """The line that makes an instance, and why it is wider than at a revision."""

    def git(self, *words):
        named = ["-c", "user.name=x", "-c", "user.email=x@example.org"]
        subprocess.run(["git", *named, *words], cwd=self.room, check=True, capture_output=True)

    def compare(self, text, *wider):
        self.write("src/main.wy", MAIN)
        self.git("init", "-q")
        self.git("add", ".")
        self.git("commit", "-q", "-m", "before")
        self.write("src/main.wy", text)
        self.write("old", report())
        self.write("new", report(*wider))
        return self.tool("authority_diff", "--since", "HEAD", "old", "new", "src/main.wy").stdout

    def test_a_wider_bound(self):
        said = self.compare(MAIN.replace("plug(lg) at {lg.Put}", "plug(lg) at {lg.Put, clock.Tick}"), "plug")
        line = "src/main.wy:8:10: import plug = plug(lg) at {lg.Put, clock.Tick}   (the bound was {lg.Put})"
        self.assertEqual(said, f"+ plug: clock.Tick   (init)\n    {line}\n")

    def test_what_an_argument_may_do(self):
        said = self.compare(MAIN, "lg.in", "lg", "plug")
        self.assertIn("src/main.wy:13:12: instance in = inner(disk)\n", said)
        self.assertIn("src/main.wy:8:10: import plug = plug(lg) at {lg.Put}   (through lg)\n", said)

    def test_a_line_that_is_another_one_or_new(self):
        self.assertIn("(it was instance lg = log(disk))", self.compare(MAIN.replace("log(disk)", "log(clock)"), "lg"))
        changed = MAIN.replace("import late = plug(lg, clock)", "import new = plug(lg)").replace("at {lg.Put}\n  run", "at {clock.Tick}\n  run")
        self.write("src/main.wy", changed)
        self.write("new", report().replace("late", "new"))
        ran = self.tool("authority_diff", "--since", "HEAD", "old", "new", "src/main.wy")
        self.assertIn("import new = plug(lg) at {clock.Tick}   (it was import late = plug(lg, clock) at {lg.Put})", ran.stdout)
        self.write("new", report().replace("late: disk.Append", "late: disk.Read").replace("late", "new"))
        ran = self.tool("authority_diff", "--since", "HEAD", "old", "new", "src/main.wy")
        self.assertIn("import new = plug(lg) at {clock.Tick}   (the line is new)", ran.stdout)

    def test_without_a_revision_the_line_alone(self):
        self.compare(MAIN, "plug")
        ran = self.tool("authority_diff", "old", "new", "src/main.wy")
        self.assertEqual(ran.stdout.splitlines()[1], "    src/main.wy:8:10: import plug = plug(lg) at {lg.Put}")
        self.assertEqual(self.tool("authority_diff", "old", "new", "none.wy").returncode, 2)
