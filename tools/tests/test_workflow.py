"""docs/ci: the steps of the workflow, one after the other, over a repository with a base branch, and what the problem matcher marks."""

import json
import os
import re
import subprocess
import textwrap

from support import HELLO, PROGRAM, TOP, ToolTest, needs_program

STEP = re.compile(r"      - name: (.+)\n(?:        #.*\n)*        run: (?:\|\n((?: {10}.*\n|\n)+)|(.+)\n)")
READS = HELLO.replace("{console.Out}", "{console.In, console.Out}")
REPORT = "authority of main: console.Out\n  run: console.Out\n"
WIDER = REPORT.replace("console.Out", "console.In, console.Out")
NOTHING = "program\n  run: {}\n    ()\n"
OF_NOTHING = "authority of main: -\n  run: -\n"
OWNERS = "/authority.txt @team/owners\n"


def text_of(*parts):
    with open(os.path.join(TOP, "docs", "ci", *parts), encoding="utf-8") as it:
        return it.read()


@needs_program
class Workflow(ToolTest):
    """Each run: the base branch has HELLO and its report, and the pull request what is given."""

    def setUp(self):
        super().setUp()
        steps = STEP.findall(text_of("authority.yml"))
        self.steps = [(name, textwrap.dedent(block) or line) for name, block, line in steps]
        self.assertEqual(len(self.steps), len(re.findall(r"^ {8}run: ", text_of("authority.yml"), re.M)))

    def git(self, *words):
        named = ["-c", "user.name=x", "-c", "user.email=x@example.org"]
        subprocess.run(["git", "-C", f"{self.room}/repository", *named, *words], check=True, capture_output=True)

    def base(self, owners=OWNERS, report=REPORT):
        """Makes the base branch, as `actions/checkout` leaves it."""
        self.summary = self.write("summary", "")
        subprocess.run(["rm", "-rf", f"{self.room}/repository", f"{self.room}/temporary"], check=True)
        os.makedirs(f"{self.room}/temporary")
        os.makedirs(f"{self.room}/repository/.wyvern/docs")
        self.git("init", "-q")
        os.symlink(os.path.join(TOP, "tools"), f"{self.room}/repository/.wyvern/tools")
        os.symlink(PROGRAM, f"{self.room}/repository/.wyvern/wyvern")
        self.write("repository/.git/info/exclude", ".wyvern\n")
        self.write("repository/src/hello.wy", HELLO)
        if report:
            self.write("repository/authority.txt", report)
        self.write("repository/.github/CODEOWNERS", owners)
        self.git("add", ".")
        self.git("commit", "-q", "-m", "base")
        self.git("update-ref", "refs/remotes/origin/main", "HEAD")

    def first_failing(self, text, report):
        """Returns the first step that fails for a pull request, or None, and what all steps before it wrote."""
        self.write("repository/src/hello.wy", text)
        self.write("repository/authority.txt", report)
        self.git("commit", "-q", "-a", "--allow-empty", "-m", "change")
        given = {"GITHUB_BASE_REF": "main", "GITHUB_STEP_SUMMARY": self.summary, "RUNNER_TEMP": f"{self.room}/temporary"}
        said = ""
        for name, block in self.steps:
            room = f"{self.room}/repository"
            ran = subprocess.run(["bash", "-e", "-c", block], cwd=room, env={**os.environ, **given}, capture_output=True, text=True)
            said += ran.stdout + ran.stderr
            if ran.returncode:
                return name, said
        return None, said

    def test_no_change(self):
        self.base()
        self.assertEqual(self.first_failing(HELLO, REPORT)[0], None)
        self.assertIn("no difference", self.read("summary"))

    def test_a_widening_without_a_new_report(self):
        self.base()
        step, said = self.first_failing(READS, REPORT)
        self.assertEqual(step, "authority.txt is the report of this program")
        self.assertIn("::error file=authority.txt::", said)
        self.assertIn("+ main: console.In   (run)\n", self.read("summary"))

    def test_a_widening_with_a_new_report_needs_an_owner(self):
        self.base()
        step, said = self.first_failing(READS, WIDER)
        self.assertEqual(step, None)
        self.assertIn("::warning file=authority.txt::", said)
        self.assertIn("+ main: console.In   (run)\n", self.read("summary"))
        for owners in ("", "# /authority.txt @team/owners\n", "/authority.txt # nobody\n", "/authority.txts @x\n"):
            self.base(owners)
            self.write("repository/.github/CODEOWNERS", OWNERS)
            self.assertEqual(self.first_failing(READS, WIDER)[0], "somebody has to approve what may do more", owners)

    def test_a_narrowing(self):
        self.base()
        self.assertEqual(self.first_failing(NOTHING, REPORT)[0], "authority.txt is the report of this program")
        self.base()
        step, said = self.first_failing(NOTHING, OF_NOTHING)
        self.assertEqual((step, "::warning" in said), (None, False))
        self.assertIn("- main: console.Out   (run)\n", self.read("summary"))

    def test_a_base_branch_without_a_report(self):
        self.base(report="")
        self.write("repository/authority.txt", REPORT)
        self.git("add", ".")
        self.assertEqual(self.first_failing(HELLO, REPORT)[0], None)
        self.assertIn("+ main: console.Out   (run)\n", self.read("summary"))
        self.base("", report="")
        self.write("repository/authority.txt", REPORT)
        self.git("add", ".")
        self.assertEqual(self.first_failing(HELLO, REPORT)[0], "somebody has to approve what may do more")

    def test_a_link_that_would_catch_a_file(self):
        self.base()
        os.symlink("authority.txt", f"{self.room}/repository/new.txt")
        self.git("add", ".")
        self.assertEqual(self.first_failing(READS, REPORT)[0], "authority.txt is the report of this program")

    def test_other_faults(self):
        self.base()
        step, said = self.first_failing(HELLO.replace("{console.Out}", "{}"), REPORT)
        self.assertEqual(step, "the program is accepted")
        self.assertIn("src/hello.wy:3:3: refused: T-Body premise 2 lacks console.Out\n", said)
        self.assertEqual(self.first_failing(HELLO + "// \u202e\n", REPORT)[0], "letters that mislead a reader")
        self.write("repository/team.pol", "main: -\n")
        self.assertEqual(self.first_failing(HELLO, REPORT)[0], "each part keeps to the policy")
        self.write("repository/team.pol", "main: console.Out\n")
        self.assertEqual(self.first_failing(HELLO, REPORT)[0], None)


class Matcher(ToolTest):
    def marked(self, line):
        """Returns what each pattern takes from a line, by its owner."""
        taken = {}
        for matcher in json.loads(text_of("matcher.json"))["problemMatcher"]:
            pattern = matcher["pattern"][0]
            found = re.search(pattern["regexp"], line)
            if found:
                taken[matcher["owner"]] = [found[pattern[it]] for it in ("file", "line", "column", "message") if it in pattern]
        return taken

    def test_each_line_has_one_pattern(self):
        lines = {
            "src/a.wy:3:10: refused: I-Import premise 1 lacks x.In": ["src/a.wy", "3", "10", "refused: I-Import premise 1 lacks x.In"],
            "a.wy:1:2: syntax: Unexpected": ["a.wy", "1", "2", "syntax: Unexpected"],
            "a.wy:1:2: trap: Overflow": ["a.wy", "1", "2", "trap: Overflow"],
            "a.wy:7:3: U+202E, which is not seen": ["a.wy", "7", "3", "U+202E, which is not seen"],
            "team.pol:2: denied: stats etc.Read": ["team.pol", "2", "denied: stats etc.Read"],
            "team.pol:11: bad policy": ["team.pol", "11", "bad policy"],
            "team.pol:0: denied: metrics console.Out": ["team.pol", "denied: metrics console.Out"],
            "a.wy: unread": ["a.wy", "unread"],
            "    a.wy:9:10: import p = m(x) at {x.Put}": ["a.wy", "9", "10", "import p = m(x) at {x.Put}"],
        }
        for line, wanted in lines.items():
            self.assertEqual(list(self.marked(line).values()), [wanted], line)
        for line in ("   27 |   import a = b(c)", "accepted", "limit: types 1024", "  x.wy:2:6: type Sink"):
            self.assertEqual(self.marked(line), {}, line)
