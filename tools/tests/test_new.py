"""new: the program runs, keeps to its policy, and has its report; the gate is there."""

import glob
import os
import subprocess

from support import PROGRAM, TOP, ToolTest, needs_program


@needs_program
class New(ToolTest):
    def ask(self, *words):
        files = sorted(os.path.relpath(it, f"{self.room}/first") for it in glob.glob(f"{self.room}/first/src/*.wy"))
        return subprocess.run([PROGRAM, *words, *files], cwd=f"{self.room}/first", capture_output=True, text=True)

    def test_what_is_made_is_right(self):
        self.assertEqual(self.tool("new", "first").returncode, 0)
        self.assertEqual(self.ask("run").stdout, "hello Ada\ngreeted 1\n")
        self.assertEqual(self.ask("authority").stdout, self.read("first/authority.txt"))
        self.assertEqual(self.ask("policy", "team.pol").stdout, "allowed\n")
        tidy = [os.path.join(TOP, "tools", "tidy"), "--check"]
        tighten = [os.path.join(TOP, "tools", "tighten")]
        for tool in (tidy, tighten):
            subprocess.run([*tool, "src/greeter.wy", "src/main.wy"], cwd=f"{self.room}/first", check=True)
        with open(os.path.join(TOP, "docs", "ci", "authority.yml"), encoding="utf-8") as it:
            self.assertEqual(self.read("first/.github/workflows/authority.yml"), it.read())

    def test_owners(self):
        self.assertEqual(self.tool("new", "--owners", "@our/owners @ada", "first").returncode, 0)
        rows = [it.split(maxsplit=1) for it in self.read("first/.github/CODEOWNERS").splitlines()[1:]]
        self.assertEqual(rows, [[it, "@our/owners @ada"] for it in ("/authority.txt", "/*.pol", "/.github/")])
        self.assertEqual(self.tool("new", "--owners", "nobody", "second").returncode, 2)

    def test_a_folder_that_is_there(self):
        self.write("first/x", "")
        self.assertEqual(self.tool("new", "first").returncode, 1)
        self.assertEqual(os.listdir(f"{self.room}/first"), ["x"])
        self.assertEqual(self.tool("new", "none/first").returncode, 1)
        self.assertEqual(self.tool("new").returncode, 2)
