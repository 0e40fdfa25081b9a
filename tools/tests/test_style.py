"""`check_style` counts long lines, long sentences and banned phrases of the pages, and holds them to their budgets."""

import os
import shutil
import subprocess
import sys

from support import TOP, ToolTest

LONG = "Every " + "word " * 24 + "end"
SHORT = "A sentence. " * 60


class Style(ToolTest):
    def setUp(self):
        super().setUp()
        for name in ("check_style", "project.py"):
            os.makedirs(os.path.join(self.room, "tools"), exist_ok=True)
            shutil.copy(os.path.join(TOP, "tools", name), os.path.join(self.room, "tools", name))

    def style(self, *words):
        ran = subprocess.run([sys.executable, "tools/check_style", *words], cwd=self.room, capture_output=True, text=True)
        return ran.returncode, ran.stdout

    def listed(self, text):
        self.write("docs/A.md", text)
        return [it.split(": ", 1) for it in self.style("--list", os.path.join(self.room, "docs", "A.md"))[1].splitlines()]

    def test_code_tables_and_headings_are_left_out(self):
        wide = "x" * 101
        self.assertEqual(self.listed(f"# {wide}\n\n```\n{wide}\n```\n\n    {wide}\n\n| {wide} |\n\nSee https://a.b/{wide}\n"), [])
        self.assertEqual(self.listed(f"A text.\n\n{wide}\n"), [["docs/A.md:3", "101 columns"]])

    def test_sentences(self):
        ((place, what),) = self.listed(f"One.\nTwo. {LONG[:51]}\n{LONG[51:]}. Three.\n")
        self.assertEqual((place, what[:22]), ("docs/A.md:2", "a sentence of 26 words"))
        self.assertEqual(self.listed("- " + "a word " * 12 + "\n- " + "a word " * 12 + "\n"), [])
        self.assertEqual(self.listed(LONG[:51] + "\n" + LONG[51:].replace("end", "`a b c`.").replace("word ", "", 1)), [])

    def test_phrases(self):
        bad = ("It stands there.", "It ends with 1 but for a\ncrash.", "A line is none.", "Where it fails, look.", "`a` is no text.",
               "It is as said, and else it fails.", "There was want of\nmemory.", "Give a file word.")
        self.assertEqual(len(self.listed("\n\n".join(bad))), len(bad))
        self.assertEqual(self.listed("There is no loop. `but for` stands for it. Where is it? It names where it comes from.\n"), [])
        self.assertEqual(self.listed("See [prefix of\ndeeds].\n"), [])
        self.assertEqual(len(self.listed("See [all deeds](a.md).\n")), 1)
        self.assertEqual([it[0] for it in self.listed("One.\n\n- Two\n  lines, so many.\n")], ["docs/A.md:4"])

    def test_budgets(self):
        self.write("docs/A.md", f"{SHORT}\n\nIt stands there. {LONG}.\n")
        self.assertEqual(self.style()[0], 1)
        self.write("tools/style_budget.txt", "# head\ndocs/A.md 3 9 9\ndocs/B.md 1 1 1\n")
        self.write("docs/B.md", "Well.\n")
        self.assertEqual(self.style()[0], 0)
        self.assertEqual(self.style("--lower")[0], 0)
        self.assertEqual(self.read("tools/style_budget.txt"), "# head\ndocs/A.md 2 1 1\n")
        self.write("docs/A.md", self.read("docs/A.md") + "It stands here.\n")
        status, said = self.style()
        self.assertEqual((status, "docs/A.md: 2 phrases of the list, and 1 are the most" in said), (1, True))
        self.write("tools/style_budget.txt", "docs/C.md 1 1 1\n")
        self.assertIn("docs/C.md is not a page", self.style()[1])

    def test_shares(self):
        self.write("docs/A.md", "\n".join(["A sentence."] * 99 + ["x" * 101]) + "\n")
        self.assertEqual(self.style()[0], 0)
        self.write("docs/A.md", "\n".join(["A sentence."] * 30 + ["x" * 101]) + "\n")
        self.assertEqual(self.style()[0], 1)

    def test_arguments(self):
        self.assertEqual(self.style("--list", "docs/NONE.md")[0], 2)
        self.assertEqual(self.style("docs/A.md")[0], 2)
