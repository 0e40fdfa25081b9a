"""The checks of pages and examples find what is wrong, in a copy of the repository."""

import os
import subprocess
import sys

from support import TOP, ToolTest, copy, example_files

COPIED = ("README.md", "CHANGELOG.md", "LICENSE", "VERSION", "crates.txt", "docs", "editors", "examples", "library", "bench", "dist", "tools", "tests")
SOURCES = ("wy_text/src/fault.rt", "wy_text/src/limit.rt", "wy_engine/src/last_line.rt", "wy_calls/src/examples_table.rt")
# Answers each call as the program does that it is compared with: by the report beside the files, or not at all; each policy allows
# all, but one that allows `main` nothing; and a certificate, which is the first file's text, proves all but where it has a word `lag`.
STAND_IN = """#!/bin/sh
case $1 in
  authority) cat "$(dirname "$2")/report.txt" ;;
  policy) ! grep -q '^main: -' "$2" && echo allowed ;;
  certify) cat "$2" ;;
  recheck) ! grep -qw lag "$2" && echo proved ;;
  *) exit 1 ;;
esac
"""


class Checks(ToolTest):
    def setUp(self):
        super().setUp()
        for name in COPIED:
            copy(os.path.join(TOP, name), os.path.join(self.room, name))
        for name in SOURCES:
            os.makedirs(os.path.dirname(os.path.join(self.room, "crates", name)), exist_ok=True)
            copy(os.path.join(TOP, "crates", name), os.path.join(self.room, "crates", name))
        os.chmod(self.write("program", STAND_IN), 0o755)

    def check(self, name, *words):
        ran = subprocess.run([sys.executable, f"tools/{name}", *words], cwd=self.room, capture_output=True, text=True)
        return ran.returncode, ran.stdout

    def change(self, name, old, new):
        text = self.read(name)
        self.assertIn(old, text)
        self.write(name, text.replace(old, new))

    def test_an_entry_that_is_left_out(self):
        self.change("docs/MESSAGES.md", "### T-Call premise 4\n", "\n")
        self.change("crates/wy_text/src/limit.rt", '"slots"', '"drawers"')
        status, said = self.check("check_messages", "--program", "/bin/true")
        self.assertEqual(status, 1)
        again = "Unexpected: '', and not 'x.wy:6:10: syntax: Unexpected'"
        for wanted in ("no entry: T-Call premise 4", "no entry: limit: drawers", "what no last line names: limit: slots", again):
            self.assertIn(wanted, said)
        self.assertNotIn("no entry: T-Call premise 3", said)

    def test_an_answer_that_is_another_one(self):
        status, said = self.check("check_tour", "--program", "/bin/true")
        self.assertEqual((status, "wyvern run hello.wy" in said), (1, True))

    def test_examples(self):
        self.write("crates/wy_cli/data/b.wy", self.read("examples/hello/hello.wy"))
        self.assertEqual(self.check("check_examples", "--program", f"{self.room}/program")[0], 0)
        self.change("examples/logger/log.wy", "log", "lag")
        self.write("crates/wy_cli/data/b.wy", "program\n")
        self.change("examples/README.md", "| hello |", "| hallo |")
        self.change("examples/plugin/policy.pol", "main: console.Out", "main: -")
        status, said = self.check("check_examples", "--program", f"{self.room}/program")
        self.assertEqual(status, 1)
        wrong = ("plugin: it does not keep to its policy", "logger: its certificate does not prove it")
        for wanted in ("examples_table.rt: log.wy", "crates/wy_cli/data/b.wy", "one row for hello", *wrong):
            self.assertIn(wanted, said)

    def test_an_example_of_the_library_has_its_files(self):
        named = [os.path.relpath(it, TOP) for it in example_files("orders")]
        self.assertEqual((named[:2], len(named)), (["examples/orders/orders.wy", "library/csv.wy"], 8))
        self.assertEqual([os.path.relpath(it, TOP) for it in example_files("hello")], ["examples/hello/hello.wy"])

    def test_pages(self):
        self.write("docs/OTHER.md", "[a](none.md) and `tools/none`\n")
        self.write("crates.txt", self.read("crates.txt") + "wy_other:\n")
        status, said = self.check("check_pages")
        self.assertEqual(status, 1)
        for wanted in ("a link to none.md", "tools/none is not there", "does not name wy_other"):
            self.assertIn(wanted, said)

    def test_files_of_crates(self):
        for name in ("wy_a/src/here.rt", "wy_a/specs/Here.antt", "wy_b/proofs/Examples.antt", "wy_c/specs/Further.antt"):
            self.write(f"crates/{name}", "")
        self.write("docs/ARCHITECTURE.md", "- wy_a: src `here`,\n  `gone`; specs `Here`\n  and `Lost`. Then wy_b's proofs `Examples`, `Off`.\n")
        self.write("docs/PROMISES.md", "- **[A]**: texts (`B`). *In* wy_a: `Here`, over wy_c's `Away`,\n  `Further`; `Old` (`Fine`). Tried in wy_b's\n"
                   "  `Examples`, `NoExamples`.\n")
        self.write("crates/wy_a/README.md", "In wy_b: specs `Here`,\n`Not`; wy_c's\nspecs `Further`, `On`; proofs\n`Examples` of wy_b.\n")
        status, said = self.check("check_pages")
        wanted = ("docs/ARCHITECTURE.md: wy_a/src/gone.rt", "docs/ARCHITECTURE.md: wy_a/specs/Lost.antt", "docs/ARCHITECTURE.md: wy_b/proofs/Off.antt",
                  "docs/PROMISES.md: wy_c/specs/Away.antt", "docs/PROMISES.md: wy_a/specs/Old.antt", "docs/PROMISES.md: wy_a/proofs/NoExamples.antt",
                  "crates/wy_a/README.md: wy_a/specs/Not.antt", "crates/wy_a/README.md: wy_c/specs/On.antt")
        self.assertEqual(status, 1)
        self.assertEqual([it for it in said.splitlines() if ": crates/wy_" in it], [it.replace(": ", ": crates/") + " is not there" for it in wanted])
