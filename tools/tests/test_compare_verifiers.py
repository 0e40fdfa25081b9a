"""compare_verifiers: two verifiers that agree, and one that says something else of some images."""

import os
import sys

from support import TOP, ToolTest

PROGRAM = os.path.join(TOP, "crates", "wy_image_tests", "out", "wy_image_tests")
# A program that says of the images what images.py says, except for what the last line replaces.
SAYS = """#!{python}
import importlib.machinery, importlib.util, sys
sys.dont_write_bytecode = True
sys.path.insert(0, {tools!r})
loader = importlib.machinery.SourceFileLoader("compare", {tools!r} + "/compare_verifiers")
compare = importlib.util.module_from_spec(importlib.util.spec_from_loader("compare", loader))
loader.exec_module(compare)
lines = {{it.split(b":")[0]: it for it in open("answers", "rb")}}
for name in sys.argv[2:]:
    said = compare.expected(".", lines[name.encode()])
    sys.stdout.buffer.write({change})
"""


class CompareVerifiers(ToolTest):
    def compared(self, change, *words):
        path = self.write("program", SAYS.format(python=sys.executable, tools=os.path.join(TOP, "tools"), change=change))
        os.chmod(path, 0o755)
        return self.tool("compare_verifiers", "--program", path, *words)

    def test_verifiers_that_agree(self):
        ran = self.compared("said", "60", "5")
        self.assertEqual((ran.returncode, ran.stderr), (0, ""))
        self.assertRegex(ran.stdout, r"^60 changed images, \d+ verified, 0 answers differ\n$")

    def test_a_report_and_a_rule_that_differ(self):
        for change in ('said.replace(b"authority of main: ", b"authority of main: clock.Tick, ")', 'said.replace(b"V-Range", b"V-Flow")'):
            ran = self.compared(change, "60", "5")
            self.assertEqual(ran.returncode, 1, change)
            self.assertRegex(ran.stdout, r"but the proved verifier says\n")

    def test_the_proved_verifier(self):
        if not os.access(PROGRAM, os.X_OK):
            self.skipTest("the gate has not built wy_image_tests")
        ran = self.tool("compare_verifiers", "300", "1")
        self.assertEqual(ran.returncode, 0, ran.stdout)

    def test_faulty_words(self):
        for words in ((), ("1",), ("one", "2"), ("--program", "absent", "1", "2")):
            self.assertEqual(self.tool("compare_verifiers", *words).returncode, 2)
