"""where: definitions, functions, proofs, lemmas and promises by a name."""

import os
import shutil
import subprocess

from support import TOP, ToolTest


class Where(ToolTest):
    def setUp(self):
        super().setUp()
        for name in ("where", "project.py"):
            os.makedirs(os.path.join(self.room, "tools"), exist_ok=True)
            shutil.copy(os.path.join(TOP, "tools", name), os.path.join(self.room, "tools", name))
        self.write("crates/wy_a/specs/A.antt", "-- title\n\n-- two\n-- lines\nabbrev pub Is : Type 0\nIs = x\n")
        self.write("crates/wy_a/src/a.rt", "fn give(x: u8)\n    ensures { Is x }\n    requires { Is' x }\n{\n}\npub fn other()\n{\n    Is\n}\n")
        self.write("crates/wy_a/proofs/a/give/Answers.antt", "")
        self.write("crates/wy_a/proofs/Lemmas.antt", "pub one : Is 1\none = tt\ntwo : Isnt 2\n")
        self.write("docs/PROMISES.md", "# Promises\n\nSee `Is`.\n")

    def where(self, *words):
        ran = subprocess.run([os.path.join(self.room, "tools/where"), *words], capture_output=True, text=True)
        return ran.returncode, ran.stdout.splitlines()

    def test_a_definition(self):
        status, said = self.where("Is")
        self.assertEqual(status, 0)
        wanted = [
            "defined  wy_a/specs/A.antt:5  two lines",
            "function wy_a/src/a.rt:1  give cites it; proof in wy_a/proofs/a/give",
            "lemma    wy_a/proofs/Lemmas.antt:1  one",
            "promise  docs/PROMISES.md:3  See `Is`.",
        ]
        self.assertEqual(said, wanted)

    def test_a_function_and_a_lemma(self):
        self.assertEqual(self.where("other"), (0, ["function wy_a/src/a.rt:6  other is the function"]))
        self.assertEqual(self.where("two"), (0, ["lemma    wy_a/proofs/Lemmas.antt:3  two"]))

    def test_nothing(self):
        self.assertEqual(self.where("none")[0], 1)
        self.assertEqual(self.where()[0], 2)
