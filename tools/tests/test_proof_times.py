"""proof_times: what is dear to prove, by the times of a check's files."""

import os

from support import ToolTest


class ProofTimes(ToolTest):
    def checked(self, name, at):
        os.utime(self.write(f"kept/build/{name}", ""), (at, at))

    def test_parts_are_summed_up_by_their_function(self):
        self.checked("Rattle-wy_x-specs.Rules.oantt", 100)
        self.checked("Rattle-wy_x-proofs.Lemmas.oantt", 103)
        self.checked("Rattle-wy_x-proofs.one.first.Lts.oantt", 110)
        self.checked("Rattle-wy_x-proofs.one.first.Lts.View.oantt", 111)
        self.checked("Rattle-wy_x-proofs.one.first.Carried-5-0.oantt", 112)
        self.checked("Rattle-wy_x-proofs.one.first.Lts.decls.oantt", 113)
        ran = self.tool("proof_times", "kept")
        self.assertEqual(ran.returncode, 0)
        lines = [it.split() for it in ran.stdout.splitlines()]
        self.assertEqual(lines, [["12.0", "in", "all"], ["9.0", "proofs.one.first"], ["3.0", "proofs.Lemmas"]])

    def test_as_many_lines_as_are_wanted(self):
        for at in range(5):
            self.checked(f"Rattle-wy_x-proofs.F{at}.oantt", at)
        self.assertEqual(len(self.tool("proof_times", "kept", "2").stdout.splitlines()), 3)

    def test_faulty_words_and_folders(self):
        self.assertEqual(self.tool("proof_times").returncode, 2)
        self.assertEqual(self.tool("proof_times", ".").returncode, 2)
        self.assertEqual(self.tool("proof_times", ".", "x").returncode, 2)
