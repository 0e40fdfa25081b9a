"""gate_times: what the gate costs, by crate and kind."""

import os

from support import ToolTest

# A compiler that does nothing but take 0.7 seconds of the processor's time, on any machine (field 14 of its own line in /proc).
TICKS = os.sysconf("SC_CLK_TCK") * 7 // 10
BUSY = f"#!/bin/bash\nwhile read -r -a it </proc/$$/stat && [ ${{it[13]}} -lt {TICKS} ]; do :; done\n"
GATE = (
    "./rattle build --crate-name wy_x; ./rattle build --crate-name wy_x --crate-checked c; "
    "./rattle check --test --crate-name wy_x; cd rt-edit-1; ../rattle check --crate-name wy_y; exit "
)


class GateTimes(ToolTest):
    def setUp(self):
        super().setUp()
        os.chmod(self.write("rattle", BUSY), 0o755)
        os.makedirs(os.path.join(self.room, "rt-edit-1"))

    def gate_times(self, status=0):
        return self.tool("gate_times", "table", "sh", "-c", GATE + str(status))

    def test_each_process_goes_to_its_crate_and_kind_and_a_failure_keeps_its_status(self):
        self.write("gate_budget.txt", "wy_x 50\n")
        self.assertEqual(self.gate_times(4).returncode, 4)
        head, *lines = [it.split() for it in self.read("table").splitlines()]
        each, shares = [it for it in lines if len(it) == 3], [it for it in lines if len(it) == 2]
        self.assertEqual(sorted(it[1:] for it in each), [["wy_x", "builds"], ["wy_x", "proof"], ["wy_x", "tests"], ["wy_y", "edits"]])
        self.assertTrue(all(float(it[0]) > 0 for it in each))
        self.assertEqual(head[1:3], ["in", "all:"])
        self.assertEqual([it[1] for it in shares], ["wy_x", "wy_y"])
        self.assertAlmostEqual(sum(float(it[0].rstrip("%")) for it in shares), 100, places=1)

    def test_a_budget(self):
        self.write("gate_budget.txt", "# a share is part of the whole\nwy_x 90\nwy_y 50.5\n")
        ran = self.gate_times()
        self.assertEqual((ran.returncode, ran.stderr), (0, ""))
        self.write("gate_budget.txt", "wy_x 50\n")
        ran = self.gate_times()
        self.assertEqual(ran.returncode, 3)
        self.assertRegex(ran.stderr, "^gate_times: wy_x takes [5-9].* percent of the whole, and its budget is 50\ngate_times: wy_y takes .* has no budget\n$")

    def test_a_faulty_budget(self):
        for text in ("wy_x\n", "wy_x 1\nwy_x 2\n", "wy_x many\n"):
            self.write("gate_budget.txt", text)
            self.assertEqual(self.tool("gate_times", "table", "true").returncode, 2)

    def test_other_processes_do_not_count(self):
        self.assertEqual(self.tool("gate_times", "table", "true").returncode, 0)
        self.assertEqual(self.read("table").split(), ["0.0", "in", "all:", "nothing"])

    def test_faulty_words(self):
        self.assertEqual(self.tool("gate_times").returncode, 2)
        self.assertEqual(self.tool("gate_times", "-x").returncode, 2)
