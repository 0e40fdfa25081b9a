"""The gate, .ci/run: it ends as rt ci does, then as the checks behind it do, each line says when it came, and the last is that of rt ci alone."""

import os
import re
import shutil
import subprocess

from support import TOP, ToolTest


class Gate(ToolTest):
    def gate(self, passed, checked):
        for name, status, said in (("bin/rt", passed, "3 passed, 0 failed"), ("tools/check", checked, "checks $1")):
            os.chmod(self.write(name, f'#!/bin/sh\necho "{said}"\nexit {status}\n'), 0o755)
        os.makedirs(os.path.join(self.room, ".ci"), exist_ok=True)
        shutil.copy(os.path.join(TOP, ".ci", "run"), os.path.join(self.room, ".ci", "run"))
        env = {**os.environ, "PATH": f"{self.room}/bin:{os.environ['PATH']}"}
        ran = subprocess.run([os.path.join(self.room, ".ci", "run")], capture_output=True, text=True, env=env)
        return ran.returncode, [re.sub(r"^ *\d+:\d\d ", "at ", line) for line in ran.stdout.splitlines()]

    def test_both_pass(self):
        self.assertEqual(self.gate(0, 0), (0, ["at 3 passed, 0 failed", "at checks --after-gate", "3 passed, 0 failed"]))

    def test_where_rt_ci_fails_nothing_is_checked(self):
        self.assertEqual(self.gate(2, 0), (2, ["at 3 passed, 0 failed"]))

    def test_where_the_checks_fail_the_gate_fails(self):
        self.assertEqual(self.gate(0, 1), (1, ["at 3 passed, 0 failed", "at checks --after-gate"]))
