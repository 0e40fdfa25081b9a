"""Two programs at once, over one folder: what each appends to a file stands in it, also where neither found the file there."""

import os
import subprocess

from support import PROGRAM, ToolTest, needs_program

ROUNDS = 40
LINES = 8

APPENDS = """program
  grant logs: Folder
  run: {logs.Append}
"""


@needs_program
class TwoPrograms(ToolTest):
    def program(self, letter):
        lines = [f'    logs.append("f", "{letter}{number}\\n")\n' for number in range(LINES)]
        self.write(f"{letter}.wy", APPENDS + "".join(lines))

    def start(self, letter):
        return subprocess.Popen([PROGRAM, "run", f"{letter}.wy"], cwd=self.room, stderr=subprocess.DEVNULL)

    def test_nothing_of_a_new_file_is_lost(self):
        os.mkdir(os.path.join(self.room, "logs"))
        for letter in "ab":
            self.program(letter)
        for _ in range(ROUNDS):
            both = [self.start(letter) for letter in "ab"]
            self.assertEqual([it.wait(timeout=60) for it in both], [0, 0])
            wanted = [f"{letter}{number}" for letter in "ab" for number in range(LINES)]
            self.assertEqual(sorted(self.read("logs/f").split()), wanted)
            os.remove(os.path.join(self.room, "logs", "f"))
