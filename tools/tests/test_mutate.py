"""mutate: finds answers that cannot be, and none of the program's."""

import os
import shutil

from support import TOP, ToolTest, needs_program


class Mutate(ToolTest):
    @needs_program
    def test_the_program_gives_none(self):
        ran = self.tool("mutate", "5", "11")
        self.assertEqual((ran.returncode, ran.stdout), (0, "5 changed programs, 0 with answers that cannot be\n"))

    def test_a_program_whose_commands_disagree_is_found(self):
        for name in ("tools", "examples", "library", "docs"):
            shutil.copytree(os.path.join(TOP, name), os.path.join(self.room, name))
        liar = self.write("liar", '#!/bin/sh\necho "x.wy:1:1: refused: $1" >&2\nexit 4\n')
        os.chmod(liar, 0o755)
        ran = self.tool(os.path.join(self.room, "tools", "mutate"), "--program", liar, "2", "1")
        self.assertEqual((ran.returncode, len(os.listdir(os.path.join(self.room, "out", "mutants")))), (1, 2))

    def test_faulty_words(self):
        self.assertEqual(self.tool("mutate", "many", "1").returncode, 2)
