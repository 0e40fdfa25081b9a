"""authority_graph: who was handed what, and who may touch what; drawn where Graphviz is here."""

import glob
import os
import shutil
import subprocess
import unittest

from support import HELLO, TOP, ToolTest, needs_program


@needs_program
class AuthorityGraph(ToolTest):
    def host(self):
        return self.tool("authority_graph", *sorted(glob.glob(os.path.join(TOP, "examples", "host", "*.wy"))))

    def test_arrows_of_a_host_with_plug_ins(self):
        ran = self.host()
        self.assertEqual(ran.returncode, 0)
        self.assertIn('"stamp" -> "grant clock";', ran.stdout)
        self.assertIn('"stamp" -> "out";', ran.stdout)
        self.assertIn('"shout" -> "grant conf" [label="Read", style=dashed, color=gray40', ran.stdout)
        self.assertIn('"hello" [label="hello", shape=box, peripheries=2];', ran.stdout)
        self.assertNotIn('"hello" -> "grant conf"', ran.stdout)

    def test_what_can_remove_can_change_something(self):
        ran = self.tool("authority_graph", os.path.join(TOP, "examples", "cleaner", "cleaner.wy"))
        self.assertIn('"c" -> "grant drafts" [label="Remove", style=dashed, color=red3', ran.stdout)

    @unittest.skipUnless(shutil.which("dot"), "dot is not here")
    def test_graphviz_draws_it(self):
        drawn = subprocess.run(["dot", "-Tsvg"], input=self.host().stdout, capture_output=True, text=True)
        self.assertEqual((drawn.returncode, "</svg>" in drawn.stdout), (0, True))

    def test_a_program_that_is_not_accepted(self):
        self.write("x.wy", HELLO.replace("{console.Out}", "{}"))
        ran = self.tool("authority_graph", "x.wy")
        self.assertEqual((ran.returncode, ran.stdout), (4, ""))
