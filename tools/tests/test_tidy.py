"""tidy: the form of `format`, with the comments."""

import glob
import os

from support import HELLO, TOP, ToolTest, needs_program

WILD = """// a program

// with notes


program   // x
     grant console:Console
     // before run
     run:{console.Out}   // behind


         console.write( "a // no comment" )
         // before the last
         ( ( 1 + 2 ) : Int )//y
// the end

"""
TIDY = """// a program

// with notes

program // x
  grant console: Console
  // before run
  run: {console.Out} // behind

    console.write("a // no comment")
    // before the last
    (1 + 2 : Int) //y
// the end
"""


@needs_program
class Tidy(ToolTest):
    def test_comments_stay_and_lines_are_laid_out(self):
        self.write("x.wy", WILD)
        self.assertEqual(self.tool("tidy", "--check", "x.wy").stdout, "x.wy\n")
        self.assertEqual((self.tool("tidy", "x.wy").returncode, self.read("x.wy")), (0, TIDY))
        self.assertEqual(self.tool("tidy", "--check", "x.wy").returncode, 0)

    def test_items_stand_apart_with_their_comments(self):
        self.write("x.wy", "type A\n// of B\ntype B\n" + HELLO)
        self.tool("tidy", "x.wy")
        self.assertEqual(self.read("x.wy"), "type A\n\n// of B\ntype B\n\n" + HELLO)

    def test_a_file_without_a_tree_is_left(self):
        self.write("x.wy", "program\n  run:\n")
        self.assertEqual((self.tool("tidy", "x.wy").returncode, self.read("x.wy")), (3, "program\n  run:\n"))

    def test_line_ends_of_two_bytes_become_newlines(self):
        self.write("x.wy", HELLO.replace("\n", "\r\n"))
        self.assertEqual((self.tool("tidy", "x.wy").returncode, self.read("x.wy")), (0, HELLO))

    def test_the_examples_and_the_library_are_tidy(self):
        files = sorted(glob.glob(os.path.join(TOP, "examples", "*", "*.wy")) + glob.glob(os.path.join(TOP, "library", "*.wy")))
        ran = self.tool("tidy", "--check", *files)
        self.assertEqual((ran.returncode, ran.stdout), (0, ""))
