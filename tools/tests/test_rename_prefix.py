"""rename_prefix: types and modules get a prefix, and the program stays what it is."""

import glob
import os
import subprocess

from support import PROGRAM, TOP, ToolTest, copy, example_files, needs_program

PLUGIN = """// The type Store and the module sum.
type Store
  effect Put
  def put(t: String): {Put} Store[Put = {Put}]
type Sum
  def to(n: Int): {} Int
module sum: Sum
  def to(n: Int): {} Int = n
resource module Store(disk: Folder): Store
  use sum
  effect Put = {disk.Append}
  val start: Sum = sum
  def put(Store: String): {Put} Store[Put = {Put}]
    disk.append("Store", Store ++ text_show(sum.to((1 : Int))))
    this
"""
HOST = """program
  grant disk: Folder
  use sum
  instance Store = Store(disk)
  run: {Store.Put}
    val other: Store[Put = {Store.Put}] = Store.put(text_show(sum.to(1)))
    ()
"""
CHANGED = """// The type Store and the module sum.
type x_Store
  effect Put
  def put(t: String): {Put} x_Store[Put = {Put}]
type x_Sum
  def to(n: Int): {} Int
module x_sum: x_Sum
  def to(n: Int): {} Int = n
resource module x_Store(disk: Folder): x_Store
  use x_sum
  effect Put = {disk.Append}
  val start: x_Sum = x_sum
  def put(Store: String): {Put} x_Store[Put = {Put}]
    disk.append("Store", Store ++ text_show(x_sum.to((1 : Int))))
    this
"""
CHANGED_HOST = """program
  grant disk: Folder
  use x_sum
  instance Store = x_Store(disk)
  run: {Store.Put}
    val other: x_Store[Put = {Store.Put}] = Store.put(text_show(x_sum.to(1)))
    ()
"""


@needs_program
class RenamePrefix(ToolTest):
    def rename(self, plugin=PLUGIN, host=HOST, prefix="x_"):
        self.write("plugin.wy", plugin)
        self.write("host.wy", host)
        return self.tool("rename_prefix", prefix, "plugin.wy", "--with", "host.wy")

    def left(self, why, *given):
        """Looks that a call changes nothing and says why."""
        ran = self.rename(*given)
        self.assertEqual(ran.returncode, 1, ran.stderr)
        self.assertIn("left as they are: ", ran.stderr)
        self.assertIn(why, ran.stderr)
        self.assertEqual(self.read("plugin.wy"), given[0])

    def test_types_and_modules_and_nothing_else(self):
        ran = self.rename()
        self.assertEqual((ran.returncode, ran.stderr), (0, ""))
        self.assertEqual(ran.stdout, "type Store: x_Store\ntype Sum: x_Sum\nmodule sum: x_sum\nmodule Store: x_Store\n")
        self.assertEqual((self.read("plugin.wy"), self.read("host.wy")), (CHANGED, CHANGED_HOST))

    def test_two_plug_ins_that_clash(self):
        self.rename(prefix="a_")
        self.write("other.wy", PLUGIN)
        files = ["plugin.wy", "other.wy", "host.wy"]
        self.write("host.wy", "program\n  run: {}\n    ()\n")
        self.assertEqual(subprocess.run([PROGRAM, "check", *files], cwd=self.room, capture_output=True).returncode, 0)
        self.assertEqual(self.tool("rename_prefix", "b_", "other.wy").returncode, 0)
        self.assertEqual(self.read("other.wy"), CHANGED.replace("x_", "b_"))

    def test_the_examples(self):
        for folder in glob.glob(os.path.join(TOP, "examples", "*", "")):
            room = os.path.join(self.room, os.path.basename(os.path.dirname(folder)))
            copy(folder, room)
            for file in example_files(os.path.basename(room)):
                copy(file, room)
            files = sorted(glob.glob(f"{room}/*.wy"))
            self.assertEqual(self.tool("rename_prefix", "acme_", *files).returncode, 0, folder)
            report = subprocess.run([PROGRAM, "authority", *files], capture_output=True, text=True).stdout
            self.assertEqual(report.replace("pure acme_", "pure "), self.read(f"{room}/report.txt"))

    def test_what_is_left_as_it_is(self):
        hidden = PLUGIN.replace("put(Store: String)", "put(sum: String)").replace("Store ++", "sum ++").replace("sum.to((1 : Int))", "1")
        self.left("plugin.wy:13:11: sum is a used module, and a name of something else there", hidden, HOST)
        self.left("x_Sum is a name there already", PLUGIN.replace("val start", "val x_Sum"), HOST)
        self.left("plugin.wy:8:3: refused", PLUGIN.replace("Int = n", 'Int = "n"'), HOST)

    def test_faulty_words(self):
        self.assertEqual(self.rename(prefix="1_").returncode, 2)
        self.assertEqual(self.tool("rename_prefix", "x_").returncode, 2)
        self.assertEqual(self.tool("rename_prefix", "x_", "host.wy", "--with").returncode, 2)
        self.assertEqual(self.tool("rename_prefix", "x_", "none.wy").returncode, 2)
