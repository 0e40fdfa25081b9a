"""look_alikes: names and characters that mislead a reader."""

from support import HELLO, ToolTest


class LookAlikes(ToolTest):
    def look(self, text):
        self.write("x.wy", text)
        ran = self.tool("look_alikes", "x.wy")
        return ran.returncode, ran.stdout

    def test_plain_sources_and_names_of_one_script(self):
        self.assertEqual(self.look(HELLO), (0, ""))
        self.assertEqual(self.look("type L\u00e4nge\n// \u0430 comment \u043f\u043e-\u0440\u0443\u0441\u0441\u043a\u0438\n"), (0, ""))
        self.assertEqual(self.look("type \u65e5\u672c\u306e\u30fc\n"), (0, ""))

    def test_a_name_of_two_scripts(self):
        status, said = self.look("  grant c\u043ensole: Console\n")
        self.assertEqual((status, said.startswith("x.wy:1:9: ")), (1, True))

    def test_names_that_look_alike(self):
        status, said = self.look("type x\ntype \u0445\n")
        self.assertEqual((status, said.startswith("x.wy:2:6: "), "stands at x.wy:1:6" in said), (1, True, True))

    def test_characters_that_turn_the_direction(self):
        status, said = self.look('// a \u202e b\n  "\u200b"\n')
        self.assertEqual((status, [it.split(" ")[0] for it in said.splitlines()]), (1, ["x.wy:1:6:", "x.wy:2:4:"]))

    def test_a_file_that_is_not_there(self):
        self.assertEqual(self.tool("look_alikes", "none.wy").returncode, 2)
