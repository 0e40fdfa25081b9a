"""tighten: effects that are declared and not needed."""

from support import HELLO, ToolTest, needs_program


@needs_program
class Tighten(ToolTest):
    def tighten(self, text):
        self.write("x.wy", text)
        ran = self.tool("tighten", "x.wy")
        return ran.returncode, ran.stdout

    def test_what_is_needed_is_not_told(self):
        self.assertEqual(self.tighten(HELLO), (0, ""))

    def test_what_is_not_needed_is_told_at_its_set(self):
        text = HELLO.replace("{console.Out}", "{console.In, console.Out}")
        self.assertEqual(self.tighten(text), (1, "x.wy:3:8: console.In is not needed\n"))

    def test_texts_and_comments_have_no_sets(self):
        text = HELLO.replace('"hello\\n"', '"{console.In}"') + "// {console.In}\n"
        self.assertEqual(self.tighten(text), (0, ""))

    def test_a_program_that_is_not_accepted(self):
        self.assertEqual(self.tighten(HELLO.replace("{console.Out}", "{}"))[0], 2)
        self.assertEqual(self.tool("tighten", "none.wy").returncode, 2)
