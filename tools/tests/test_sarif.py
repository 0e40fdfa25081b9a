"""sarif: one result for what is wrong, at its place, and none otherwise."""

import json

from support import HELLO, ToolTest, needs_program


@needs_program
class Sarif(ToolTest):
    def sarif(self, *words):
        ran = self.tool("sarif", *words)
        log = json.loads(ran.stdout)
        self.assertEqual(log["version"], "2.1.0")
        return ran.returncode, log["runs"][0]

    def result(self, *words):
        """Returns the status, the rule, the message, the file and the region of the one result."""
        status, run = self.sarif(*words)
        self.assertEqual([it["id"] for it in run["tool"]["driver"]["rules"]], [it["ruleId"] for it in run["results"]])
        where = run["results"][0]["locations"][0]["physicalLocation"]
        message = run["results"][0]["message"]["text"]
        return status, run["results"][0]["ruleId"], message, where["artifactLocation"]["uri"], where.get("region")

    def test_what_is_accepted_has_no_result(self):
        self.write("x.wy", HELLO)
        status, run = self.sarif("check", "x.wy")
        self.assertEqual((status, run["results"]), (0, []))

    def test_a_refusal(self):
        self.write("a b.wy", HELLO.replace("{console.Out}", "{}"))
        message = "refused: T-Body premise 2 lacks console.Out\n`run` declares {}, which does not allow console.Out"
        place = {"startLine": 3, "startColumn": 3}
        self.assertEqual(self.result("check", "a b.wy"), (4, "T-Body premise 2", message, "a%20b.wy", place))
        _, run = self.sarif("check", "a b.wy")
        self.assertGreater(len(run["tool"]["driver"]["rules"][0]["fullDescription"]["text"]), 40)

    def test_a_column_counts_characters(self):
        self.write("x.wy", 'program\n  run: {}\n    val t = "\u00e9\\q"\n    ()\n')
        self.assertEqual(self.result("check", "x.wy")[4], {"startLine": 3, "startColumn": 16})

    def test_other_last_lines(self):
        self.write("x.wy", HELLO)
        self.write("x.pol", "// a\nmain: -\n")
        status, rule, message, file, region = self.result("policy", "x.pol", "x.wy")
        self.assertEqual((status, rule, file, region), (16, "denied", "x.pol", {"startLine": 2}))
        self.assertEqual(message.splitlines()[0], "denied: main console.Out")
        self.write("x.pol", "other: -\n")
        self.assertEqual(self.result("policy", "x.pol", "x.wy")[3:], ("x.pol", None))
        self.assertEqual(self.result("check", "none.wy")[:4], (2, "unread", "unread", "none.wy"))
        self.assertEqual(self.result("check", *["x.wy"] * 65)[1], "limit: files")

    def test_commands_that_run_the_program_are_left_out(self):
        self.write("x.wy", HELLO)
        self.assertEqual(self.tool("sarif", "run", "x.wy").returncode, 2)
        self.assertEqual(self.tool("sarif").returncode, 2)
