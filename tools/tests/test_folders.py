"""A real folder whose files others look at and change, and that the machine does not let grow."""

import os
import resource
import signal
import subprocess

from support import PROGRAM, ToolTest, needs_program

ROUNDS = 20
CHANGES = 100

HEAD = """program
  grant logs: FullFolder
  run: {logs.Read, logs.Write, logs.Append, logs.Remove}
"""
WRITES = '    logs.write("f", a)\n    logs.write("f", b)\n'
TEXTS = f'    val a = "{"a" * 50_000}"\n    val b = "{"b" * 100_000}"\n'


def allow_small_files():
    """Has the machine refuse files of more than 1,000 bytes, without a signal."""
    signal.signal(signal.SIGXFSZ, signal.SIG_IGN)
    resource.setrlimit(resource.RLIMIT_FSIZE, (1_000, 1_000))


@needs_program
class Folders(ToolTest):
    def setUp(self):
        super().setUp()
        os.mkdir(os.path.join(self.room, "logs"))

    def start(self, name, **how):
        return subprocess.Popen([PROGRAM, "run", name], cwd=self.room, stderr=subprocess.PIPE, text=True, **how)

    def last_line(self, program):
        return program.communicate(timeout=60)[1].splitlines()[-1]

    def test_the_old_text_stands_if_the_machine_refuses_the_new_one(self):
        self.write("logs/f", "old")
        self.write("x.wy", HEAD + f'    logs.write("f", "{"x" * 1_001}")\n')
        program = self.start("x.wy", preexec_fn=allow_small_files)
        self.assertEqual(self.last_line(program), "logs.write: failed")
        self.assertEqual(program.returncode, 9)
        self.assertEqual(self.read("logs/f"), "old")
        self.assertEqual(os.listdir(os.path.join(self.room, "logs")), ["f"])

    def test_whoever_reads_a_file_sees_a_whole_text(self):
        self.write("logs/f", "")
        self.write("x.wy", HEAD + TEXTS + WRITES * CHANGES)
        program = self.start("x.wy")
        seen = {""}
        while program.poll() is None:
            seen.add(self.read("logs/f"))
        self.last_line(program)
        self.assertEqual(program.returncode, 0)
        self.assertLessEqual({len(text) for text in seen}, {0, 50_000, 100_000})

    def test_no_operation_fails_while_another_program_changes_the_file(self):
        changes = '    logs.write("f", "a")\n    logs.append("f", logs.read("f"))\n    logs.remove("f")\n'
        self.write("x.wy", HEAD + changes * CHANGES)
        for _ in range(ROUNDS):
            both = [self.start("x.wy") for _ in range(2)]
            self.assertEqual([(self.last_line(it), it.returncode) for it in both], [(self.last_of_report(), 0)] * 2)
        self.assertEqual(os.listdir(os.path.join(self.room, "logs")), [])

    def run_with(self, *words):
        """Runs a program that copies the text `f` of the folder `logs` to `g`, and returns its status and its last line."""
        self.write("x.wy", HEAD + '    logs.write("g", logs.read("f"))\n')
        done = subprocess.run([PROGRAM, "run", "x.wy", *words], cwd=self.room, stderr=subprocess.PIPE, text=True)
        return done.returncode, done.stderr.splitlines()[-1]

    def test_a_folder_may_be_given_for_a_grant(self):
        there = os.path.join(self.room, "else", "where")
        os.makedirs(there)
        os.symlink(there, os.path.join(self.room, "link"))
        for path in ("else/where", "./else/../else/where/", there, "link", os.path.join(self.room, "link")):
            self.write("else/where/f", path)
            self.assertEqual(self.run_with("--folder", f"logs={path}"), (0, self.last_of_report()))
            self.assertEqual(self.read("else/where/g"), path)
        self.assertEqual(os.listdir(os.path.join(self.room, "logs")), [])

    def test_a_given_path_that_is_no_folder_fails(self):
        self.write("else", "")
        os.symlink("none", os.path.join(self.room, "link"))
        for path in ("none", "else", "link", "logs/none"):
            self.assertEqual(self.run_with(f"--folder=logs={path}"), (9, "logs.read: failed"))
        self.assertEqual(os.listdir(os.path.join(self.room, "logs")), [])

    def test_a_folder_for_another_grant_ends_the_call_before_it_does_anything(self):
        self.write("logs/f", "")
        status, last = self.run_with("--folder", "log=else")
        self.assertEqual(status, 1)
        self.assertTrue(last.startswith("usage: "))
        self.assertEqual(os.listdir(os.path.join(self.room, "logs")), ["f"])

    def last_of_report(self):
        return "  run: logs.Read, logs.Write, logs.Append, logs.Remove"
