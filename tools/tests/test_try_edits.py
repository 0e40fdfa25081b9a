"""Edits that the prover must refuse: each can be applied to the sources, and `try_edits` tries those outside the gate, in a small
repository with a stand-in for rt."""

import glob
import os
import re
import shutil
import signal
import subprocess
import unittest

from support import TOP, ToolTest

# Says which edits lie in the crates that it is asked for. It refuses each, but those whose text has the word `same`. Where the edit
# `slow` is tried, it waits until it is ended.
RT = """#!/bin/sh
[ "$1" = must-fail ] || exit 3
shift
status=0
for crate in "$@"; do
  for edit in crates/"$crate"/must-fail/*.edit; do
    if [ "$(basename "$edit")" = slow.edit ]; then echo waits; exec sleep 60; fi
    if grep -q same "$edit"; then status=1; echo "$crate $(basename "$edit"): NOT REFUSED"; else echo "$crate $(basename "$edit"): refused"; fi
  done
done
exit $status
"""
EDIT = "file: src/lib.rt\nold: a < b\nnew: a <= b\n"


class TryEdits(ToolTest):
    def setUp(self):
        super().setUp()
        for name in ("try_edits", "project.py"):
            os.makedirs(os.path.join(self.room, "tools"), exist_ok=True)
            shutil.copy(os.path.join(TOP, "tools", name), os.path.join(self.room, "tools", name))
        os.chmod(self.write("bin/rt", RT), 0o755)
        self.write("crates/low/must-fail/gate.edit", EDIT)
        self.write("crates/high/src/lib.rt", "a < b")
        for name in ("low/one", "low/two", "high/three"):
            self.write(f"tools/edits/{name}.edit", EDIT)

    def how(self):
        return {"text": True, "env": {**os.environ, "PATH": f"{self.room}/bin:{os.environ['PATH']}"}}

    def call(self, *words):
        return subprocess.run([f"{self.room}/tools/try_edits", *words], capture_output=True, **self.how())

    def assert_taken_out(self):
        there = glob.glob(f"{self.room}/crates/*/must-fail/*")
        self.assertEqual([os.path.relpath(it, self.room) for it in there], ["crates/low/must-fail/gate.edit"])
        self.assertFalse(os.path.exists(f"{self.room}/crates/high/must-fail"))

    def test_the_edits_of_a_crate(self):
        ran = self.call("low")
        self.assertEqual(ran.returncode, 0)
        self.assertEqual(ran.stdout.splitlines()[:3], [f"low {it}.edit: refused" for it in ("gate", "one", "two")])
        self.assertIn("2 edits of 1 crates: each refused", ran.stdout)
        self.assert_taken_out()

    def test_an_edit_by_its_name(self):
        ran = self.call("low", "two")
        self.assertEqual((ran.returncode, "low two.edit" in ran.stdout, "low one.edit" in ran.stdout), (0, True, False))
        self.assert_taken_out()

    def test_the_edits_of_every_crate(self):
        ran = self.call("--all")
        self.assertEqual((ran.returncode, ran.stdout.count(": refused")), (0, 4))
        self.assertIn("3 edits of 2 crates: each refused", ran.stdout)
        self.assert_taken_out()

    def test_an_edit_that_is_not_refused(self):
        self.write("tools/edits/high/three.edit", "file: src/lib.rt\nold: a < b\nnew: same\n")
        ran = self.call("high")
        self.assertEqual((ran.returncode, "high three.edit: NOT REFUSED" in ran.stdout), (1, True))
        self.assertIn("not all refused", ran.stdout)
        self.assert_taken_out()

    def test_a_name_that_lies_in_both_places(self):
        self.write("tools/edits/low/gate.edit", EDIT)
        for words in (["low"], ["--all"], ["low", "gate"]):
            ran = self.call(*words)
            self.assertEqual((ran.returncode, ran.stdout), (2, ""))
            self.assertIn("gate.edit lies in tools/edits/low and in crates/low/must-fail", ran.stderr)
        self.assertEqual(self.call("low", "one").returncode, 0)
        self.assert_taken_out()

    def test_words_that_name_no_edit(self):
        for words in ([], ["--some"], ["other"], ["low", "three"]):
            self.assertEqual(self.call(*words).returncode, 2)
        self.assert_taken_out()

    def test_edits_are_taken_out_after_an_interrupt(self):
        self.write("tools/edits/high/slow.edit", EDIT)
        for number in (signal.SIGINT, signal.SIGTERM):
            how = {"stdout": subprocess.PIPE, "start_new_session": True, "preexec_fn": heeds_interrupts, **self.how()}
            with subprocess.Popen([f"{self.room}/tools/try_edits", "high"], **how) as ran:
                self.assertEqual(ran.stdout.readline(), "waits\n")
                os.killpg(ran.pid, number)
                self.assertEqual(ran.wait(20), 1)
            self.assert_taken_out()


def heeds_interrupts():
    """Has a process end at an interrupt, though the tests may run in the background of a script, where interrupts are ignored."""
    signal.signal(signal.SIGINT, signal.SIG_DFL)


def folder_and_edits():
    """Yields the folder of a crate and an edit of it, for each edit in the gate and outside."""
    for path in sorted(glob.glob(f"{TOP}/crates/*/must-fail/*") + glob.glob(f"{TOP}/tools/edits/*/*")):
        crate = os.path.relpath(path, TOP).split(os.sep)[-3 if "must-fail" in path else -2]
        yield f"{TOP}/crates/{crate}", path


def faults_of(folder, path):
    """Returns why an edit cannot be applied to the sources of its crate: the prover reads it in the same way."""
    texts, file, old, pairs = {}, None, None, 0
    with open(path, encoding="utf-8") as it:
        lines = it.read().split("\n")
    for line in lines:
        if line.startswith("file: "):
            file, old = os.path.join(folder, line[len("file: ") :].strip()), None
            if not os.path.isfile(file):
                return f"there is no file {line[len('file: '):]}"
            if file not in texts:
                with open(file, encoding="utf-8") as it:
                    texts[file] = it.read()
        elif line.startswith("old: "):
            old = line[len("old: ") :]
        elif line.startswith("new:"):
            if not file or not old:
                return "a line 'new:' has no 'file:' or no 'old:' before it"
            times = texts[file].count(old)
            if times != 1:
                return f"its text is there {times} times, and not once: {old.strip()}"
            texts[file] = texts[file].replace(old, re.sub("^ ", "", line[len("new:") :]))
            old, pairs = None, pairs + 1
        elif line and not line.startswith("#"):
            return f"a line is not read: {line}"
    return None if pairs and not old else "it has no pair of 'old:' and 'new:', or half a pair"


class Edits(unittest.TestCase):
    def test_each_can_be_applied(self):
        faults = []
        for folder, path in folder_and_edits():
            fault = faults_of(folder, path) if path.endswith(".edit") else "its name does not end in .edit"
            if fault:
                faults.append(f"{os.path.relpath(path, TOP)}: {fault}")
        self.assertEqual(faults, [])

    def test_none_lies_in_the_gate_and_outside(self):
        names = [(folder, os.path.basename(path)) for folder, path in folder_and_edits()]
        self.assertEqual(len(names), len(set(names)))
        self.assertGreater(len(names), 50)
