"""Editors, shells and the manual page: their words are those of docs/LANGUAGE.md, and each is tried where its program is here."""

import json
import os
import pty
import re
import select
import shutil
import signal
import subprocess
import time
import unittest

from support import HELLO, PROGRAM, TOP, ToolTest, needs_program

COMMANDS = ["check", "authority", "run", "trace", "sample", "format", "policy", "observe", "certify", "recheck"]
VIM = """set nocompatible
set runtimepath^={top}/editors/vim
filetype plugin on
syntax on
edit x.wy
let places = [[1, 1], [2, 3], [2, 18], [3, 10], [4, 20], [4, 25], [5, 1]]
let names = map(places, {{ _, it -> synIDattr(synID(it[0], it[1], 1), 'name') }})
compiler wyvern
silent! make!
let faults = map(getqflist(), {{ _, it -> bufname(it.bufnr) . ':' . it.lnum . ':' . it.col . ':' . it.text }})
call writefile([&filetype, &shiftwidth] + names + faults, 'said')
qall!
"""
ZSH = "PS1=; fpath=({top}/completions $fpath); autoload -Uz compinit; compinit -u -D; cd {room}; echo re''ady\n"


def text_of(*parts):
    with open(os.path.join(TOP, *parts), encoding="utf-8") as it:
        return it.read()


def shown_until(terminal, wanted, seconds):
    """Reads what a terminal shows, until it has what is wanted or so many seconds have gone."""
    shown, end = b"", time.monotonic() + seconds
    while time.monotonic() < end and not (wanted and wanted in shown):
        if select.select([terminal], [], [], 0.2)[0]:
            shown += os.read(terminal, 4096)
    return shown


def needs(command, word=""):
    """Skips a test where a command is not here, or its version does not have the word: a small build or a stand-in for it."""
    if not shutil.which(command):
        return unittest.skip(f"{command} is not here")
    said = subprocess.run([command, "--version"], capture_output=True, text=True, stdin=subprocess.DEVNULL).stdout
    return unittest.skipUnless(word in said, f"{command} is a small one")


class Words(unittest.TestCase):
    reserved = re.search(r"\*\*Reserved words\*\*: `([^`]+)`", text_of("docs", "LANGUAGE.md"))[1].split()

    def test_both_grammars_have_each_reserved_word(self):
        vim = set(re.findall(r"\w+", " ".join(re.findall(r"^syntax keyword \w+ (.*)$", text_of("editors", "vim", "syntax", "wyvern.vim"), re.M))))
        grammar = text_of("editors", "vscode", "syntaxes", "wyvern.tmLanguage.json")
        for word in self.reserved:
            self.assertIn(word, vim)
            self.assertRegex(grammar, rf"[(|b]{word}[)|\\]")

    def test_completions_and_the_manual_page_have_each_command(self):
        for name in ("completions/wyvern.bash", "completions/_wyvern", "man/wyvern.1"):
            for command in COMMANDS:
                self.assertIn(command, text_of(name))

    def test_the_files_of_vs_code(self):
        at = ("editors", "vscode")
        package = json.loads(text_of(*at, "package.json"))
        json.loads(text_of(*at, "language-configuration.json"))
        self.assertEqual(package["version"], text_of("VERSION").strip())
        marked = [it["pattern"]["regexp"] for it in package["contributes"]["problemMatchers"]]
        found = re.search(marked[0], "src/a b.wy:3:17: refused: T-Body premise 2 lacks console.Out")
        self.assertEqual(found.groups(), ("src/a b.wy", "3", "17", "refused: T-Body premise 2 lacks console.Out"))
        for told in ("denied: echo console.In", "bad policy"):
            self.assertEqual(re.search(marked[1], f"team.pol:2: {told}").groups(), ("team.pol", "2", told))
        for rule in re.findall(r'"(?:match|begin|end)": ("(?:[^"\\]|\\.)*")', text_of(*at, "syntaxes", "wyvern.tmLanguage.json")):
            re.compile(json.loads(rule))


class Shells(ToolTest):
    def complete(self, *words):
        script = f"source {TOP}/completions/wyvern.bash; COMP_WORDS=(\"$@\"); COMP_CWORD=$(($# - 1)); _wyvern; echo \"${{COMPREPLY[*]}}\""
        return subprocess.run(["bash", "-c", script, "", "wyvern", *words], cwd=self.room, capture_output=True, text=True).stdout.split()

    def test_bash(self):
        self.write("x.wy", HELLO)
        self.write("notes.txt", "")
        self.write("src/y.wy", HELLO)
        self.assertEqual(self.complete(""), COMMANDS)
        self.assertEqual(self.complete("au"), ["authority"])
        self.assertEqual(self.complete("run", "--d"), ["--depth"])
        self.assertEqual(self.complete("run", ""), ["x.wy", "src"])
        self.assertEqual((self.complete("sample", ""), self.complete("run", "--steps", "")), ([], []))
        self.assertEqual(sorted(self.complete("recheck", "")), ["notes.txt", "src", "x.wy"])
        self.assertEqual(self.complete("recheck", "notes.txt", ""), ["x.wy", "src"])

    @needs("zsh")
    def test_zsh(self):
        self.write("only.wy", HELLO)
        for typed, whole in (("auth", "wyvern authority"), ("check o", "wyvern check only.wy"), ("run --de", "wyvern run --depth=")):
            self.assertIn(whole, self.typed_in_zsh(f"wyvern {typed}\t"))

    def typed_in_zsh(self, keys):
        """Types keys into a shell at a terminal, and returns what it shows."""
        try:
            child, terminal = pty.fork()
        except OSError:
            self.skipTest("there are no terminals here")
        if child == 0:
            os.environ["TERM"] = "dumb"
            os.execvp("zsh", ["zsh", "-f", "-i"])
        try:
            os.write(terminal, ZSH.format(top=TOP, room=self.room).encode())
            shown_until(terminal, b"\nready", 20)
            os.write(terminal, keys.encode())
            shown = shown_until(terminal, None, 2)
        finally:
            os.close(terminal)
            os.kill(child, signal.SIGKILL)
            os.waitpid(child, 0)
        return re.sub(r"\x1b\[[0-9;?]*[a-zA-Z]|\r", "", shown.decode(errors="replace"))

    @needs("man", "man ")
    def test_the_manual_page(self):
        ran = subprocess.run(["man", "--warnings", "-l", f"{TOP}/man/wyvern.1"], capture_output=True, text=True, env={**os.environ, "MANWIDTH": "100"})
        self.assertEqual((ran.returncode, ran.stderr), (0, ""))
        self.assertIn("EXIT STATUS", ran.stdout)


@needs_program
class Vim(ToolTest):
    @needs("vim", "+syntax")
    def test_colours_and_the_place_of_a_refusal(self):
        self.write("x.wy", HELLO.replace("{console.Out}", "{console.In}") + "// end\n")
        self.write("script.vim", VIM.format(top=TOP))
        os.makedirs(f"{self.room}/bin")
        os.symlink(PROGRAM, f"{self.room}/bin/wyvern")
        env = {**os.environ, "PATH": f"{self.room}/bin:{os.environ['PATH']}", "HOME": self.room}
        subprocess.run(["vim", "-e", "-s", "-N", "-u", "NONE", "-S", "script.vim"], cwd=self.room, env=env, stdin=subprocess.DEVNULL, capture_output=True, timeout=30)
        said = self.read("said").splitlines()
        names = ["Declare", "Declare", "Type", "Atom", "Text", "Escape", "Comment"]
        self.assertEqual(said[:2] + said[2:9], ["wyvern", "2", *(f"wyvern{it}" for it in names)])
        self.assertEqual(said[9:], ["x.wy:3:3:refused: T-Body premise 2 lacks console.Out"])
