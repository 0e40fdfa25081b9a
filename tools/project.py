"""What the tools share: where the repository is, which program they ask, and how they end."""

import glob
import os
import re
import shutil
import stat
import subprocess
import sys

sys.dont_write_bytecode = True

TOP = os.path.dirname(os.path.dirname(os.path.abspath(__file__)))
USES_LIBRARY = re.compile(r"\b(?:lib_|Lib[A-Z])\w*")


def program_and_words(doc):
    """Returns the program to ask and the other words: `--program PROGRAM`, else $WYVERN, else the script `wyvern`."""
    words = sys.argv[1:]
    if words[:1] in (["--help"], ["-h"]):
        print(doc)
        sys.exit(0)
    program = os.environ.get("WYVERN") or os.path.join(TOP, "wyvern")
    if words[:1] == ["--program"] and len(words) > 1:
        program, words = words[1], words[2:]
    return os.path.abspath(program), words


def ask(program, *words, **how):
    """Runs the program with these words, and returns what it wrote and its status, as text."""
    return subprocess.run([program, *words], capture_output=True, text=True, errors="surrogateescape", **how)


def last_line(run):
    """Returns the last line that a call wrote to standard error, or else to standard output."""
    lines = run.stderr.splitlines() or run.stdout.splitlines()
    return lines[-1] if lines else ""


def stop(text, status=2):
    print(text, file=sys.stderr)
    sys.exit(status)


def example_files(name):
    """Returns the files of the program examples/NAME: its own, and those of library/ if it names anything of the library."""
    files = sorted(glob.glob(os.path.join(TOP, "examples", name, "*.wy")))
    for file in files:
        with open(file, encoding="utf-8") as it:
            if USES_LIBRARY.search(it.read()):
                return files + sorted(glob.glob(os.path.join(TOP, "library", "*.wy")))
    return files


def copy(source, to):
    """Copies a file, or a folder into one that may be there, so that its owner can change the copies, whatever the source allows."""
    if os.path.isdir(source):
        shutil.copytree(source, to, dirs_exist_ok=True)
    else:
        to = shutil.copy(source, to)
    for folder, _, names in os.walk(to) if os.path.isdir(to) else [(to, [], [])]:
        for path in (folder, *(os.path.join(folder, name) for name in names)):
            if not os.path.islink(path):
                os.chmod(path, os.stat(path).st_mode | stat.S_IWUSR)


def page(name):
    """Returns the text of a page of docs/."""
    with open(os.path.join(TOP, "docs", name), encoding="utf-8") as it:
        return it.read()
