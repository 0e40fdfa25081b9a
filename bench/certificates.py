#!/usr/bin/env python3
"""Judges programs of several sizes, writes certificates of them and rechecks these, and prints what each command takes: processor seconds, the least
of three runs, the greatest memory in MB, and how many bytes a certificate has.

    WYVERN=/path/to/wyvern python3 bench/certificates.py          programs as `check_programs.py` writes them
    WYVERN=/path/to/wyvern python3 bench/certificates.py rings    and the kinds of `costs.py` that these words name, at their greatest sizes
"""

import glob
import os
import subprocess
import sys
import tempfile

import costs

# Modules, methods of each, and statements of each method.
SIZES = ((32, 20, 10), (63, 20, 10), (126, 20, 10), (252, 20, 10))
HERE = os.path.dirname(os.path.abspath(__file__))


def least(words: list[str]) -> str:
    """What a call takes, the quickest of a few."""
    seconds, memory, status = min(costs.measured(words) for _ in range(costs.RUNS))
    return f"{seconds:8.3f} s {memory / 1024:6.1f} MB" + (f" (status {status})" if status else "")


def show(name: str, files: list[str], room: str) -> None:
    """Prints a line of a program."""
    lines = sum(open(file, encoding="utf-8").read().count("\n") for file in files)
    certificate = os.path.join(room, "certificate")
    with open(certificate, "wb") as out:
        subprocess.run([costs.WYVERN, "certify", *files], stdout=out, stderr=subprocess.DEVNULL, check=False)
    done = [least([command, *files]) for command in ("check", "certify")] + [least(["recheck", certificate, *files])]
    print(f"{name:14} {lines:8} {os.path.getsize(certificate):10} " + " ".join(f"{it:20}" for it in done), flush=True)


def main() -> None:
    print(f"{'program':14} {'lines':>8} {'bytes':>10} {'check':>20} {'certify':>20} {'recheck':>20}")
    for size in SIZES:
        with tempfile.TemporaryDirectory() as room:
            subprocess.run([sys.executable, os.path.join(HERE, "check_programs.py"), room, *map(str, size)], check=True)
            show("modules", sorted(glob.glob(os.path.join(room, "*.wy"))), room)
    for kind in sys.argv[1:]:
        make, _, sizes = costs.KINDS[kind]
        with tempfile.TemporaryDirectory() as room:
            show(kind, costs.files_of(make(sizes[-1]), room), room)


if __name__ == "__main__":
    main()
