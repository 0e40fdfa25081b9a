#!/usr/bin/env python3
"""Writes 64 files that come near the limits on names into a folder: 1,024 types, 256 modules and their bodies.

    python3 bench/names_at_limits.py /tmp/names 16
    cd /tmp/names && time wyvern run f*.wy

The number is that of the methods of each type and module. The names of all files resolve; what `run` says of them after
that is of no account here.
"""

import pathlib
import sys

FILES = 64
TYPES = 1024
MODULES = 255


def type_text(number: int, methods: int) -> str:
    lines = [f"type T{number}", "  effect E"]
    for m in range(methods):
        other = (number * 7 + m) % TYPES
        lines.append(f"  def m{m}(x: T{other}[E = {{E}}], n: Int): {{E}} T{other}[E = {{E}}]")
    return "\n".join(lines) + "\n"


def module_text(number: int, methods: int) -> str:
    lines = [f"resource module r{number}(p: T{number}, q: T{number + 1}): T{number}", "  effect E = {p.E, q.E}"]
    for m in range(methods):
        other = (number * 7 + m) % TYPES
        lines.append(f"  def m{m}(x: T{other}[E = {{p.E, q.E}}], n: Int): {{p.E, q.E}} T{other}[E = {{p.E, q.E}}]")
        lines.append("    val a = n + 1")
        lines.append(f"    val b: T{other}[E = {{p.E, q.E}}] = if a < n * 2 then x else x")
        lines.append("    val l = new")
        lines.append("      def g(k: Int): {p.E} Int = k + a - n")
        lines.append("    l.g(a)")
        lines.append("    b")
    return "\n".join(lines) + "\n"


def main() -> None:
    folder = pathlib.Path(sys.argv[1])
    methods = int(sys.argv[2])
    folder.mkdir(parents=True, exist_ok=True)
    parts = [type_text(n, methods) for n in range(TYPES)] + [module_text(n, methods) for n in range(MODULES)]
    each = (len(parts) + FILES - 1) // FILES
    for n in range(FILES):
        text = "".join(parts[n * each : (n + 1) * each])
        if n == FILES - 1:
            text += "program\n  run: {}\n    ()\n"
        (folder / f"f{n:02}.wy").write_text(text)


main()
