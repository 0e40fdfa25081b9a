#!/usr/bin/env python3
"""Writes the files of an accepted program into a folder: modules that stand on one another, each with methods of several
statements.

    python3 bench/check_programs.py /tmp/big 255 20 10
    cd /tmp/big && time wyvern check f*.wy

The numbers are those of modules, of the methods of each, and of the statements of each method, in threes.
"""

import pathlib
import sys

FILES = 32


def type_text(methods: int) -> str:
    lines = ["type Step", "  effect E"]
    lines += [f"  def m{m}(t: Int): {{E}} Int" for m in range(methods)]
    return "\n".join(lines) + "\n"


def body(statements: int, method: int, inner: bool) -> list[str]:
    lines = ["    val a0 = t + 1"]
    for s in range(1, statements):
        if inner:
            lines.append(f"    val b{s} = s.m{method}(a{s - 1}) * 2")
        else:
            lines.append(f"    val b{s} = text_size(text_show(a{s - 1}))")
        lines.append(f"    val c{s}: Int = if b{s} < a{s - 1} && !(b{s} == {s}) then b{s} else a{s - 1}")
        lines.append(f"    val a{s} = c{s} - {s}")
    lines.append(f"    a{statements - 1}")
    return lines


def module_text(number: int, methods: int, statements: int) -> str:
    first = number == 1
    lines = [f"resource module m{number}({'c: Console' if first else 's: Step'}): Step"]
    lines.append(f"  effect E = {{{'c.Out' if first else 's.E'}}}")
    for m in range(methods):
        lines.append(f"  def m{m}(t: Int): {{E}} Int")
        lines += body(statements, m, not first)
    return "\n".join(lines) + "\n"


def main() -> None:
    folder = pathlib.Path(sys.argv[1])
    modules, methods, statements = (int(word) for word in sys.argv[2:5])
    folder.mkdir(parents=True, exist_ok=True)
    parts = [type_text(methods)]
    parts += [module_text(n, methods, statements) for n in range(1, modules + 1)]
    lines = ["program", "  grant console: Console", "  instance x1 = m1(console)"]
    lines += [f"  instance x{n} = m{n}(x{n - 1})" for n in range(2, modules + 1)]
    lines += [f"  run: {{x{modules}.E}}", f"    val t = x{modules}.m0(1)", "    ()"]
    parts.append("\n".join(lines) + "\n")
    each = (len(parts) + FILES - 1) // FILES
    for n in range(FILES):
        (folder / f"f{n:02}.wy").write_text("".join(parts[n * each : (n + 1) * each]))


main()
