#!/usr/bin/env python3
"""Makes programs that a limit lets grow large, runs `wyvern` on them, and prints for each kind of program its sizes, times, greatest
memory, and the slope: how the time grows with the size, where 1 is 'as the size'.

    WYVERN=/path/to/wyvern python3 bench/costs.py            all kinds
    WYVERN=/path/to/wyvern python3 bench/costs.py rings obj  these

Times are processor time, the least of three runs; memory is that of the process at its greatest.
"""

import math
import os
import sys
import tempfile

WYVERN = os.environ.get("WYVERN", "./wyvern")
RUNS = 3


def types_reached(n: int) -> str:
    """n types, each with 16 methods over other types, and 255 modules that are handed one of them."""
    lines = []
    for t in range(n):
        lines.append(f"type T{t}")
        lines += [f"  def m{m}(x: T{(t * 7 + m * 131 + 1) % n}): {{}} T{(t + m + 1) % n}" for m in range(16)]
    lines.append("type U")
    lines += [f"plain module p{m}(a: T0): U" for m in range(255)]
    return program(lines, "{}", ["()"])


def rings(n: int) -> str:
    """Two rings of n and n + 1 types with 8 methods, of which one is asked to be a subtype of the other."""
    lines = []
    for name, size in (("A", n), ("B", n + 1)):
        for t in range(size):
            lines.append(f"type {name}{t}")
            lines += [f"  def m{m}(x: Int, y: Int): {{}} {name}{(t + 1) % size}" for m in range(8)]
    lines += ["type Asks", "  def f(a: A0): {} B0", "plain module p(): Asks", "  def f(a: A0): B0 = a"]
    return program(lines, "{}", ["()"])


def atoms(n: int) -> str:
    """2,000 calls on an object whose type has n abstract members."""
    lines = ["type T"] + [f"  effect E{e}" for e in range(n)] + [f"  def f(): {{{', '.join(f'E{e}' for e in range(n))}}} Int"]
    lines += ["type U", "  effect E", "  def g(): {E} Int", "resource module m(t: T): U"]
    lines += [f"  effect E = {{{', '.join(f't.E{e}' for e in range(n))}}}", "  def g(): {E} Int"]
    lines += [f"    val v{call} = t.f()" for call in range(2000)] + ["    0"]
    return program(lines, "{}", ["()"])


def bounds(n: int) -> str:
    """A type of n members, each bounded by the one before it; a module that is handed one and calls it 2,000 times for the effect of the first
    member, and two that are sealed at the type."""
    lines = ["type T", "  effect E0", *[f"  effect E{e} <= {{E{e - 1}}}" for e in range(1, n)], f"  def f(): {{E{n - 1}}} Int"]
    lines += ["type U", "  effect E", "  def g(): {E} Int", "resource module made(c: Clock): T", "  effect E0 = {c.Tick}"]
    lines += [f"  effect E{e} = {{c.Tick}}" for e in range(1, n)] + [f"  def f(): {{E{n - 1}}} Int = c.now()"]
    lines += ["resource module same(t: T): T", *[f"  effect E{e} = {{t.E{e}}}" for e in range(n)], f"  def f(): {{E{n - 1}}} Int = t.f()"]
    lines += ["resource module m(t: T): U", "  effect E = {t.E0}", "  def g(): {E} Int", *[f"    val v{call} = t.f()" for call in range(2000)], "    0"]
    return program(lines, "{}", ["()"])


def literals(n: int) -> str:
    """n object literals of 16 methods, each of which is called 8 times."""
    lines = ["type T", *[f"  def m{m}(): {{}} Int" for m in range(16)], "type U", "  def go(): {} Int", "plain module p(): U", "  def go(): Int"]
    for number in range(n):
        lines += [f"    val x{number} = new", *[f"      def m{m}(): Int = {m}" for m in range(16)]]
        lines += [f"    val y{number * 8 + call} = x{number}.m{call}()" for call in range(8)]
    return program(lines + ["    0"], "{}", ["()"])


def uses(n: int) -> str:
    """n pure modules, each of which uses all before it, and a program that uses the last."""
    lines = ["type T", "  def f(): {} Int"]
    for number in range(n):
        lines += [f"module p{number}: T", *[f"  use p{before}" for before in range(number)], f"  def f(): {{}} Int = {number}"]
    return program(lines, "{}", ["()"], [f"use p{n - 1}"])


def instances(n: int) -> str:
    """n instances of one module."""
    lines = ["type T", "  effect E", "  def f(): {E} Int", "resource module m(c: Clock): T", "  effect E = {c.Tick}", "  def f(): {E} Int = c.now()"]
    return program(lines, "{}", ["()"], ["grant c: Clock", *[f"instance x{number} = m(c)" for number in range(n)]])


def report(n: int) -> str:
    """n instances of a module of 128 methods, each of which may touch 63 grants with names of 64 letters."""
    grants = [f"g{'a' * 60}{number:03d}" for number in range(63)]
    lines = ["type T", "  effect E", *[f"  def m{m}(): {{E}} Int" for m in range(128)]]
    parameters = ", ".join(f"c{number}: Clock" for number in range(8))
    lines += ["type Clocks", "  effect E", "  def now(): {E} Int"]
    for module, size in (("many", 8), ("most", 8)):
        kind = "Clock" if module == "many" else "Clocks"
        member = "Tick" if module == "many" else "E"
        parameters = ", ".join(f"c{number}: {kind}" for number in range(size))
        lines += [f"resource module {module}({parameters}): {'Clocks' if module == 'many' else 'T'}"]
        lines += [f"  effect E = {{{', '.join(f'c{number}.{member}' for number in range(size))}}}"]
        if module == "many":
            lines += ["  def now(): {E} Int = c0.now()"]
        else:
            lines += [f"  def m{m}(): {{E}} Int = c0.now()" for m in range(128)]
    top = [f"grant {grant}: Clock" for grant in grants]
    for group in range(8):
        names = [grants[(group * 8 + number) % 63] for number in range(8)]
        top.append(f"instance h{group} = many({', '.join(names)})")
    top += [f"instance x{number} = most({', '.join(f'h{group}' for group in range(8))})" for number in range(n)]
    return program(lines, "{}", ["()"], top)


def methods(n: int) -> str:
    """255 modules of n methods."""
    lines = ["type T", *[f"  def m{m}(x: Int): {{}} Int" for m in range(n)]]
    for module in range(255):
        lines += [f"module p{module}: T", *[f"  def m{m}(x: Int): {{}} Int = x + {m}" for m in range(n)]]
    return program(lines, "{}", ["()"])


def recursion(n: int) -> str:
    """A method that calls itself twice, 2^n calls in all."""
    lines = ["type T", "  def go(n: Int): {} Int", "module m: T", "  def go(n: Int): {} Int = if n < 1 then 1 else this.go(n - 1) + this.go(n - 1)"]
    return program(lines, "{}", [f"val n = m.go({n - 1})", "()"], ["use m"])


def chain(n: int) -> str:
    """Sixteen methods, each of which calls the next, 2^n times."""
    names = [f"c{m}" for m in range(16)]
    lines = ["type T", "  def go(n: Int): {} Int", *[f"  def {name}(x: Int): {{}} Int" for name in names], "module m: T"]
    lines += [f"  def {name}(x: Int): {{}} Int = this.{after}(x)" for name, after in zip(names, names[1:])] + ["  def c15(x: Int): {} Int = x"]
    lines += ["  def go(n: Int): {} Int = if n < 1 then this.c0(1) else this.go(n - 1) + this.go(n - 1)"]
    return program(lines, "{}", [f"val n = m.go({n})", "()"], ["use m"])


def objects(n: int) -> str:
    """2^n objects, made and asked once each."""
    lines = ["type Box", "  def get(): {} Int", "type T", "  def go(n: Int): {} Int", "module m: T", "  def box(n: Int): {} Box", "    new", "      def get(): {} Int = n"]
    lines += ["  def go(n: Int): {} Int = if n < 1 then this.box(n).get() else this.go(n - 1) + this.go(n - 1)"]
    return program(lines, "{}", [f"val n = m.go({n})", "()"], ["use m"])


def texts(n: int) -> str:
    """2^n small texts."""
    lines = ["type T", "  def go(n: Int): {} Int", "module m: T", "  def go(n: Int): {} Int = if n < 1 then text_size(text_show(n)) else this.go(n - 1) + this.go(n - 1)"]
    return program(lines, "{}", [f"val n = m.go({n})", "()"], ["use m"])


def program(lines: list[str], effect: str, body: list[str], top: list[str] = ()) -> str:
    return "\n".join([*lines, "program", *[f"  {line}" for line in top], f"  run: {effect}", *[f"    {line}" for line in body]]) + "\n"


RUN = ["run", "--steps", "1000000000"]

KINDS = {
    "types_reached": (types_reached, ["check"], (255, 510, 1020)),
    "rings": (rings, ["check"], (100, 200, 400)),
    "atoms": (atoms, ["check"], (125, 250, 500)),
    "bounds": (bounds, ["check"], (128, 256, 511)),
    "literals": (literals, ["check"], (250, 500, 1000)),
    "uses": (uses, ["check"], (64, 128, 255)),
    "instances": (instances, ["check"], (127, 255, 511)),
    "methods": (methods, ["check"], (32, 64, 128)),
    "report": (report, ["authority"], (64, 128, 256)),
    "recursion": (recursion, RUN, (19, 21, 23)),
    "chain": (chain, RUN, (14, 16, 18)),
    "objects": (objects, RUN, (16, 18, 20)),
    "texts": (texts, RUN, (16, 18, 20)),
}


def files_of(text: str, room: str) -> list[str]:
    """Writes a program into as many files as the limits on a file ask for, cut before a type, a module or the program."""
    files, sofar = [], []

    def put() -> None:
        path = os.path.join(room, f"f{len(files)}.wy")
        with open(path, "w", encoding="utf-8") as it:
            it.write("\n".join(sofar) + "\n")
        files.append(path)
        sofar.clear()

    size = 0
    for line in text.splitlines():
        if size > 100_000 and line[:1].isalpha():
            put()
            size = 0
        sofar.append(line)
        size += len(line) + 1
    put()
    return files


def measured(words: list[str]) -> tuple[float, int, int]:
    """Processor seconds, the greatest memory in KiB, and the status of a call."""
    null = os.open(os.devnull, os.O_RDWR)
    pid = os.posix_spawn(WYVERN, [WYVERN, *words], os.environ, file_actions=[(os.POSIX_SPAWN_DUP2, null, fd) for fd in (0, 1, 2)])
    os.close(null)
    _, status, used = os.wait4(pid, 0)
    return used.ru_utime + used.ru_stime, used.ru_maxrss, os.waitstatus_to_exitcode(status)


def main() -> None:
    wanted = sys.argv[1:] or list(KINDS)
    print(f"{'kind':14} {'size':>6} {'lines':>8} {'seconds':>8} {'MB':>6} {'slope':>6}  status")
    for kind in wanted:
        make, words, sizes = KINDS[kind]
        before = None
        for size in sizes:
            with tempfile.TemporaryDirectory() as room:
                text = make(size)
                files = files_of(text, room)
                runs = [measured([*words, *files]) for _ in range(RUNS)]
            seconds, memory, status = min(runs)
            amount = 2**size if words is RUN else size
            slope = "" if before is None else f"{math.log(seconds / before[1]) / math.log(amount / before[0]):.2f}"
            print(f"{kind:14} {size:6} {text.count(chr(10)):8} {seconds:8.3f} {memory / 1024:6.1f} {slope:>6}  {status}", flush=True)
            before = (amount, seconds)


if __name__ == "__main__":
    main()
