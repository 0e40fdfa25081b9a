#!/usr/bin/env python3
"""Writes a program whose one module asks the same question of subtyping at each of many calls.

    python3 bench/asked_again.py 500 30000 > /tmp/asked.wy
    time wyvern check /tmp/asked.wy

The numbers are those of the types in each of two rings, and of the calls, which hand an object of the first type of one ring where the
first of the other is expected. The first question unfolds as many pairs as a ring has types, and the others none.
"""

import sys


def ring(letter, count):
    for at in range(1, count + 1):
        yield f"type {letter}{at}"
        yield f"  def next(): {{}} {letter}{at % count + 1}"


def program(types, calls):
    yield from ring("A", types)
    yield from ring("B", types)
    yield "type Take"
    yield "  def take(a: A1): {} Unit"
    yield "resource module take(b: B1): Take"
    yield "  def take(a: A1): {} Unit = ()"
    yield "  def all(): {} Unit"
    for _ in range(calls):
        yield "    this.take(b)"
    yield "program"
    yield "  run: {}"
    yield "    ()"


if __name__ == "__main__":
    print("\n".join(program(int(sys.argv[1]), int(sys.argv[2]))))
