#!/usr/bin/env python3
"""Writes large and hostile images, verifies each with the proved verifier, and prints its bytes, seconds and memory.

    IMAGES=/path/to/wy_image_tests python3 bench/large_images.py              each kind at its greatest size
    IMAGES=/path/to/wy_image_tests python3 bench/large_images.py rings 1000   one kind, of this size
"""

import os
import subprocess
import sys
import tempfile
from types import SimpleNamespace as Parts

sys.path.insert(0, os.path.join(os.path.dirname(os.path.dirname(os.path.abspath(__file__))), "tools"))
from images import encode  # noqa: E402

PROGRAM = os.environ.get("IMAGES") or "crates/wy_image_tests/out/wy_image_tests"
UNIT = ("Unit",)


def row(*instruction):
    return Parts(instruction=instruction, file=1, line=1, column=1)


def bounds(body, name, **more):
    stated = {"effect": [], "parameters": [], "result": UNIT, "vals": [], "targets": []}
    return Parts(body=body, name=name, **(stated | more))


def typing(bodies, **more):
    return Parts(**({"values": [], "literals": [], "bodies": bodies} | more))


def scope(first, **more):
    return Parts(**({"arguments": 0, "first": first, "fields": 0, "entries": [], "literals": []} | more))


END = [row("Push", UNIT), row("Finish")]


def image(rows=END, slots=8, more=None, **parts):
    """Returns an image of a program whose `run` has these rows. `more` are further parts of what is stated of it."""
    made = {
        "files": [b"a.wy"], "grants": [], "methods": [], "types": [], "bodies": [Parts(parameters=0, slots=slots, rows=rows)],
        "scopes": [scope(0)], "instances": [], "main": Parts(scope=0, typing=typing([bounds(0, b"run", **(more or {}))])),
    }
    return Parts(**(made | parts))


def rows(size):
    """A body of `size` instructions."""
    return image([row("Push", UNIT), row("Drop")] * (size // 2) + END)


def texts(size):
    """`size` different constant texts."""
    return image([it for at in range(size) for it in (row("Push", ("String", b"%x" % at)), row("Drop"))] + END)


def jumps(size):
    """`size` jumps, each to a stated target with 200 operands."""
    body, targets = [row("Push", UNIT)] * 200, []
    for _ in range(size):
        body += [row("Push", ("Bool", ("true",))), row("JumpFalse", len(body) + 2)]
        targets.append(Parts(address=len(body), operands=[UNIT] * 200, stored=[]))
    return image(body + [row("Drop")] * 199 + [row("Finish")], slots=256, more={"targets": targets})


def bodies(size):
    """A module of `size` methods, each of ten instructions, and one instance of it."""
    made = [Parts(parameters=0, slots=8, rows=[row("Push", UNIT), row("Drop")] * 4 + [row("Push", UNIT), row("Return")]) for _ in range(size)]
    first = [Parts(parameters=0, slots=8, rows=[row("Finish")]), Parts(parameters=0, slots=8, rows=END)]
    stated = [bounds(0, b"init")] + [bounds(2 + at, b"m%d" % at) for at in range(size)]
    return image(
        methods=[b"m%d" % at for at in range(size)], bodies=first + made,
        scopes=[scope(0, entries=[Parts(method=at, body=2 + at) for at in range(size)]), scope(1)],
        instances=[Parts(name=b"a", scope=0, arguments=[], typing=typing(stated))],
        main=Parts(scope=1, typing=typing([bounds(1, b"run")])),
    )


def instances(size):
    """A module whose `init` has `size` instructions, and 1,024 instances of it."""
    first = [Parts(parameters=0, slots=8, rows=[row("Push", UNIT), row("Drop")] * (size // 2) + [row("Finish")]), Parts(parameters=0, slots=8, rows=END)]
    return image(
        bodies=first, scopes=[scope(0), scope(1)],
        instances=[Parts(name=b"a%d" % at, scope=0, arguments=[], typing=typing([bounds(0, b"init")])) for at in range(1024)],
        main=Parts(scope=1, typing=typing([bounds(1, b"run")])),
    )


def signature(method, result):
    return Parts(method=method, parameters=[], effect=[], result=result)


def asking(types, left, right, methods):
    """An image whose module has a method that returns its parameter of a listed type as another one."""
    first = [
        Parts(parameters=0, slots=8, rows=[row("Finish")]), Parts(parameters=0, slots=8, rows=END),
        Parts(parameters=1, slots=8, rows=[row("Load", 1), row("Return")]),
    ]
    stated = [bounds(0, b"init"), bounds(2, b"m", parameters=[("Listed", left)], result=("Listed", right))]
    return image(
        methods=methods, types=types, bodies=first, scopes=[scope(0, entries=[Parts(method=0, body=2)]), scope(1)],
        instances=[Parts(name=b"a", scope=0, arguments=[], typing=typing(stated))],
        main=Parts(scope=1, typing=typing([bounds(1, b"run")])),
    )


def rings(size):
    """Two rings of listed types, of `size` and `size + 1` types."""
    types = [[signature(0, ("Listed", (at + 1) % size))] for at in range(size)]
    types += [[signature(0, ("Listed", size + (at + 1) % (size + 1)))] for at in range(size + 1)]
    return asking(types, 0, size, [b"m"])


def methods(size):
    """Two listed types of `size` methods, one asked for the other, and both again as the results of all methods."""
    types = [[signature(at, ("Listed", 0)) for at in range(size)], [signature(at, ("Listed", 1)) for at in range(size)]]
    return asking(types, 0, 1, [b"m%d" % at for at in range(size)])


def stored(size):
    """A body with targets that state one stored slot `size` times."""
    body = [row("Push", UNIT), row("Store", 1)]
    for _ in range(100):
        body += [row("Push", ("Bool", ("true",))), row("JumpFalse", len(body) + 2)]
    targets = [Parts(address=4 + 2 * at, operands=[], stored=[1] * (size // 100)) for at in range(100)]
    return image(body + END, more={"vals": [UNIT], "targets": targets})


# Each kind, and its greatest size: the image is then of about 16 MiB, or at a limit, or of 1 MB.
KINDS = {
    "rows": (rows, 1_200_000), "texts": (texts, 400_000), "jumps": (jumps, 60_000), "bodies": (bodies, 16_382), "instances": (instances, 1_200_000),
    "methods": (methods, 1_000), "stored": (stored, 4_000_000), "rings": (rings, 500),
}


def measured(name, size):
    """Prints what verifying an image of a kind takes."""
    with tempfile.TemporaryDirectory() as folder:
        data = encode(KINDS[name][0](size))
        with open(os.path.join(folder, "a.img"), "wb") as it:
            it.write(data)
        script = "import resource, subprocess, sys; subprocess.run(sys.argv[1:]); u = resource.getrusage(resource.RUSAGE_CHILDREN); print(u.ru_utime + u.ru_stime, u.ru_maxrss)"
        ran = subprocess.run([sys.executable, "-c", script, os.path.abspath(PROGRAM), "verdicts", "a.img"], cwd=folder, capture_output=True, text=True, check=False)
    lines = ran.stdout.splitlines()
    seconds, memory = lines[-1].split()
    print(f"{name:10} {size:10} {len(data):10} bytes {float(seconds):8.3f} s {int(memory) / 1024:8.1f} MB  {lines[0]}", flush=True)


def main():
    words = sys.argv[1:]
    if len(words) == 2:
        measured(words[0], int(words[1]))
        return
    for name in words or KINDS:
        measured(name, KINDS[name][1])


if __name__ == "__main__":
    main()
