"""What the tools share on reports of `wyvern authority`: reading one, and refusing what is not a whole one."""

import re
import sys

from project import stop

ATOM = r"[^\s.,:]+\.[^\s.,:]+"
SET = rf"(-|{ATOM}(?:, {ATOM})*)"
INSTANCE = re.compile(rf"authority of ((?:pure )?[^\s:]+): {SET}\n")
BODY = re.compile(rf"  ([^\s:]+): {SET}\n")


def lines_of(name):
    try:
        if name == "-":
            return sys.stdin.readlines()
        with open(name, encoding="utf-8", newline="") as it:
            return it.readlines()
    except OSError as error:
        stop(f"{name}: not read: {error.strerror}")
    except UnicodeDecodeError:
        stop(f"{name}: not read: it is not UTF-8")


def report_of(name):
    """Returns the sets of a report by instance and then by body, where the body "" is the whole instance.

    A report that was cut would look as if it allowed less, so it ends the tool with status 2."""
    report, instance, body = {}, None, None
    for number, line in enumerate(lines_of(name), 1):
        head, part = INSTANCE.fullmatch(line), BODY.fullmatch(line)
        if head:
            instance, body = head[1], ""
        elif part and instance:
            body = part[1]
        else:
            stop(f"{name}:{number}: not a line of a report: {line.rstrip()}")
        bodies = report.setdefault(instance, {})
        if body in bodies:
            stop(f"{name}:{number}: said twice: {line.rstrip()}")
        said = (head or part)[2]
        bodies[body] = [] if said == "-" else said.split(", ")
    if (instance, body) != ("main", "run"):
        stop(f"{name}: not a whole report: it does not end with what main may do")
    return report
