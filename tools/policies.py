"""What the tools share on policies: which rule a line of a policy breaks (docs/LANGUAGE.md, "Policies")."""

import re

NAME = r"(?:[^\W\d]|_)\w*"
ENTRY = re.compile(rf"{NAME}\.(?:\*|{NAME})")


def bad_row(line):
    """Says which rule of policies a line breaks (docs/LANGUAGE.md, "Policies")."""
    if line.lstrip(" ").startswith("//"):
        return "a comment begins at the first byte of its line: take the spaces before `//` out"
    if "\t" in line:
        return "a tab stands in the line: a row has single spaces"
    pattern, colon, rest = line.partition(":")
    if not colon:
        return "a row is `PATTERN: SET`, and the line has no colon"
    if "*" in pattern[:-1]:
        return "a pattern has `*` only at its end"
    if not pattern:
        return "the pattern before the colon is empty: `*: -` is a row for all others"
    if not rest.strip():
        return "the set is missing: an empty set is `-`"
    if not rest.startswith(" ") or rest.startswith("  "):
        return "one space follows the colon"
    said = rest[1:]
    if said != said.rstrip(" "):
        return "the line ends with a space"
    if "//" in said:
        return "a comment is a line of its own: it cannot follow a row"
    return bad_set(said)


def bad_set(said):
    """Says why a text is not a set of a policy."""
    if any("\udc80" <= it <= "\udcff" for it in said):
        return "a grant or a member has bytes that are not UTF-8"
    if said.startswith("{"):
        return "a set has no braces here: it is `-`, or entries with `, ` between"
    for entry in said.split(","):
        if not entry.strip():
            return "an entry between two commas, or behind the last one, is empty"
        name = entry.strip(" ")
        if name == "*":
            return "`*` by itself is not an entry: each grant is named, as `disk.*`"
        if name == "-":
            return "`-` is the empty set, and stands alone"
        if "." not in name:
            return f"`{name}` is not an entry: one is GRANT.MEMBER or GRANT.*"
        if not ENTRY.fullmatch(name):
            return f"`{name}` is not an entry: GRANT and MEMBER are names, and only the member may be `*`"
    if re.search(r" ,|,(?! )|,  ", said):
        return "exactly one space follows each comma, and none stands before it"
    return "the line has a character that a row cannot have"
