"""Reads the public items of a crate from the sources in its folder src/: functions, structs, enums, traits, types and constants, with
their doc comments, their signatures and their clauses."""

import collections
import glob
import os
import re

# `owner` is the type of a method, or "". `text` is the declaration as it is in the source, without a function's body and without
# private fields. `home` is the item's own module; `module` is the one that exports it.
Item = collections.namedtuple("Item", "kind name owner home module doc text")
# A module of a crate: its path with `::`, "" for that of the crate itself; the doc comment of the module; its items.
Module = collections.namedtuple("Module", "path doc items")

START = re.compile(r"( *)pub (?:const (?=fn))?(fn|struct|enum|trait|type|const|static) (\w+)")
IMPL = re.compile(r"impl\b(?:<[^{]*?>)? (?:[^{]* for )?(\w+)")
USE = re.compile(r"^pub use ([^;]*);", re.M)
PUBLIC_MODULE = re.compile(r"^pub mod (\w+);", re.M)
ANY_MODULE = re.compile(r"^(?:pub(?:\(crate\))? )?mod (\w+);", re.M)


def text_of(path):
    with open(path, encoding="utf-8") as it:
        return it.read()


def leaves(use):
    """Yields each path of a `use`, as a list of its words: `a::{b, c::d}` has `a b` and `a c d`."""
    use = " ".join(use.split())
    head, brace, rest = use.partition("{")
    words = [it for it in head.strip().split("::") if it]
    if not brace:
        yield words
        return
    depth, part = 0, ""
    for sign in rest:
        if sign == "," and not depth or sign == "}" and not depth:
            if part.strip():
                yield from (words + it for it in leaves(part))
            part = ""
            continue
        depth += (sign == "{") - (sign == "}")
        part += sign


def doc_above(lines, at):
    """Returns the doc comment above a line, without its marks. Attributes may be between them."""
    found = []
    while at and lines[at - 1].strip().startswith(("///", "#[")):
        at -= 1
        line = lines[at].strip()
        if line.startswith("///"):
            found.append(line[4:])
    return "\n".join(reversed(found))


def function_end(lines, at, indent):
    """Returns the lines of a function from its first one to the last of its clauses."""
    taken = []
    for line in lines[at:]:
        if line in (indent + "{", indent + "{}"):
            break
        taken.append(line)
        if line.endswith("{") and (len(taken) == 1 or line.startswith(indent + ")")):
            taken[-1] = line[:-2]
            break
    return taken


def block_end(lines, at, indent):
    """Returns the lines of a struct, an enum or a trait, to its closing brace or its semicolon."""
    if lines[at].endswith((";", "}")):
        return [lines[at]]
    taken = [lines[at]]
    for line in lines[at + 1:]:
        taken.append(line)
        if line.startswith((indent + "}", indent + ");")):
            break
    return taken


def without_private(lines):
    """Returns a struct without its private fields, and says so."""
    if len(lines) < 3 or not lines[-1].strip().startswith("}"):
        return lines
    kept, doc, hidden = [lines[0]], [], False
    for line in lines[1:-1]:
        if line.strip().startswith(("///", "#[")):
            doc.append(line)
        elif line.strip().startswith("pub ") or line.startswith("        ") and kept[1:] and not hidden:
            kept += doc + [line]
            doc = []
        else:
            hidden, doc = True, []
    indent = " " * (len(lines[0]) - len(lines[0].lstrip()) + 4)
    return kept + ([indent + "// private fields"] if hidden else []) + [lines[-1]]


def items_of(lines, module):
    """Yields the items of a file that are declared `pub`, and the methods of its types."""
    owner = ""
    for at, line in enumerate(lines):
        if line.startswith("impl"):
            found = IMPL.match(" ".join(lines[at:at + 3]))
            owner = found[1] if found else ""
        elif line.startswith("}"):
            owner = ""
        found = START.match(line)
        if not found:
            continue
        indent, kind, name = found.groups()
        if kind == "fn":
            taken = function_end(lines, at, indent)
        elif kind in ("type", "const", "static"):
            taken = [line if line.endswith(";") else line.partition(" =")[0]]
        else:
            taken = block_end(lines, at, indent)
            taken = without_private(taken) if kind == "struct" else taken
        text = "\n".join(it[len(indent):].rstrip() for it in taken)
        yield Item(kind, name, owner if indent else "", module, module, doc_above(lines, at), text)


def modules_of(folder):
    """Returns the modules of a crate whose folder is given that have public items, in the order of their paths.

    An item is public if its module is, or if a `pub use` names it. A method is public if its type is.
    """
    root = os.path.join(folder, "src", "lib.rt")
    if not os.path.exists(root):
        return []
    files = {}
    for path in sorted(glob.glob(os.path.join(folder, "src", "**", "*.rt"), recursive=True)):
        name = os.path.relpath(path, os.path.join(folder, "src"))[: -len(".rt")]
        files["" if name == "lib" else name.replace(os.sep, "::")] = text_of(path)
    public = {""}
    for name in sorted(files):
        public |= {(name + "::" + it).strip(":") for it in PUBLIC_MODULE.findall(files[name]) if name in public}
    exports = {}
    for name in sorted(public & set(files)):
        for use in USE.findall(files[name]):
            for words in leaves(use):
                words = [it for it in words if it not in ("crate", "self")]
                exports[(name + "::" if name and words[0] not in files else "") + "::".join(words)] = name
    made = {it: [] for it in public}
    for name in sorted(files):
        text = files[name]
        for item in items_of(text.split("\n"), name):
            path = "::".join(it for it in (name, item.owner or item.name) if it)
            if path in exports:
                made[exports[path]].append(item._replace(module=exports[path]))
            elif name in public:
                made[name].append(item)
    docs = {it: "\n".join(line[3:].strip() for line in files[it].split("\n") if line.startswith("//!")) for it in made if it in files}
    return [Module(it, docs.get(it, ""), made[it]) for it in sorted(made) if made[it]]


def other_crates_uses(folder):
    """Returns the paths of other crates that lib.rt of a crate exports again, as `wy_machine::devices`."""
    root = os.path.join(folder, "src", "lib.rt")
    if not os.path.exists(root):
        return []
    text = text_of(root)
    own = set(ANY_MODULE.findall(text))
    paths = [words for use in USE.findall(text) for words in leaves(use)]
    return ["::".join(it) for it in paths if it[0] not in own | {"crate", "self"}]
