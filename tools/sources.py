"""What the tools share on files of the language: words with their places, and what types, modules and the program declare.

It reads a file as far as it goes, whether or not `wyvern` accepts it. The program alone decides what a file means."""

import re
from typing import List, NamedTuple, Optional, Tuple

RESERVED = set(
    "type effect def module resource plain program grant use instance import at init val var run new if then else this true false main "
    "Int Bool String Unit text_size text_part text_code text_byte text_show".split()
)
PRIMITIVE = {
    "Console": ("In", "Out"),
    "Folder": ("Read", "Write", "Append", "List"),
    "Clock": ("Tick",),
    "Random": ("Draw",),
    "FullFolder": ("Read", "Write", "Append", "List", "Remove"),
}
PRIMITIVE_METHODS = {
    "Console": ("read(): {In} String", "write(t: String): {Out} Unit"),
    "Folder": (
        "read(n: String): {Read} String",
        "has(n: String): {Read} Bool",
        "write(n: String, t: String): {Write} Unit",
        "append(n: String, t: String): {Append} Unit",
        "names(): {List} String",
    ),
    "Clock": ("now(): {Tick} Int",),
    "Random": ("word(): {Draw} Int",),
    "FullFolder": ("remove(n: String): {Remove} Unit",),
}
# Spaces and comments, texts, numbers and symbols.
OTHER = re.compile(r'[ \t\r]+|//.*|"(?:[^"\\]|\\.)*"?|\d+|==|!=|<=|>=|\+\+|&&|\|\||.')


class Word(NamedTuple):
    text: str
    line: int
    # (of its first byte, from 1)
    column: int
    # (of its first character in the line, from 0)
    at: int

    def is_name(self):
        return self.text[0].isidentifier()


class Name(NamedTuple):
    """A parameter, a grant, or a `use`, `instance` or `import` line. `of` is its type or its module."""

    kind: str
    name: str
    of: str
    arguments: Tuple[str, ...]
    bound: Optional[str]
    file: str
    line: int
    column: int

    def text(self):
        if self.kind in ("parameter", "grant"):
            return f"{self.name}: {self.of}"
        if self.kind == "use":
            return f"use {self.name}"
        at = "" if self.bound is None else f" at {self.bound}"
        return f"{self.kind} {self.name} = {self.of}({', '.join(self.arguments)}){at}"


class Method(NamedTuple):
    name: str
    parameters: Tuple[str, ...]
    effect: Optional[str]
    result: str
    file: str
    line: int
    column: int
    # (whether it is of an object literal)
    is_inner: bool

    def text(self):
        effect = "" if self.effect is None else self.effect + " "
        return f"def {self.name}({', '.join(self.parameters)}): {effect}{self.result}"


class Item:
    """A type, a module or the program: its kind, name, type that it is sealed at, place, and what it declares."""

    def __init__(self, kind, name, sealed, file, line, column):
        self.kind, self.name, self.sealed = kind, name, sealed
        self.file, self.line, self.column = file, line, column
        self.names: List[Name] = []
        self.methods: List[Method] = []
        # (the words of each of its lines)
        self.lines: List[List[Word]] = []

    def find(self, name):
        return next((it for it in self.names if it.name == name), None)

    def members(self):
        """Returns the names of the effect members of a type, or of the definitions of a module."""
        return [it[1].text for it in self.lines if it[0].text == "effect" and len(it) > 1]

    def text(self):
        return "the program" if self.kind == "program" else f"{self.kind} {self.name}"


def text_of(name):
    """Returns the text of a file, or None if it cannot be read. Bytes that are not UTF-8 are kept as surrogates."""
    try:
        with open(name, encoding="utf-8", errors="surrogateescape", newline="\n") as it:
            return it.read()
    except OSError:
        return None


def byte_length(text):
    return len(text.encode("utf-8", "surrogateescape"))


def shown_text(text):
    return text.encode("utf-8", "surrogateescape").decode("utf-8", "replace")


def parts_at(line, column):
    """Returns what a line has before the byte of a column, and from it on."""
    before = line.encode("utf-8", "surrogateescape")[: column - 1].decode("utf-8", "surrogateescape")
    return before, line[len(before) :]


def word_at(rest):
    """Returns the word that a text begins with."""
    if rest and rest[0].isidentifier():
        return rest[: end_of_name(rest, 0)]
    found = re.match(r'"|\d+|==|!=|<=|>=|\+\+|&&|\|\||\S', rest)
    return found[0] if found else ""


def end_of_name(line, at):
    while at < len(line) and ("a" + line[at]).isidentifier():
        at += 1
    return at


def words_of_line(line, number):
    """Returns the words of one line, without comments."""
    words, at, column = [], 0, 1
    while at < len(line):
        if line[at].isidentifier():
            end = end_of_name(line, at)
        else:
            end = OTHER.match(line, at).end()
        text = line[at:end]
        if text.strip() and not text.startswith("//"):
            words.append(Word(text, number, column, at))
        at, column = end, column + byte_length(text)
    return words


def lines_of(text):
    """Returns the words of each line of a text that has words."""
    each = (words_of_line(line, number) for number, line in enumerate(text.split("\n"), 1))
    return [it for it in each if it]


def split(words, separator=","):
    """Parts words at a separator that no bracket contains."""
    parts, depth = [[]], 0
    for word in words:
        depth += (word.text in ("(", "[", "{")) - (word.text in (")", "]", "}"))
        if word.text == separator and depth == 0:
            parts.append([])
        else:
            parts[-1].append(word)
    return [it for it in parts if it]


def closing(words, at):
    """Returns the number of the word that closes the bracket at a number, or the number of words."""
    depth = 0
    for number in range(at, len(words)):
        depth += (words[number].text in ("(", "[", "{")) - (words[number].text in (")", "]", "}"))
        if depth == 0:
            return number
    return len(words)


def joined(words):
    """Writes words as `wyvern format` does, as far as types, sets and arguments need it."""
    made = ""
    for before, word in zip([None, *words], words):
        is_tight = word.text in (",", ".", ")", "]", "}", ":", "[", "(") or (before and before.text in ("(", "[", "{", "."))
        made += word.text if not made or is_tight else " " + word.text
    return made


def texts_of(words):
    return [it.text for it in words]


def line_name(words, file):
    """Returns the name that a line of a module or of the program makes, or None."""
    said = texts_of(words)
    if said[0] == "grant" and said[2:3] == [":"]:
        return Name("grant", said[1], joined(words[3:]), (), None, file, words[1].line, words[1].column)
    if said[0] == "use" and len(said) > 1:
        return Name("use", said[1], said[1], (), None, file, words[1].line, words[1].column)
    if said[0] in ("instance", "import") and said[2:3] == ["="] and said[4:5] == ["("]:
        end = closing(words, 4)
        arguments = tuple(joined(it) for it in split(words[5:end]))
        bound = joined(words[end + 2 :]) if said[end + 1 : end + 2] == ["at"] else None
        return Name(said[0], said[1], said[3], arguments, bound, file, words[1].line, words[1].column)
    return None


def method_of(words, file, is_inner=False):
    """Returns the method whose signature begins a line, or None."""
    if [words[0].text, *texts_of(words)[2:3]] != ["def", "("]:
        return None
    end = closing(words, 2)
    rest = words[end + 2 :]
    effect = None
    if texts_of(rest)[:1] == ["{"]:
        close = closing(rest, 0)
        effect, rest = joined(rest[: close + 1]), rest[close + 1 :]
    result = (split(rest, "=") or [[]])[0]
    parameters = tuple(joined(it) for it in split(words[3:end]))
    return Method(words[1].text, parameters, effect, joined(result), file, words[0].line, words[0].column, is_inner)


def header_of(words, file):
    """Returns the item that a line begins, or None."""
    said = texts_of(words)
    line, column = words[0].line, words[0].column
    if said[0] == "type" and len(said) > 1:
        return Item("type", said[1], "", file, line, words[1].column)
    if said == ["program"]:
        return Item("program", "", "", file, line, column)
    at = 1 if said[0] in ("resource", "plain") else 0
    if said[at : at + 1] != ["module"] or len(said) < at + 2:
        return None
    end = closing(words, at + 2) if said[at + 2 : at + 3] == ["("] else at + 1
    item = Item(" ".join(said[: at + 1]), said[at + 1], joined(words[end + 2 :]), file, line, words[at + 1].column)
    for part in split(words[at + 3 : end]):
        if len(part) > 2:
            item.names.append(Name("parameter", part[0].text, joined(part[2:]), (), None, file, part[0].line, part[0].column))
    return item


def items_of(texts):
    """Returns the types, modules and program blocks of some texts by their files' names, in their order."""
    items = []
    for file, text in texts.items():
        item, width = None, None
        for words in lines_of(text):
            header = header_of(words, file)
            if header:
                item, width = header, None
                items.append(item)
                item.lines.append(words)
            elif item:
                width = words[0].at if width is None else width
                item.lines.append(words)
                is_inner = words[0].at > width
                name = None if is_inner else line_name(words, file)
                method = method_of(words, file, is_inner)
                item.names += [name] if name else []
                item.methods += [method] if method else []
    return items
