"""What the tools share on last lines of `wyvern`: the place, the paragraph of docs/MESSAGES.md, and what the files say at the place."""

import difflib
import re

from causes import hint
from certificates import RULES, scopes_of
from policies import bad_row
from project import page
from sources import PRIMITIVE, PRIMITIVE_METHODS, RESERVED, closing, items_of, joined, parts_at, shown_text, split, text_of
from sources import word_at, words_of_line

COMMANDS = {
    "check": "FILE...: accepts the program, or names the first place that breaks a rule",
    "authority": "FILE...: prints what each part of the program may do",
    "run": "FILE...: checks, prints that report to standard error, and runs",
    "trace": "FILE...: runs, and prints each call and each operation",
    "policy": "POLICY FILE...: checks what each part may do against a policy",
    "observe": "FILE...: runs, and prints what each part did",
    "certify": "FILE...: prints a certificate that the program is accepted",
    "recheck": "CERTIFICATE FILE...: checks a certificate",
    "format": "FILE: prints the canonical form of a file, without its comments",
    "sample": "NUMBER: makes a program of that many modules, and runs it",
}
PLACE = re.compile(r"(.+):(\d+):(\d+): (?:syntax: (\w+)|refused: (\S+ premise \d).*|trap: (\w+))")
BY_STATUS = {1: "usage", 2: "unread", 7: "too deep", 8: "spent", 9: "failed", 10: "unwritten", 11: "no memory"}
BY_STATUS.update({14: "bad certificate", 15: "unproved", 16: "denied", 17: "bad policy"})
# (how like a name has to be, for a misspelt one)
NEAR = 0.65
# (line rules, and I-Import, which speak of arguments)
OF_ARGUMENTS = re.compile(r"(?:M-Inst premise [2345]|M-Import premise 2|I-Import premise [123])")


def commands():
    """Returns a line for each command."""
    return [f"  {name} {said}" for name, said in COMMANDS.items()]


def heading_of(status, last):
    """Returns the heading of docs/MESSAGES.md for a last line, or the empty text."""
    place, limit = PLACE.fullmatch(last), re.fullmatch(r"(limit: .+) \d+", last)
    if place:
        return place[4] or place[5] or place[6]
    return limit[1] if limit else BY_STATUS.get(status, "")


def paragraph(heading):
    """Returns what docs/MESSAGES.md says under a heading, up to its example."""
    for entry in re.split(r"^### ", page("MESSAGES.md"), flags=re.M)[1:]:
        title, _, body = entry.partition("\n")
        if heading in title.split(", "):
            return re.split(r"^(?:```|## )", body, flags=re.M)[0].strip()
    return ""


def files_of(words):
    """Returns the file arguments of a call: its words without the command and the options."""
    files, words = [], list(words[1:])
    while words:
        word = words.pop(0)
        if word == "--":
            return files + words
        if word in ("--steps", "--depth", "--folder"):
            words = words[1:]
        elif not word.startswith("--"):
            files.append(word)
    return files


class Call:
    """A call of `wyvern` that failed, with the files that it was given."""

    def __init__(self, words, status, last):
        self.command = words[0] if words else ""
        files = files_of(words)
        has_first = self.command in ("policy", "recheck")
        self.first = files[0] if has_first and files else None
        self.files = files[1:] if has_first else files
        self.status, self.last = status, last
        self.heading = heading_of(status, last)
        self.place = PLACE.fullmatch(last)
        self.kept = None

    def items(self):
        """Returns the items of the files, read once."""
        if self.kept is None:
            texts = {it: text_of(it) for it in self.files}
            self.kept = items_of({it: text for it, text in texts.items() if text is not None})
        return self.kept

    def item_at(self, file, line):
        """Returns the item that contains a line of a file, or None."""
        return next((it for it in reversed(self.items()) if it.file == file and it.line <= line), None)

    def module(self, name):
        return next((it for it in self.items() if it.name == name and it.kind.endswith("module")), None)

    def type(self, name):
        return next((it for it in self.items() if it.name == name and it.kind == "type"), None)


# ----------------------------------------------------------------------------
# Excerpts


def excerpt(file, line, column=None):
    """Returns the line of a file and the one before it, with a caret below the byte of the column."""
    text = text_of(file)
    lines = text.split("\n") if text is not None else []
    if not 1 <= line <= len(lines):
        return []
    shown = [f"{at:5} | {shown_text(lines[at - 1])}" for at in (line - 1, line) if at]
    if column is None:
        return shown[-1:]
    return [*shown, "      | " + re.sub(r"[^\t]", " ", parts_at(lines[line - 1], column)[0]) + "^"]


def place_of(it):
    return f"{it.file}:{it.line}:{it.column}"


# ----------------------------------------------------------------------------
# Names and types


def declarations(call, word, file, line):
    """Returns the places that declare a word of N-Twice: all types and modules of the name, or those of the item at the place."""
    items = call.items()
    at = call.item_at(file, line)
    if at and at.line == line and at.name == word:
        same = [it for it in items if it.name == word and (it.kind == "type") == (at.kind == "type")]
        given = [f"{word} is a primitive type"] if word in PRIMITIVE and at.kind == "type" else []
        return given + [f"{place_of(it)}: {it.text()}" for it in same]
    told = []
    for words in at.lines if at else []:
        said = [it.text for it in words]
        for number, it in enumerate(words):
            before = said[number - 1] if number else ""
            is_parameter = before in ("(", ",") and said[number + 1 : number + 2] == [":"]
            if it.text == word and (before in ("def", "val", "var", "effect", "grant", "use", "instance", "import") or is_parameter):
                told.append(f"{at.file}:{it.line}:{it.column}: {joined(words)}")
    return told


def of_twice(call, file, line, column):
    word = word_at(parts_at((text_of(file) or "").split("\n")[line - 1], column)[1])
    places = declarations(call, word, file, line)
    return [f"`{word}` is declared here:", *(f"  {it}" for it in places)] if len(places) > 1 else []


def of_unknown(call, file, line, column):
    """Names what is declared and looks most like a word that is not."""
    word = word_at(parts_at((text_of(file) or "").split("\n")[line - 1], column)[1])
    item = call.item_at(file, line)
    known = [it.name for it in call.items() if it.name] + list(PRIMITIVE)
    if call.heading == "T-Call premise 2":
        known = [method.name for it in call.items() for method in it.methods]
        known += [it.partition("(")[0] for each in PRIMITIVE_METHODS.values() for it in each]
    elif call.heading == "N-MemberUnknown premise 1":
        known = [member for it in call.items() for member in it.members()] + [it for each in PRIMITIVE.values() for it in each]
    elif item:
        known += [it.name for it in item.names] + item.members() + values_of(item)
    near = difflib.get_close_matches(word, [it for it in known if it != word], 1, NEAR)
    return [f"the nearest name is `{near[0]}`"] if near else []


def values_of(item):
    """Returns the names of the `val`s, `var`s and parameters that are declared in an item."""
    names = []
    for words in item.lines:
        said = [it.text for it in words]
        for number, name in enumerate(said[1:], 1):
            before, after = said[number - 1], said[number + 1 : number + 2]
            if before in ("val", "var") or (before in ("(", ",") and after == [":"]):
                names.append(name)
    return names


def type_of(call, scope, name):
    """Says what a name of a scope is."""
    it = scope.find(name)
    if not it:
        return "no name of this scope"
    if it.kind in ("grant", "parameter"):
        return f"{it.of}, a {it.kind}"
    module = call.module(it.of)
    sealed = module.sealed if module else "?"
    if it.kind == "import":
        return f"{sealed} at {it.bound}, an import of {it.of}"
    return f"{sealed}, a used module" if it.kind == "use" else f"{sealed}, an instance of {it.of}"


def of_line(call, file, line):
    """Numbers the arguments of an `instance` or `import` line, each beside its parameter."""
    scope = call.item_at(file, line)
    made = next((it for it in scope.names if it.line == line and it.kind in ("instance", "import")), None) if scope else None
    module = call.module(made.of) if made else None
    if not module:
        return []
    parameters = [it for it in module.names if it.kind == "parameter"]
    told = [f"{module.text()} takes {counted(len(parameters), 'argument')}, and the line gives {len(made.arguments)}:"]
    for number in range(max(len(parameters), len(made.arguments))):
        wanted = parameters[number].text() if number < len(parameters) else "no parameter"
        if number < len(made.arguments):
            name = made.arguments[number]
            lacking = lacking_of(call, scope, name, parameters[number : number + 1]) if call.heading == "M-Inst premise 3" else ""
            told.append(f"  {number + 1}. {name} ({type_of(call, scope, name)}) for {wanted}{lacking}")
            if call.heading in ("M-Inst premise 4", "I-Import premise 3"):
                told += differing(call, scope, name, parameters[number : number + 1])
        else:
            told.append(f"  {number + 1}. nothing for {wanted}")
    return told + (of_bound(scope, made, call.last) if call.heading == "I-Import premise 1" else [])


def of_bound(scope, made, last):
    """Says which arguments of an `import` line may do what its bound does not allow."""
    effect = last.rpartition(" lacks ")[2]
    owner, found = effect.partition(".")[0], []
    for number, name in enumerate(made.arguments, 1):
        it = scope.find(name)
        bound = it.bound or "" if it and it.kind == "import" else ""
        if name == owner or effect in re.split(r"[{}, ]+", bound):
            found.append(f"argument {number} ({name})")
    return [f"{' and '.join(found)} may do {effect}, which the bound {made.bound} does not allow"] if found else []


def declared_type(call, scope, name):
    """Returns the declared type that a name of a scope has, or None."""
    it = scope.find(name)
    module = call.module(it.of) if it and it.kind in ("instance", "use", "import") else None
    return call.type(module.sealed if module else it.of.partition("[")[0].partition(" at ")[0] if it else "")


def differing(call, scope, name, parameters):
    """Shows the methods of a parameter's type that the type of an argument has otherwise, or not at all."""
    has = declared_type(call, scope, name)
    wants = call.type(parameters[0].of.partition("[")[0].partition(" at ")[0]) if parameters else None
    if not has or not wants or has.name == wants.name:
        return []
    own, told = {it.name: it for it in has.methods}, []
    for method in wants.methods:
        if method.name not in own:
            told.append(f"     {wants.name} has {method.text()}, and {has.name} has no such method")
        elif shape(own[method.name]) != shape(method):
            told.append(f"     {wants.name} has {method.text()}, and {has.name} has {own[method.name].text()}")
    return told


def members_of(call, name):
    """Returns the effect members of a type by its name, or None."""
    declared = call.type(name)
    return declared.members() if declared else PRIMITIVE.get(name)


def lacking_of(call, scope, name, parameters):
    """Says which effect members of a parameter's type the type of an argument lacks."""
    it = scope.find(name)
    module = call.module(it.of) if it and it.kind in ("instance", "use") else None
    has = members_of(call, module.sealed if module else it.of if it else "")
    wants = members_of(call, parameters[0].of) if parameters else None
    missing = [it for it in wants or () if it not in (has or ())]
    return f": it has no effect member {', '.join(missing)}" if has is not None and missing else ""


def counted(number, what):
    return f"{number} {what}" if number == 1 else f"{number} {what}s"


def of_call(call, file, line, column):
    """Numbers the arguments of a call, and shows each method of its name."""
    words = words_of_line((text_of(file) or "").split("\n")[line - 1], line)
    at = next((number for number, it in enumerate(words) if it.column == column), None)
    if at is None:
        return []
    name = words[at].text
    arguments = split(words[at + 2 : closing(words, at + 1)]) if at + 1 < len(words) else []
    told = [f"the call of `{name}` has {counted(len(arguments), 'argument')}:"]
    told += [f"  {number}. {joined(it)}" for number, it in enumerate(arguments, 1)]
    methods = [f"  {place_of(it)}: {it.text()}, of {item.text()}" for item in call.items() for it in item.methods if it.name == name]
    methods += [f"  def {it}, of {kind}" for kind, each in PRIMITIVE_METHODS.items() for it in each if it.startswith(name + "(")]
    return told + (["methods of this name:", *methods] if methods else [])


def of_operation(call, file, line, column):
    """Says which operand of an operation has another type."""
    words = words_of_line((text_of(file) or "").split("\n")[line - 1], line)
    at = next((number for number, it in enumerate(words) if it.column == column), None)
    if at is None:
        return []
    name, number = words[at].text, int(call.heading[-1])
    if name.startswith("text_"):
        operands = split(words[at + 2 : closing(words, at + 1)])
        return [f"operand {number} of `{name}` is {joined(operands[number - 1])}"] if number <= len(operands) else []
    is_unary = at == 0 or not re.search(r'[\w)"]$', words[at - 1].text) or words[at - 1].text in RESERVED - {"this", "true", "false"}
    side = "before" if number == 1 and not is_unary else "after"
    return [f"operand {number} of `{name}` is the one {side} it"]


def of_seal(call, file, line):
    """Shows the methods of a module's type, each beside the module's own."""
    module = call.item_at(file, line)
    sealed = call.type(module.sealed) if module else None
    if not sealed:
        return []
    own = {it.name: it for it in module.methods if not it.is_inner}
    told = []
    for wanted in sealed.methods:
        method = own.get(wanted.name)
        if not method:
            told.append(f"  {wanted.text()}: the module has no such method")
        elif shape(method) != shape(wanted):
            told.append(f"  {wanted.text()}: the module has {method.text()}")
    return [f"{sealed.text()} has these methods, and the module differs:", *told] if told else []


def shape(method):
    """Returns what of a method is compared by its words: the types of its parameters, its effect if it is written, and its result."""
    return [it.partition(": ")[2] for it in method.parameters], method.result, method.effect


def of_set(call, file, line, column, last):
    """Says which declared set does not allow the effect that is missing."""
    effect = last.rpartition(" lacks ")[2]
    words = words_of_line((text_of(file) or "").split("\n")[line - 1], line)
    at = next((number for number, it in enumerate(words) if it.column == column), None)
    said = [it.text for it in words]
    if at is None or said[at] not in ("def", "run", "init"):
        return [f"the module has no `init` line, so its fields may do nothing, and {effect} is needed"] if at is not None else []
    name = said[at + 1] if said[at] == "def" else said[at]
    begin = next((it for it in range(at, len(words)) if said[it] == "{" and said[it - 1] == ":" and said[it - 2] in (")", "run", "init")), None)
    if begin is None:
        return []
    return [f"`{name}` declares {joined(words[begin : closing(words, begin) + 1])}, which does not allow {effect}"]


# ----------------------------------------------------------------------------
# Policies

def of_bad_policy(call):
    found = re.fullmatch(r"(.+):(\d+): bad policy", call.last)
    lines = (text_of(found[1]) or "").split("\n") if found else []
    if not found or int(found[2]) > len(lines):
        return [], []
    line = lines[int(found[2]) - 1].rstrip("\r")
    return excerpt(found[1], int(found[2])), [bad_row(line)]


def of_denied(call):
    found = re.fullmatch(r"(.+):(\d+): denied: (.+) (\S+)", call.last)
    if not found:
        return [], []
    if found[2] == "0":
        return [], [f"no row of {found[1]} is for {found[3]}, so it may do nothing; it may do {found[4]} by the program"]
    return excerpt(found[1], int(found[2])), [f"{found[3]} goes by this row, which does not allow {found[4]}"]


# ----------------------------------------------------------------------------
# Certificates


def type_name(call, scope, number):
    """Writes a type of a scope of a certificate, without its sets."""
    if number >= len(scope["types"]):
        return f"type {number}, which is not listed"
    kind, *rest = scope["types"][number]
    if kind < 4:
        return ("Int", "Bool", "String", "Unit")[kind]
    if kind == 6:
        return "the type of the module itself" if rest[0] == 0 else f"the type of its literal {rest[0]}"
    names = [*PRIMITIVE, *(it.name for it in call.items() if it.kind == "type")]
    return names[rest[0]] if rest[0] < len(names) else f"the declared type {rest[0]}"


def rules_of(item):
    """Returns the rules of a scope in the order by which C-Lines numbers them."""
    if item.kind == "program":
        rules = []
    else:
        rules = (["M-Pure"] if item.kind == "module" else []) + [f"M-Ascribe of {item.name} at {item.sealed}"]
    for it in item.names:
        said = {"use": ["M-Use"], "instance": ["M-Inst"], "import": ["M-Import", "I-Import"]}.get(it.kind, [])
        rules += [f"{rule} of the line `{it.text()}`" for rule in said]
    return rules


def of_unproved(call):
    found = re.fullmatch(r"(.+): unproved (\d+) (C-\w+) (\d+)", call.last)
    scopes = [it for it in call.items() if it.kind.endswith("module")] + [it for it in call.items() if it.kind == "program"]
    if not found:
        return [], []
    parts = scopes_of(found[1])
    test, number = found[3], int(found[4])
    if test == "C-Scopes":
        return [], [f"the certificate has {counted(len(parts), 'scope')}, and the texts have {len(scopes)}: their modules and the program"]
    if int(found[2]) >= min(len(scopes), len(parts)):
        return [], []
    item, part = scopes[int(found[2])], parts[int(found[2])]
    told = [f"scope {found[2]} is {item.text()}, at {place_of(item)}"]
    if test == "C-Nodes":
        return of_node(call, told, part["nodes"], number)
    if test == "C-Types":
        told.append(f"type {number} of the scope is {type_name(call, part, number)}")
    if test in ("C-Pairs", "C-Plain") and number < len(part[test]):
        left, right = (type_name(call, part, it) for it in part[test][number])
        told.append(f"pair {number} says that {left} is a subtype of {right}")
    if test == "C-Lines" and number < len(rules_of(item)):
        told.append(f"rule {number} of the scope is {rules_of(item)[number]}")
    return [], told


def of_node(call, told, nodes, number):
    """Adds the rule and the place of a node, and returns the excerpt at it with all that is told."""
    if number >= len(nodes):
        return [], [*told, f"node {number} is missing: the certificate has {counted(len(nodes), 'node')} for it"]
    rule, file, line, column = nodes[number]
    name = RULES[rule] if rule < len(RULES) else f"the rule {rule}"
    if not 1 <= file <= len(call.files):
        return [], [*told, f"node {number} is {name} in the file {file}, which is not among the texts"]
    place = f"{call.files[file - 1]}:{line}:{column}"
    return excerpt(call.files[file - 1], line, column), [*told, f"by the certificate node {number} is {name} at {place}"]


# ----------------------------------------------------------------------------


def of_usage(call):
    told = []
    if call.command not in COMMANDS:
        near = difflib.get_close_matches(call.command, COMMANDS, 1)
        told.append(f"`{call.command}` is not a command" + (f"; the nearest is `{near[0]}`" if near else ""))
    return [*told, "the commands are:", *commands()]


def notes_at(call, file, line, column):
    """Returns what the files say at a place, for the heading of a last line."""
    heading = call.heading
    if heading == "Unexpected":
        item = call.item_at(file, line)
        return hint(text_of(file) or "", line, column, item.kind if item else "")
    if heading in ("N-Unknown premise 1", "N-MemberUnknown premise 1", "T-Call premise 2"):
        return of_unknown(call, file, line, column)
    if heading == "N-Twice premise 1":
        return of_twice(call, file, line, column)
    if heading == "T-Body premise 2":
        return of_set(call, file, line, column, call.last)
    if heading in ("T-Call premise 3", "T-Call premise 4"):
        return of_call(call, file, line, column)
    if heading.startswith("T-Op premise"):
        return of_operation(call, file, line, column)
    if heading == "M-Ascribe premise 1":
        return of_seal(call, file, line)
    return of_line(call, file, line) if OF_ARGUMENTS.fullmatch(heading) else []


def notes_of(call):
    """Returns an excerpt of the file that a last line names, and what the files say of it."""
    if call.place:
        file, line, column = call.place[1], int(call.place[2]), int(call.place[3])
        shown = excerpt(file, line, column)
        return shown, notes_at(call, file, line, column) if shown else []
    if call.heading == "usage":
        return [], of_usage(call)
    of = {"denied": of_denied, "bad policy": of_bad_policy, "unproved": of_unproved}.get(call.heading)
    return of(call) if of else ([], [])


def told_of(words, status, last):
    """Returns the lines that explain the last line of a call: an excerpt, notes, and the paragraph of docs/MESSAGES.md."""
    call = Call(words, status, last)
    shown, notes = notes_of(call)
    said = paragraph(call.heading)
    return [*shown, *notes, *(["", said] if said else [])]
