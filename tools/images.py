"""What the tools share on images: their bytes, their code, and a verifier (docs/LANGUAGE.md, "Images").

It is written from that section alone, plainly and without regard to speed, so that another verifier can be compared with it. The
parts of an image have the names of the section. A form with parts is a namespace, a tagged form a tuple of its name and what follows
the tag, a list a list, a text bytes."""

import struct
from types import SimpleNamespace as Parts

LETTERS = b"WYIMAGE1"

# The parts of each form, in order. A list of a form is that form in brackets.
FORMS = {
    "Image": {
        "files": ["Text"], "grants": ["Grant"], "methods": ["Text"], "types": [["Signature"]], "bodies": ["Body"], "scopes": ["Scope"],
        "instances": ["Instance"], "main": "Main",
    },
    "Grant": {"name": "Text", "primitive": "Primitive"},
    "Signature": {"method": "num", "parameters": ["Ref"], "effect": ["Atom"], "result": "Ref"},
    "Atom": {"grant": "num", "member": "num"},
    "Body": {"parameters": "num", "slots": "num", "rows": ["Row"]},
    "Row": {"instruction": "Instruction", "file": "num", "line": "num", "column": "num"},
    "Scope": {"arguments": "num", "first": "num", "fields": "num", "entries": ["Entry"], "literals": ["Literal"]},
    "Entry": {"method": "num", "body": "num"},
    "Literal": {"captures": ["Capture"], "fields": "num", "entries": ["Entry"]},
    "Instance": {"name": "Text", "scope": "num", "arguments": ["Argument"], "typing": "Typing"},
    "Main": {"scope": "num", "typing": "Typing"},
    "Typing": {"values": ["Ref"], "literals": [["Ref"]], "bodies": ["Bounds"]},
    "Bounds": {
        "body": "num", "name": "Text", "effect": ["Atom"], "parameters": ["Ref"], "result": "Ref", "vals": ["Ref"], "targets": ["Target"],
    },
    "Target": {"address": "num", "operands": ["Ref"], "stored": ["num"]},
}

# What each tag of a form is, and what follows it.
TAGS = {
    "Primitive": {0: ("Console",), 1: ("Folder",), 2: ("Clock",), 3: ("Random",), 4: ("FullFolder",)},
    "Ref": {
        0: ("Int",), 1: ("Bool",), 2: ("String",), 3: ("Unit",), 4: ("Listed", "num"), 5: ("Literal", "num"), 6: ("Grant", "num"),
        7: ("Instance", "num"),
    },
    "Capture": {0: ("Slot", "num"), 1: ("Value", "num")},
    "Argument": {0: ("Grant", "num"), 1: ("Instance", "num")},
    "Truth": {0: ("false",), 1: ("true",)},
    "Constant": {
        0: ("Int", "Int"), 1: ("Bool", "Truth"), 2: ("Unit",), 3: ("String", "Text"), 4: ("Grant", "num"), 5: ("Instance", "num"),
    },
    "Operator": {
        at: (name,)
        for at, name in enumerate("+ - * / % negate < <= > >= == != ! ++ text_size text_part text_code text_byte text_show".split())
    },
    "Instruction": {
        1: ("Push", "Constant"), 2: ("Load", "num"), 3: ("Store", "num"), 4: ("Get", "num"), 5: ("Set", "num"), 6: ("Drop",),
        7: ("Op", "Operator"), 8: ("Jump", "num"), 9: ("JumpFalse", "num"), 10: ("New", "num"), 11: ("Call", "num", "num"),
        12: ("Return",), 13: ("Finish",),
    },
}

# ----------------------------------------------------------------
# Bytes


class BadImage(Exception):
    """Bytes that are not an image. `at` is the number of them that could begin one."""

    def __init__(self, at):
        super().__init__(at)
        self.at = at


class Reader:
    """Reads the forms of an image, from the front of its bytes to their end."""

    def __init__(self, data):
        self.data, self.at = data, 0

    def take(self, count):
        if self.at + count > len(self.data):
            raise BadImage(len(self.data))
        self.at += count
        return self.data[self.at - count : self.at]

    def letters(self):
        for letter in LETTERS:
            if self.take(1)[0] != letter:
                raise BadImage(self.at - 1)

    def num(self):
        return struct.unpack("<I", self.take(4))[0]

    def read(self, form):
        """Returns what the next bytes spell, which is of the form."""
        if isinstance(form, list):
            return [self.read(form[0]) for _ in range(self.num())]
        if form in FORMS:
            return Parts(**{name: self.read(part) for name, part in FORMS[form].items()})
        if form in TAGS:
            return self.tagged(TAGS[form])
        if form == "Text":
            return self.take(self.num())
        return struct.unpack("<q", self.take(8))[0] if form == "Int" else self.num()

    def tagged(self, tags):
        tag = self.take(1)[0]
        if tag not in tags:
            raise BadImage(self.at - 1)
        name, *parts = tags[tag]
        return (name, *[self.read(part) for part in parts])


def decode(data):
    """Returns the image that the bytes spell.

    Raises BadImage if they spell none."""
    reader = Reader(data)
    reader.letters()
    image = reader.read("Image")
    if reader.at != len(data):
        raise BadImage(reader.at)
    return image


def spelled(form, value):
    """Returns the bytes of a value of a form. A number or a length that does not fit raises struct.error."""
    if isinstance(form, list):
        return struct.pack("<I", len(value)) + b"".join(spelled(form[0], it) for it in value)
    if form in FORMS:
        return b"".join(spelled(part, getattr(value, name)) for name, part in FORMS[form].items())
    if form in TAGS:
        [(tag, parts)] = [(tag, parts) for tag, (name, *parts) in TAGS[form].items() if name == value[0]]
        return bytes([tag]) + b"".join(spelled(part, it) for part, it in zip(parts, value[1:]))
    if form == "Text":
        return struct.pack("<I", len(value)) + value
    return struct.pack("<q" if form == "Int" else "<I", value)


def encode(image):
    """Returns the bytes of an image."""
    return LETTERS + spelled("Image", image)


# ----------------------------------------------------------------
# Instances, bodies and code


def item(items, at):
    """Returns the item of a number, or None if there is none."""
    return items[at] if at < len(items) else None


def instances(image):
    """Returns the instances in their order, and Main last."""
    main = Parts(name=b"main", scope=image.main.scope, arguments=[], typing=image.main.typing)
    return [*image.instances, main]


def owned_bodies(scope):
    """Returns the bodies of a scope, each with its owner: None for the first body, 0 for a method of the own object, and l + 1 for a
    method of literal l."""
    found = [(None, scope.first)]
    for owner, entries in enumerate([scope.entries, *(it.entries for it in scope.literals)]):
        found += [(owner, it.body) for it in entries]
    return found


def counts(scope, owner):
    """Returns how many values an owner holds, and how many fields it has."""
    if not owner:
        return scope.arguments, scope.fields
    literal = scope.literals[owner - 1]
    return len(literal.captures), literal.fields


def vals(body):
    """Returns the number of `val`s of a body."""
    stored = [it.instruction[1] for it in body.rows if it.instruction[0] == "Store"]
    return max(0, max(stored, default=0) - body.parameters)


def stated(typing, body):
    """Returns what a Typing states for the body of a number, or None."""
    return next((it for it in typing.bodies if it.body == body), None)


def stated_name(image, body):
    """Returns the first name that is stated for the body of a number, or the empty text."""
    found = (stated(it.typing, body) for it in instances(image))
    return next((it.name for it in found if it), b"")


def texts(image):
    """Returns the texts that are pushed, each once."""
    rows = [row.instruction for body in image.bodies for row in body.rows]
    return list(dict.fromkeys(it[1][1] for it in rows if it[0] == "Push" and it[1][0] == "String"))


def code(image):
    """Returns the code of an image."""
    table = texts(image)

    def instruction(it):
        if it[0] == "Push" and it[1][0] == "String":
            return "Push", ("String", table.index(it[1][1]))
        return ("New", it[1] + 1) if it[0] == "New" else it

    def body(at, it):
        rows = [(instruction(row.instruction), (row.file, row.line, row.column)) for row in it.rows]
        return Parts(name=stated_name(image, at), parameters=it.parameters, vals=vals(it), slots=it.slots, instructions=rows)

    def scope(it):
        own = Parts(captures=[], fields=it.fields, entries=it.entries)
        return Parts(arguments=it.arguments, first=it.first, literals=[own, *it.literals])

    return Parts(
        grants=image.grants,
        methods=image.methods,
        texts=table,
        bodies=[body(at, it) for at, it in enumerate(image.bodies)],
        scopes=[scope(it) for it in image.scopes],
        instances=[Parts(name=it.name, scope=it.scope, arguments=it.arguments) for it in instances(image)],
    )


# ----------------------------------------------------------------
# Types

INT, BOOL, STRING, UNIT = ("Int",), ("Bool",), ("String",), ("Unit",)
FOLDER = {
    b"read": ([STRING], 0, STRING), b"has": ([STRING], 0, BOOL), b"write": ([STRING, STRING], 1, UNIT),
    b"append": ([STRING, STRING], 2, UNIT), b"names": ([], 3, STRING),
}

# The number of members of each primitive type, and its methods: the types of the parameters, the member, and the result.
PRIMITIVES = {
    "Console": (2, {b"read": ([], 0, STRING), b"write": ([STRING], 1, UNIT)}),
    "Folder": (4, FOLDER),
    "Clock": (1, {b"now": ([], 0, INT)}),
    "Random": (1, {b"word": ([], 0, INT)}),
    "FullFolder": (5, {**FOLDER, b"remove": ([STRING], 4, UNIT)}),
}
MEMBERS = {
    "Console": "In Out", "Folder": "Read Write Append List", "Clock": "Tick", "Random": "Draw",
    "FullFolder": "Read Write Append List Remove",
}

# The types of the operands of each operator, and of its result. `==` and `!=` take two of one type.
OPERATORS = {
    **{it: ([INT, INT], INT) for it in "+ - * / %".split()},
    **{it: ([INT, INT], BOOL) for it in "< <= > >=".split()},
    **{it: ([None, None], BOOL) for it in "== !=".split()},
    "negate": ([INT], INT), "!": ([BOOL], BOOL), "++": ([STRING, STRING], STRING), "text_size": ([STRING], INT),
    "text_part": ([STRING, INT, INT], STRING), "text_code": ([STRING, INT], INT), "text_byte": ([INT], STRING),
    "text_show": ([INT], STRING),
}


def atoms(effect):
    return {(it.grant, it.member) for it in effect}


class Types:
    """The types in an image. A type is a base type, ("Listed", t), ("Own", x, l) or ("Grant", g). ("Own", x, 0) is that of the own
    object of instance x, and ("Own", x, l + 1) that of its objects of literal l."""

    def __init__(self, image):
        self.image = image
        self.instances = instances(image)
        self.scopes = [image.scopes[it.scope] for it in self.instances]

    def read(self, x, ref):
        """Returns the type that a reference of instance x means."""
        if ref[0] == "Literal":
            return "Own", x, ref[1] + 1
        return ("Own", ref[1], 0) if ref[0] == "Instance" else ref

    def read_all(self, x, refs):
        return [self.read(x, it) for it in refs]

    def values(self, x, owner):
        """Returns the types of the values of an owner, None or a number as in `owned_bodies`."""
        typing = self.instances[x].typing
        return self.read_all(x, typing.literals[owner - 1] if owner else typing.values)

    def methods(self, kind):
        """Returns the methods of a type by their names: the parameters, the effect and the result of each."""
        names = self.image.methods
        if kind[0] == "Listed":
            found = [(it.method, 0, it) for it in self.image.types[kind[1]]]
        elif kind[0] == "Own":
            _, x, literal = kind
            entries = self.scopes[x].literals[literal - 1].entries if literal else self.scopes[x].entries
            found = [(it.method, x, stated(self.instances[x].typing, it.body)) for it in entries]
        elif kind[0] == "Grant":
            _, of_grant = PRIMITIVES[self.image.grants[kind[1]].primitive[0]]
            return {name: (parameters, {(kind[1], member)}, result) for name, (parameters, member, result) in of_grant.items()}
        else:
            return {}
        return {names[m]: (self.read_all(x, it.parameters), atoms(it.effect), self.read(x, it.result)) for m, x, it in found}

    def fits(self, kind, other):
        """Returns whether a type is another or a subtype of it."""
        return kind == other or self.is_subtype(kind, other)

    def all_fit(self, kinds, others):
        return len(kinds) == len(others) and all(self.fits(*it) for it in zip(kinds, others))

    def is_subtype(self, kind, other):
        pairs = [(kind, other)]
        for left, right in pairs:
            if left in (INT, BOOL, STRING, UNIT) or right in (INT, BOOL, STRING, UNIT):
                if left != right:
                    return False
                continue
            has = self.methods(left)
            for name, (parameters, effect, result) in self.methods(right).items():
                if name not in has or len(has[name][0]) != len(parameters) or not has[name][1] <= effect:
                    return False
                more = [*zip(parameters, has[name][0]), (has[name][2], result)]
                pairs += [it for it in dict.fromkeys(more) if it not in pairs]
        return True


# ----------------------------------------------------------------
# V-Range

LIMITS = {"files": 64, "grants": 64, "instances": 1024, "bodies": 16384}
MOST_SLOTS, MOST_NAME_BYTES, MOST_TEXT_BYTES = 256, 64, 4194304
RESERVED = """type effect def module resource plain program grant use instance import at init val var run new if then else this true false
main Int Bool String Unit text_size text_part text_code text_byte text_show""".split()


def is_name(text):
    """Returns whether bytes are a name of the language."""
    try:
        name = text.decode()
    except UnicodeDecodeError:
        return False
    return name.isidentifier() and name not in RESERVED and len(text) <= MOST_NAME_BYTES


def is_printable(text):
    return text != b"" and all(it >= 32 and it not in (127, ord(":")) for it in text)


def differ(items):
    return len(set(items)) == len(items)


class Ranges:
    """The demands of V-Range. Each method yields whether demands hold, with their names."""

    def __init__(self, image):
        self.image = image

    def whole(self):
        image = self.image
        for name, most in LIMITS.items():
            yield f"limit {name}", len(getattr(image, name)) <= most
        yield "limit slots", all(it.slots <= MOST_SLOTS for it in image.bodies)
        yield "grants differ", differ([it.name for it in image.grants])
        yield "names of grants", all(is_name(it.name) for it in image.grants)
        yield "methods differ", differ(image.methods)
        yield "instances differ", differ([b"main", *(it.name for it in image.instances)])
        bodies = [body for it in image.scopes for _, body in owned_bodies(it)]
        yield "each body once", sorted(bodies) == list(range(len(image.bodies)))
        for it in image.types:
            yield from self.listed_type(it)
        for it in image.scopes:
            yield from self.scope(it)
        for x, it in enumerate(instances(image)):
            yield from self.instance(x, it)

    def is_method(self, number):
        return number < len(self.image.methods)

    def is_atom(self, atom):
        grant = item(self.image.grants, atom.grant)
        return grant is not None and atom.member < PRIMITIVES[grant.primitive[0]][0]

    def is_plain(self, ref):
        """Returns whether a reference is one of 0 to 4 that names something."""
        return len(ref) == 1 or ref[0] == "Listed" and ref[1] < len(self.image.types)

    def is_ref(self, x, scope, ref):
        """Returns whether a reference of instance x names something."""
        if ref[0] == "Literal":
            return ref[1] < len(scope.literals)
        if ref[0] == "Grant":
            return ref[1] < len(self.image.grants)
        if ref[0] == "Instance":
            return ref[1] <= x and ref[1] < len(self.image.instances)
        return self.is_plain(ref)

    def listed_type(self, signatures):
        yield "methods of a type differ", differ([it.method for it in signatures])
        for it in signatures:
            yield "method of a type", self.is_method(it.method)
            yield "atoms of a type", all(map(self.is_atom, it.effect))
            yield "references of a type", all(map(self.is_plain, [*it.parameters, it.result]))

    def scope(self, scope):
        first = item(self.image.bodies, scope.first)
        yield "parameters of a first body", first is None or first.parameters == 0
        for entries in [scope.entries, *(it.entries for it in scope.literals)]:
            yield "entries differ", differ([it.method for it in entries])
            yield "method of an entry", all(self.is_method(it.method) for it in entries)
        for owner, number in owned_bodies(scope):
            body = item(self.image.bodies, number)
            for row in body.rows if body else ():
                yield "file of a row", 1 <= row.file <= len(self.image.files)
                yield f"number of {row.instruction[0]}", self.is_instruction(scope, owner, body, row.instruction)

    def is_instruction(self, scope, owner, body, instruction):
        """Returns whether the numbers of an instruction name something."""
        name, *numbers = instruction
        values = sum(counts(scope, owner))
        if name == "Push":
            return self.is_constant(*instruction[1])
        if name == "New":
            literal = item(scope.literals, numbers[0])
            captures = literal.captures if literal else ()
            return literal is not None and all(at < (body.slots if it == "Slot" else values) for it, at in captures)
        if name == "Call":
            return self.is_method(numbers[0])
        most = {"Load": body.slots, "Store": body.slots, "Get": values, "Set": values, "Jump": len(body.rows), "JumpFalse": len(body.rows)}
        return name not in most or numbers[0] < most[name]

    def is_constant(self, name, value=None):
        if name == "String":
            return len(value) <= MOST_TEXT_BYTES
        most = {"Grant": len(self.image.grants), "Instance": len(self.image.instances)}
        return name not in most or value < most[name]

    def instance(self, x, instance):
        is_main = x == len(self.image.instances)
        yield "name of an instance", is_main or is_printable(instance.name)
        scope = item(self.image.scopes, instance.scope)
        yield "scope of an instance", scope is not None
        if scope is None:
            return
        yield "number of arguments", len(instance.arguments) == scope.arguments
        yield "arguments", all(at < (len(self.image.grants) if it == "Grant" else x) for it, at in instance.arguments)
        yield "fields of Main", not is_main or scope.fields == 0
        yield from self.typing(x, scope, instance.typing)

    def typing(self, x, scope, typing):
        yield from self.values(x, scope, None, typing.values)
        yield "number of literals", len(typing.literals) == len(scope.literals)
        for literal, refs in enumerate(typing.literals[: len(scope.literals)]):
            yield from self.values(x, scope, literal + 1, refs)
        bodies = [it.body for it in typing.bodies]
        yield "bodies of an instance", differ(bodies) and set(bodies) == {it for _, it in owned_bodies(scope)}
        yield "names of bodies differ", differ([it.name for it in typing.bodies])
        for bounds in typing.bodies:
            body = item(self.image.bodies, bounds.body)
            if body:
                yield from self.bounds(x, scope, body, bounds)

    def values(self, x, scope, owner, refs):
        held, fields = counts(scope, owner)
        yield "number of values", len(refs) == held + fields
        yield "types of values", all(self.is_ref(x, scope, it) for it in refs)
        yield "types of fields", all(map(self.is_plain, refs[held:]))

    def bounds(self, x, scope, body, bounds):
        yield "name of a body", is_printable(bounds.name)
        yield "one name of a body", bounds.name == stated_name(self.image, bounds.body)
        yield "atoms of a body", all(map(self.is_atom, bounds.effect))
        yield "number of parameters", len(bounds.parameters) == body.parameters
        yield "types of a body", all(map(self.is_plain, [*bounds.parameters, bounds.result]))
        yield "number of vals", len(bounds.vals) >= vals(body)
        yield "types of vals", all(self.is_ref(x, scope, it) for it in bounds.vals)
        for it in bounds.targets:
            yield "address of a target", it.address < len(body.rows)
            yield "types of a target", all(self.is_ref(x, scope, ref) for ref in it.operands)
            yield "slots of a target", all(body.parameters < slot <= body.parameters + len(bounds.vals) for slot in it.stored)


def range_faults(image):
    """Returns the names of the demands of V-Range that fail, each once."""
    return list(dict.fromkeys(name for name, holds in Ranges(image).whole() if not holds))


# ----------------------------------------------------------------
# The walk through a body

ENDS = ("Jump", "Return", "Finish")
JUMPS = ("Jump", "JumpFalse")


class Walk:
    """The tests of a body of instance x. A state has its operands in the order in which they were pushed."""

    def __init__(self, types, x, bounds):
        self.types, self.x, self.bounds = types, x, bounds
        self.scope = types.scopes[x]
        self.body = types.image.bodies[bounds.body]
        self.owner = next(owner for owner, body in owned_bodies(self.scope) if body == bounds.body)
        self.values = types.values(x, self.owner)
        self.held, self.fields = counts(self.scope, self.owner)
        self.vals = vals(self.body)
        self.is_main = x == len(types.image.instances)
        self.jumped = {}

    def failure(self):
        """Returns the first rule that fails and the place, or None."""
        if not self.body.rows:
            return "V-Flow", 0
        falls = Parts(operands=[], stored=set(), set=0)
        for at, row in enumerate(self.body.rows):
            instruction = row.instruction
            state = self.state_at(at, falls)
            rule = self.failed_rule(at, falls, state, instruction)
            if rule:
                return rule, at
            if instruction[0] in JUMPS:
                self.jumped.setdefault(instruction[1], state.set)
            falls = None if instruction[0] in ENDS else self.after(state, instruction)
        return None

    def failed_rule(self, at, falls, state, it):
        """Returns the first rule that fails at an address, or None. `falls` is the state that falls in there, or None."""
        if not self.flows(at, it):
            return "V-Flow"
        if not (self.falls_in(at, falls) and self.has_state(state, it) and self.brings(state, it)):
            return "V-State"
        if 1 + self.body.parameters + self.vals + len(self.after(state, it).operands) > self.body.slots:
            return "V-Depth"
        if not (self.falls_in_types(at, falls) and self.has_types(state, it) and self.brings_types(state, it)):
            return "V-Type"
        return None if self.keeps_effect(state, it) else "V-Effect"

    # States

    def target(self, at):
        return next((it for it in self.bounds.targets if it.address == at), None)

    def kinds(self, refs):
        return self.types.read_all(self.x, refs)

    def state_at(self, at, falls):
        """Returns the state at an address, where a state falls in or None."""
        target = self.target(at)
        if target is None:
            return falls
        return Parts(operands=self.kinds(target.operands), stored=set(target.stored), set=falls.set if falls else self.jumped[at])

    def pops(self, instruction):
        name, *numbers = instruction
        if name == "Op":
            return len(OPERATORS[numbers[0][0]][0])
        if name == "New":
            return self.scope.literals[numbers[0]].fields
        return numbers[1] + 1 if name == "Call" else int(name in ("Store", "Set", "Drop", "JumpFalse", "Return"))

    def popped(self, state, instruction):
        count = self.pops(instruction)
        return state.operands[len(state.operands) - count :]

    def pushed(self, state, instruction):
        """Returns the types that an instruction pushes."""
        name, *numbers = instruction
        if name == "Push":
            constant = numbers[0]
            return [self.types.read(self.x, constant if constant[0] in ("Grant", "Instance") else constant[:1])]
        if name == "Load":
            return [self.slot(state, numbers[0])]
        if name == "Get":
            return [self.values[numbers[0]]]
        if name == "Op":
            return [OPERATORS[numbers[0][0]][1]]
        if name == "New":
            return [("Own", self.x, numbers[0] + 1)]
        if name == "Call":
            method = self.method(state, instruction)
            return [method[2] if method else UNIT]
        return []

    def after(self, state, instruction):
        """Returns the state after an instruction that has the operands that it pops."""
        name, *numbers = instruction
        if name in ("Return", "Finish"):
            return Parts(operands=[], stored=state.stored, set=state.set)
        kept = state.operands[: len(state.operands) - self.pops(instruction)]
        return Parts(
            operands=kept + self.pushed(state, instruction),
            stored=state.stored | {numbers[0]} if name == "Store" else state.stored,
            set=state.set + 1 if name == "Set" and self.owner is None else state.set,
        )

    def slot(self, state, at):
        """Returns the type of a slot, or None if it cannot be read."""
        if at == 0:
            return None if self.owner is None else ("Own", self.x, self.owner)
        if at <= self.body.parameters:
            return self.kinds(self.bounds.parameters)[at - 1]
        return self.kinds(self.bounds.vals)[at - 1 - self.body.parameters] if at in state.stored else None

    def can_read(self, value):
        return self.owner is not None or value < self.held

    def method(self, state, instruction):
        """Returns the method that a Call calls, or None."""
        return self.types.methods(self.popped(state, instruction)[0]).get(self.types.image.methods[instruction[1]])

    # V-Flow

    def flows(self, at, instruction):
        name, *numbers = instruction
        size, after = len(self.body.rows), at + 1
        if name in JUMPS and not (at < numbers[0] < size and self.target(numbers[0])):
            return False
        if (name == "Return" and self.owner is None) or (name == "Finish" and self.owner is not None):
            return False
        if name in ENDS:
            return after == size or after in self.jumped or (name == "Jump" and numbers[0] == after)
        return after < size

    # V-State

    def meets(self, state, target, sets):
        """Returns whether a state has what a target states, and the fields that are set with other states that come there."""
        same_set = sets is None or state.set == sets
        return len(state.operands) == len(target.operands) and set(target.stored) <= state.stored and same_set

    def falls_in(self, at, falls):
        target = self.target(at)
        return falls is None or target is None or self.meets(falls, target, self.jumped.get(at))

    def brings(self, state, instruction):
        if instruction[0] not in JUMPS:
            return True
        to = instruction[1]
        return self.meets(self.after(state, instruction), self.target(to), self.jumped.get(to))

    def has_state(self, state, instruction):
        """Returns whether V-State holds of the instruction itself."""
        name, *numbers = instruction
        at = numbers[0] if numbers else None
        if len(state.operands) < self.pops(instruction):
            return False
        if name == "Push":
            return self.is_main or at[0] not in ("Grant", "Instance")
        if name == "Load":
            return self.slot(state, at) is not None
        if name == "Store":
            return at > self.body.parameters
        if name == "Get":
            return self.can_read(at)
        if name == "Set":
            return at == self.held + state.set if self.owner is None else at >= self.held
        if name == "New":
            captures = self.scope.literals[at].captures
            return all(self.slot(state, of) is not None if it == "Slot" else self.can_read(of) for it, of in captures)
        if name == "Return":
            return len(state.operands) == 1
        if name == "Finish":
            return state.set == self.fields and len(state.operands) == int(self.is_main)
        return True

    # V-Type

    def meets_types(self, state, target):
        return self.types.all_fit(state.operands, self.kinds(target.operands))

    def falls_in_types(self, at, falls):
        target = self.target(at)
        return falls is None or target is None or self.meets_types(falls, target)

    def brings_types(self, state, instruction):
        return instruction[0] not in JUMPS or self.meets_types(self.after(state, instruction), self.target(instruction[1]))

    def has_types(self, state, instruction):
        """Returns whether V-Type holds of the instruction itself."""
        name, *numbers = instruction
        top = self.popped(state, instruction)
        if name == "Store":
            return self.types.all_fit(top, self.kinds([self.bounds.vals[numbers[0] - 1 - self.body.parameters]]))
        if name == "Set":
            return self.types.all_fit(top, [self.values[numbers[0]]])
        if name == "Op":
            asked = OPERATORS[numbers[0][0]][0]
            return top == asked or (asked == [None, None] and top[0] == top[1] and top[0] in (INT, BOOL, STRING))
        if name == "JumpFalse":
            return top == [BOOL]
        if name == "New":
            captured = [self.slot(state, at) if it == "Slot" else self.values[at] for it, at in self.scope.literals[numbers[0]].captures]
            return self.types.all_fit(captured + top, self.types.values(self.x, numbers[0] + 1))
        if name == "Call":
            method = self.method(state, instruction)
            return method is not None and self.types.all_fit(top[1:], method[0])
        if name == "Return":
            return self.types.all_fit(top, self.kinds([self.bounds.result]))
        return name != "Finish" or all(it == UNIT for it in state.operands)

    # V-Effect

    def keeps_effect(self, state, instruction):
        return instruction[0] != "Call" or self.method(state, instruction)[1] <= atoms(self.bounds.effect)


# ----------------------------------------------------------------
# Whole images


def verify(image):
    """Returns None if an image is verified, otherwise its first failure: the rule, the instance, the body and the place."""
    if range_faults(image):
        return "V-Range", 0, 0, 0
    types = Types(image)
    for x, instance in enumerate(types.instances):
        for at, (form, number) in enumerate(instance.arguments):
            if not types.fits(types.read(x, (form, number)), types.values(x, None)[at]):
                return "V-Argument", x, 0, at
        for body, bounds in enumerate(instance.typing.bodies):
            failure = Walk(types, x, bounds).failure()
            if failure:
                return failure[0], x, body, failure[1]
    return None


def atom_names(image, effect):
    """Returns the atoms of an effect as GRANT.MEMBER, each once, by grants and then members."""
    grants = [(it.name.decode(), MEMBERS[it.primitive[0]].split()) for it in image.grants]
    return [f"{grants[grant][0]}.{grants[grant][1][member]}" for grant, member in sorted(atoms(effect))]


def bounds(image):
    """Returns what a verified image states: for each instance its name, and for each of its bodies the name and the atoms."""
    return [(it.name, [(body.name, atom_names(image, body.effect)) for body in it.typing.bodies]) for it in instances(image)]
