"""images.py: its decoder and verifier, on the images of crates/wy_image_tests, on one that is made here, and on images of which one
thing is wrong. What must be said of these is worked out from docs/LANGUAGE.md, "Images"."""

import copy
import glob
import os
import unittest

from support import TOP

from images import BOOL, INT, STRING, UNIT, BadImage, Parts, Types
from images import atom_names, bounds, code, decode, encode, instances, range_faults, verify

DATA = os.path.join(TOP, "crates", "wy_image_tests", "data")
# The most bytes of an image that is cut at each place. A longer one is cut at each twentieth.
MOST_CUT = 1500


def atom(grant, member):
    return Parts(grant=grant, member=member)


def signature(method, parameters, effect, result):
    return Parts(method=method, parameters=parameters, effect=effect, result=result)


def row(*instruction):
    return Parts(instruction=instruction, file=1, line=1, column=1)


def rows(*instructions):
    return [row(*it) for it in instructions]


def body(parameters, slots, *instructions):
    return Parts(parameters=parameters, slots=slots, rows=rows(*instructions))


def scope(arguments, first, fields, entries, literals=()):
    return Parts(arguments=arguments, first=first, fields=fields, entries=entries, literals=list(literals))


def entry(method, number):
    return Parts(method=method, body=number)


def of_body(number, name, effect=(), parameters=(), result=UNIT, vals=(), targets=()):
    return Parts(
        body=number, name=name, effect=list(effect), parameters=list(parameters), result=result, vals=list(vals), targets=list(targets)
    )


def target(address, operands=(), stored=()):
    return Parts(address=address, operands=list(operands), stored=list(stored))


def push(form, *value):
    return "Push", (form, *value)


TRUE, ONE = push("Bool", ("true",)), push("Int", 1)


def maker():
    """Returns the image of a module with two fields, the first by an `if`, and of a method that makes objects with captures and a
    field. A clock is a second grant, which nothing calls."""
    first = body(
        0, 2, TRUE, ("JumpFalse", 4), ONE, ("Jump", 5), push("Int", 2), ("Set", 1), push("String", b"a"), ("Set", 2), ("Finish",)
    )
    make = body(1, 4, ("Load", 1), ("Store", 2), push("Int", 7), ("New", 0), ("Return",))
    put = body(
        1, 5, ("Get", 1), push("String", b"f"), ("Load", 1), ("Call", 2, 2), ("Drop",), ("Get", 2), ONE, ("Op", ("+",)), ("Set", 2),
        push("Unit"), ("Return",),
    )
    run = body(0, 4, push("Instance", 0), push("String", b"b"), ("Call", 0, 1), push("String", b"a"), ("Call", 1, 1), ("Finish",))
    writes = [atom(0, 2)]
    module = Parts(
        values=[("Listed", 0), INT, STRING],
        literals=[[STRING, ("Listed", 0), INT]],
        bodies=[
            of_body(0, b"init", targets=[target(4), target(5, [INT])]),
            of_body(1, b"make", parameters=[STRING], result=("Listed", 1), vals=[STRING]),
            of_body(2, b"new1.put", writes, [STRING]),
        ],
    )
    literal = Parts(captures=[("Slot", 2), ("Value", 0)], fields=1, entries=[entry(1, 2)])
    return Parts(
        files=[b"m.wy"],
        grants=[Parts(name=b"disk", primitive=("FullFolder",)), Parts(name=b"clock", primitive=("Clock",))],
        methods=[b"make", b"put", b"append"],
        types=[[signature(2, [STRING, STRING], writes, UNIT)], [signature(1, [STRING], writes, UNIT)]],
        bodies=[first, make, put, run],
        scopes=[scope(1, 0, 2, [entry(0, 1)], [literal]), scope(0, 3, 0, [])],
        instances=[Parts(name=b"m", scope=0, arguments=[("Grant", 0)], typing=module)],
        main=Parts(scope=1, typing=Parts(values=[], literals=[], bodies=[of_body(3, b"run", writes)])),
    )


def named(name):
    with open(os.path.join(DATA, f"{name}.img"), "rb") as it:
        return decode(it.read())


def original(name):
    return maker() if name == "maker" else named(name)


def changed(image, path, value):
    """Returns an image with another part at a path of names and numbers. A function gives the part from the one before."""
    image = copy.deepcopy(image)
    *way, last = [int(it) if it.isdecimal() else it for it in path.split(".")]
    holder = image
    for it in way:
        holder = holder[it] if isinstance(it, int) else getattr(holder, it)
    before = holder[last] if isinstance(last, int) else getattr(holder, last)
    value = value(before) if callable(value) else value
    if isinstance(last, int):
        holder[last] = value
    else:
        setattr(holder, last, value)
    return image


def report(image):
    """Returns what an image states, as the report of a program has it."""
    lines = []
    for it, (name, bodies) in zip(instances(image), bounds(image)):
        whole = atom_names(image, [one for of in it.typing.bodies for one in of.effect])
        lines.append(f"authority of {name.decode()}: {', '.join(whole) or '-'}")
        lines += [f"  {of.decode()}: {', '.join(effect) or '-'}" for of, effect in bodies]
    return "\n".join([*lines, ""])


def put(at, *items):
    return lambda before: before[:at] + list(items) + before[at:]


def without(at):
    return lambda before: before[:at] + before[at + 1 :]


INIT = "instances.0.typing.bodies.0"
MAKE = "instances.0.typing.bodies.1"
RUN = "main.typing.bodies.0"

# Wrong images: an image, the path of what is changed, what is there then, and the first failure.
WRONG = (
    # V-Effect: what is done is more than is stated, in a method of an object and in a call of one.
    ("hello", f"{RUN}.effect", [], ("V-Effect", 0, 0, 2)),
    ("maker", "instances.0.typing.bodies.2.effect", [], ("V-Effect", 0, 2, 3)),
    ("maker", f"{RUN}.effect", [atom(1, 0)], ("V-Effect", 1, 0, 4)),
    ("logger", f"{RUN}.effect", [], ("V-Effect", 1, 0, 2)),
    # V-Argument: an effect, a parameter, a result and a method more than the argument has; another grant.
    ("host", "types.2.0.effect", [], ("V-Argument", 2, 0, 0)),
    ("host", "types.2.0.parameters", [INT], ("V-Argument", 2, 0, 0)),
    ("host", "types.2.0.parameters", [STRING, STRING], ("V-Argument", 2, 0, 0)),
    ("host", "types.2.0.result", STRING, ("V-Argument", 2, 0, 0)),
    ("host", "types.5", put(1, signature(2, [STRING], [], STRING)), ("V-Argument", 4, 0, 1)),
    ("maker", "instances.0.arguments.0", ("Grant", 1), ("V-Argument", 0, 0, 0)),
    ("maker", "instances.0.typing.values.0", INT, ("V-Argument", 0, 0, 0)),
    ("maker", "grants.0.primitive", ("Clock",), ("V-Range", 0, 0, 0)),
    # V-Flow: jumps backward, to itself and to what is no target; rows that nothing leads to; the end.
    ("dice", "bodies.1.rows.14.instruction", ("Jump", 5), ("V-Flow", 0, 1, 14)),
    ("dice", "bodies.1.rows.14.instruction", ("Jump", 14), ("V-Flow", 0, 1, 14)),
    ("dice", "bodies.1.rows.16.instruction", ("Jump", 15), ("V-Flow", 0, 1, 16)),
    ("dice", "bodies.1.rows.15.instruction", ("JumpFalse", 15), ("V-Flow", 0, 1, 15)),
    ("dice", "bodies.1.rows.8.instruction", ("JumpFalse", 16), ("V-Flow", 0, 1, 8)),
    ("dice", "instances.0.typing.bodies.1.targets", without(0), ("V-Flow", 0, 1, 8)),
    ("dice", "bodies.1.rows.14.instruction", ("Return",), None),
    ("dice", "bodies.1.rows.13.instruction", ("Return",), ("V-Flow", 0, 1, 13)),
    ("maker", "bodies.1.rows", put(5, row("Return")), ("V-Flow", 0, 1, 4)),
    ("maker", "bodies.1.rows", put(0, row("Return")), ("V-Flow", 0, 1, 0)),
    ("maker", "bodies.1.rows", without(4), ("V-Flow", 0, 1, 3)),
    ("maker", "bodies.1.rows", [], ("V-Flow", 0, 1, 0)),
    ("maker", "bodies.1.rows.4.instruction", ("Finish",), ("V-Flow", 0, 1, 4)),
    ("maker", "bodies.0.rows.8.instruction", ("Return",), ("V-Flow", 0, 0, 8)),
    # V-State: operands, slots, values, fields, constants, ends.
    ("maker", "bodies.1.rows.1.instruction", ("Drop",), ("V-State", 0, 1, 3)),
    ("maker", "bodies.1.rows.0.instruction", ("Drop",), ("V-State", 0, 1, 0)),
    ("maker", "bodies.1.rows.0.instruction", ("Load", 2), ("V-State", 0, 1, 0)),
    ("maker", "bodies.1.rows.0.instruction", ("Load", 3), ("V-State", 0, 1, 0)),
    ("maker", "bodies.0.rows.4.instruction", ("Load", 0), ("V-State", 0, 0, 4)),
    ("maker", "bodies.1.rows.1.instruction", ("Store", 1), ("V-State", 0, 1, 1)),
    ("maker", "bodies.1.rows.1.instruction", ("Store", 0), ("V-State", 0, 1, 1)),
    ("maker", "scopes.0.literals.0.captures.0", ("Slot", 3), ("V-State", 0, 1, 3)),
    ("maker", "bodies.0.rows.4.instruction", ("Get", 1), ("V-State", 0, 0, 4)),
    ("maker", "bodies.0.rows.4.instruction", ("Get", 0), ("V-Type", 0, 0, 5)),
    ("maker", "bodies.0.rows.5.instruction", ("Set", 2), ("V-State", 0, 0, 5)),
    ("maker", "bodies.0.rows.7.instruction", ("Set", 1), ("V-State", 0, 0, 7)),
    ("maker", "bodies.0.rows.5.instruction", ("Set", 0), ("V-State", 0, 0, 5)),
    ("maker", "bodies.2.rows.8.instruction", ("Set", 1), ("V-State", 0, 2, 8)),
    ("maker", "bodies.0.rows.7.instruction", ("Drop",), ("V-State", 0, 0, 8)),
    ("maker", "bodies.0.rows", put(8, row(*ONE)), ("V-State", 0, 0, 9)),
    ("maker", "bodies.1.rows.0.instruction", push("Instance", 0), ("V-State", 0, 1, 0)),
    ("maker", "bodies.0.rows.4.instruction", push("Grant", 0), ("V-State", 0, 0, 4)),
    ("maker", "bodies.2.rows", put(9, row(*ONE)), ("V-State", 0, 2, 11)),
    ("hello", "bodies.0.rows", without(2), ("V-State", 0, 0, 2)),
    ("hello", "bodies.0.rows", put(3, row("Drop")), ("V-State", 0, 0, 4)),
    # V-State at targets: stored slots, numbers of operands and of set fields, by a jump and by falling in.
    ("dice", "instances.0.typing.bodies.1.targets.0.stored", [], ("V-State", 0, 1, 15)),
    ("dice", "instances.0.typing.bodies.1.vals", [INT, INT], None),
    ("maker", f"{INIT}.targets.1.operands", [], ("V-State", 0, 0, 3)),
    ("maker", f"{INIT}.targets.0.operands", [INT], ("V-State", 0, 0, 1)),
    ("maker", f"{INIT}.targets", put(0, target(1)), ("V-State", 0, 0, 1)),
    ("maker", f"{INIT}.targets", put(0, target(0, [INT])), ("V-State", 0, 0, 0)),
    ("maker", f"{INIT}.targets", put(0, target(0)), None),
    ("maker", f"{INIT}.targets", put(1, target(4, [INT])), None),
    ("maker", f"{INIT}.targets", put(0, target(4, [INT])), ("V-State", 0, 0, 1)),
    ("maker", f"{MAKE}.targets", [target(1, [STRING], [2])], ("V-State", 0, 1, 1)),
    ("maker", f"{MAKE}.targets", [target(2, [], [2])], None),
    ("maker", f"{MAKE}.targets", [target(2)], ("V-State", 0, 1, 3)),
    ("maker", "bodies.0.rows", lambda _: rows(TRUE, ("JumpFalse", 4), ONE, ("Set", 1), ONE, ("Finish",)), ("V-State", 0, 0, 4)),
    # V-Depth: at the instruction that pushes too much, and in a body with no operand.
    ("maker", "bodies.1.slots", 2, ("V-Range", 0, 0, 0)),
    ("maker", "bodies.1.slots", 3, ("V-Depth", 0, 1, 0)),
    ("maker", "bodies.1.rows.1.instruction", push("Unit"), ("V-Depth", 0, 1, 2)),
    ("hello", "bodies.0.slots", 2, ("V-Depth", 0, 0, 1)),
    ("hello", f"{RUN}.vals", [INT] * 300, None),
    ("maker", "bodies.0.slots", 1, ("V-Depth", 0, 0, 0)),
    ("smallest", "bodies.0.slots", 0, ("V-Depth", 0, 0, 0)),
    # V-Type: each instruction, targets, the ends.
    ("maker", f"{MAKE}.vals", [INT], ("V-Type", 0, 1, 1)),
    ("maker", "bodies.0.rows.6.instruction", ONE, ("V-Type", 0, 0, 7)),
    ("maker", "bodies.0.rows.0.instruction", ONE, ("V-Type", 0, 0, 1)),
    ("maker", "bodies.0.rows.2.instruction", TRUE, ("V-Type", 0, 0, 3)),
    ("maker", "bodies.0.rows.4.instruction", TRUE, ("V-Type", 0, 0, 5)),
    ("maker", f"{INIT}.targets.1.operands", [BOOL], ("V-Type", 0, 0, 3)),
    ("maker", f"{INIT}.targets", put(0, target(3, [BOOL])), ("V-Type", 0, 0, 3)),
    ("maker", "bodies.1.rows.2.instruction", TRUE, ("V-Type", 0, 1, 3)),
    ("maker", "instances.0.typing.literals.0.0", INT, ("V-Type", 0, 1, 3)),
    ("maker", "instances.0.typing.literals.0.1", STRING, ("V-Type", 0, 1, 3)),
    ("maker", f"{MAKE}.result", ("Listed", 0), ("V-Type", 0, 1, 4)),
    ("maker", f"{MAKE}.result", UNIT, ("V-Type", 0, 1, 4)),
    ("maker", "instances.0.typing.bodies.2.effect", [atom(0, 1)], ("V-Type", 0, 1, 4)),
    ("maker", "bodies.2.rows.7.instruction", ("Op", ("++",)), ("V-Type", 0, 2, 7)),
    ("maker", "bodies.2.rows.3.instruction", ("Call", 2, 1), ("V-Type", 0, 2, 3)),
    ("maker", "bodies.2.rows.3.instruction", ("Call", 1, 2), ("V-Type", 0, 2, 3)),
    ("maker", "bodies.2.rows.1.instruction", ONE, ("V-Type", 0, 2, 3)),
    ("maker", "bodies.3.rows.4.instruction", ("Call", 0, 1), ("V-Type", 1, 0, 4)),
    ("maker", "bodies.3.rows", put(5, row("Drop"), row(*ONE)), ("V-Type", 1, 0, 7)),
    ("maker", "bodies.3.rows.4.instruction", ("Op", ("==",)), ("V-Type", 1, 0, 4)),
    ("maker", "bodies.3.rows", put(1, row(*push("Instance", 0)), row("Op", ("==",)), row("Drop")), ("V-Type", 1, 0, 2)),
    ("maker", "bodies.3.rows", put(1, row(*push("Unit")), row(*push("Unit")), row("Op", ("!=",)), row("Drop")), ("V-Type", 1, 0, 3)),
    ("maker", "bodies.3.rows", put(1, row(*TRUE), row(*TRUE), row("Op", ("!=",)), row("Drop")), None),
    # One body has one name, for all instances, and each row is of a file.
    ("hello", "files", [], ("V-Range", 0, 0, 0)),
    ("quiet", "instances.3.typing.bodies.1.name", b"x", ("V-Range", 0, 0, 0)),
    # An image is tested instance by instance, and of each instruction the rules in their order.
    ("quiet", "instances.3.typing.bodies.1.effect", [], ("V-Effect", 3, 1, 7)),
    ("quiet", "instances.2.typing.bodies", lambda before: before[::-1], None),
    ("maker", "bodies.1.rows", put(1, row("Drop"), row("Drop")), ("V-State", 0, 1, 2)),
)

# Changes after which the demand of V-Range fails that is named, and no other.
OUT_OF_RANGE = (
    ("files", [b"m.wy"] * 65, "limit files"),
    ("grants", lambda it: it + [Parts(name=b"g%d" % at, primitive=("Clock",)) for at in range(63)], "limit grants"),
    ("instances", lambda it: it * 1025, "limit instances"),
    ("bodies", lambda it: it * 4097, "limit bodies"),
    ("bodies.0.slots", 257, "limit slots"),
    ("grants.1.name", b"disk", "grants differ"),
    ("grants.1.name", b"new", "names of grants"),
    ("grants.1.name", b"", "names of grants"),
    ("grants.1.name", b"1a", "names of grants"),
    ("grants.1.name", b"\xff", "names of grants"),
    ("grants.1.name", b"a" * 65, "names of grants"),
    ("methods", lambda it: [*it, b"make"], "methods differ"),
    ("instances.0.name", b"main", "instances differ"),
    ("scopes.0.entries", lambda it: [*it, entry(2, 1)], "each body once"),
    ("bodies", lambda it: [*it, it[0]], "each body once"),
    ("types.0", lambda it: it * 2, "methods of a type differ"),
    ("types.1.0.method", 3, "method of a type"),
    ("types.1.0.effect", [atom(0, 5)], "atoms of a type"),
    ("types.1.0.effect", [atom(2, 0)], "atoms of a type"),
    ("types.1.0.result", ("Listed", 2), "references of a type"),
    ("types.1.0.parameters", [("Grant", 0)], "references of a type"),
    ("scopes.0.entries.0.method", 3, "method of an entry"),
    ("scopes.0.literals.0.entries", lambda it: [*it, entry(1, 2)], "entries differ"),
    ("bodies.3.parameters", 1, "parameters of a first body"),
    ("scopes.1.fields", 1, "fields of Main"),
    ("scopes.1.arguments", 1, "number of arguments"),
    ("bodies.1.rows.0.file", 0, "file of a row"),
    ("bodies.1.rows.0.file", 2, "file of a row"),
    ("bodies.1.rows.0.instruction", ("Load", 4), "number of Load"),
    ("bodies.2.rows.0.instruction", ("Get", 3), "number of Get"),
    ("bodies.2.rows.8.instruction", ("Set", 3), "number of Set"),
    ("bodies.0.rows.3.instruction", ("Jump", 9), "number of Jump"),
    ("bodies.0.rows.1.instruction", ("JumpFalse", 9), "number of JumpFalse"),
    ("bodies.1.rows.3.instruction", ("New", 1), "number of New"),
    ("scopes.0.literals.0.captures.0", ("Slot", 4), "number of New"),
    ("scopes.0.literals.0.captures.1", ("Value", 3), "number of New"),
    ("bodies.2.rows.3.instruction", ("Call", 3, 2), "number of Call"),
    ("bodies.3.rows.0.instruction", push("Instance", 1), "number of Push"),
    ("bodies.3.rows.0.instruction", push("Grant", 2), "number of Push"),
    ("bodies.3.rows.1.instruction", push("String", b"a" * 4194305), "number of Push"),
    ("instances.0.name", b"a:b", "name of an instance"),
    ("instances.0.name", b"", "name of an instance"),
    ("main.scope", 2, "scope of an instance"),
    ("instances.0.arguments", [], "number of arguments"),
    ("instances.0.arguments.0", ("Instance", 0), "arguments"),
    ("instances.0.arguments.0", ("Grant", 2), "arguments"),
    ("instances.0.typing.literals", lambda it: it * 2, "number of literals"),
    ("instances.0.typing.bodies", without(1), "bodies of an instance"),
    ("instances.0.typing.bodies.1.name", b"init", "names of bodies differ"),
    ("instances.0.typing.values", put(0, INT), "number of values"),
    ("instances.0.typing.literals.0", without(0), "number of values"),
    ("instances.0.typing.values.0", ("Literal", 1), "types of values"),
    ("instances.0.typing.values.0", ("Instance", 1), "types of values"),
    ("instances.0.typing.values.0", ("Grant", 2), "types of values"),
    ("instances.0.typing.values.1", ("Grant", 0), "types of fields"),
    (f"{MAKE}.name", b"a\x7f", "name of a body"),
    (f"{MAKE}.effect", [atom(1, 1)], "atoms of a body"),
    (f"{MAKE}.parameters", [], "number of parameters"),
    (f"{MAKE}.parameters", [("Literal", 0)], "types of a body"),
    (f"{MAKE}.result", ("Literal", 0), "types of a body"),
    (f"{MAKE}.vals", [], "number of vals"),
    (f"{MAKE}.vals", [("Listed", 2)], "types of vals"),
    (f"{INIT}.targets", put(0, target(9)), "address of a target"),
    (f"{INIT}.targets.0.operands", [("Literal", 1)], "types of a target"),
    (f"{MAKE}.targets", [target(1, stored=[1])], "slots of a target"),
    (f"{MAKE}.targets", [target(1, stored=[3])], "slots of a target"),
)

# What may have any value, as far as V-Range is concerned.
IN_RANGE = (
    ("files", [b"", b"\xff\n"]),
    ("methods", lambda it: [*it, b"", b"\xff:"]),
    ("bodies.1.rows.0.line", 0),
    ("bodies.1.rows.0.column", 2**32 - 1),
    ("grants.1.name", "été".encode()),
    ("instances.0.typing.values.0", ("Literal", 0)),
    (f"{MAKE}.vals", [("Instance", 0), ("Grant", 1)]),
    (f"{MAKE}.effect", [atom(0, 4), atom(0, 4)]),
    ("bodies.2.rows.3.instruction", ("Call", 2, 2**32 - 1)),
)


class Bytes(unittest.TestCase):
    def bad_place(self, data):
        with self.assertRaises(BadImage) as it:
            decode(data)
        return it.exception.at

    def test_samples_come_back_and_go_wrong_where_they_are_cut(self):
        files = sorted(glob.glob(os.path.join(DATA, "*.img")))
        self.assertEqual(len(files), 14)
        for file in files:
            with self.subTest(os.path.basename(file)):
                with open(file, "rb") as it:
                    data = it.read()
                self.assertEqual(encode(decode(data)), data)
                for size in range(0, len(data), 1 if len(data) <= MOST_CUT else 20):
                    self.assertEqual(self.bad_place(data[:size]), size)
                self.assertEqual(self.bad_place(data + b"\0"), len(data))

    def test_wrong_bytes_go_wrong_at_their_place(self):
        data = encode(named("smallest"))
        self.assertEqual(len(data), 147)
        for place, byte in ((0, b"X"), (7, b"2"), (48, b"\xff"), (48, b"\0"), (49, b"\x06"), (62, b"\x0e")):
            self.assertEqual(self.bad_place(data[:place] + byte + data[place + 1 :]), place)

    def test_tags_have_no_other_bytes(self):
        tags = (("grants.0.primitive", 5), ("instances.0.arguments.0", 2), ("scopes.0.literals.0.captures.0", 2))
        for path, tag in tags:
            image, at = maker(), None
            data = encode(image)
            # (the place of a tag is that of the first byte in which two images differ that differ in it alone)
            other = ("Clock",) if path.startswith("grants") else ("Instance", 0) if path.startswith("instances") else ("Value", 2)
            at = next(at for at, (one, two) in enumerate(zip(data, encode(changed(image, path, other)))) if one != two)
            self.assertEqual(self.bad_place(data[:at] + bytes([tag]) + data[at + 1 :]), at)

    def test_numbers_and_ints(self):
        image = changed(maker(), "bodies.0.rows.2.instruction", push("Int", -2))
        self.assertIn(b"\x01\x00\xfe" + b"\xff" * 7, encode(image))
        self.assertEqual(decode(encode(image)), image)


class Codes(unittest.TestCase):
    def test_the_code_of_the_logger(self):
        made = code(named("logger"))
        done = [[instruction for instruction, _ in it.instructions] for it in made.bodies]
        self.assertEqual(done[0], [("Finish",)])
        self.assertEqual(done[1][1], push("String", 0))
        self.assertEqual((made.texts[0], made.methods[:2]), (b"log", [b"log", b"append"]))
        self.assertEqual([(it.name, it.vals) for it in made.bodies], [(b"init", 0), (b"log", 0), (b"run", 0)])

    def test_texts_once_literals_after_the_own_object_and_vals(self):
        made = code(maker())
        self.assertEqual(made.texts, [b"a", b"f", b"b"])
        self.assertEqual([it[0] for it in made.bodies[3].instructions][3], push("String", 0))
        self.assertEqual(made.bodies[1].instructions[3][0], ("New", 1))
        self.assertEqual([len(it.captures) for it in made.scopes[0].literals], [0, 2])
        self.assertEqual([it.vals for it in made.bodies], [0, 1, 0, 0])
        self.assertEqual([(it.name, len(it.arguments)) for it in made.instances], [(b"m", 1), (b"main", 0)])

    def test_a_body_that_no_instance_states_has_no_name(self):
        image = maker()
        image.bodies.append(body(0, 1, ("Finish",)))
        image.scopes.append(scope(0, 4, 0, []))
        self.assertEqual((verify(image), code(image).bodies[4].name), (None, b""))


class Subtyping(unittest.TestCase):
    def fits(self, types, one, other):
        return types.fits(("Listed", one), ("Listed", other))

    def test_types_that_refer_to_themselves(self):
        def following(at):
            return signature(0, [], [], ("Listed", at))

        types = self.types_of([following(0)], [following(1)], [following(2), signature(1, [], [], INT)])
        wanted = {(0, 1), (1, 0), (2, 0), (2, 1)}
        self.assertEqual({(a, b) for a in range(3) for b in range(3) if a != b and self.fits(types, a, b)}, wanted)

    def test_parameters_are_exchanged(self):
        small, great = [signature(0, [], [], INT)], [signature(0, [], [], INT), signature(1, [], [], INT)]
        types = self.types_of(small, great, [signature(2, [("Listed", 0)], [], UNIT)], [signature(2, [("Listed", 1)], [], UNIT)])
        self.assertEqual((self.fits(types, 1, 0), self.fits(types, 0, 1)), (True, False))
        self.assertEqual((self.fits(types, 2, 3), self.fits(types, 3, 2)), (True, False))

    def test_grants_have_all_methods_whatever_is_listed(self):
        types = self.types_of([], [signature(3, [STRING], [atom(0, 0)], STRING)], [signature(4, [STRING], [atom(0, 1)], UNIT)])
        disk, clock = ("Grant", 0), ("Grant", 1)
        self.assertEqual([types.fits(disk, ("Listed", at)) for at in range(3)], [True, True, False])
        self.assertEqual([types.fits(it, disk) for it in (clock, ("Listed", 1), disk)], [False, False, True])
        self.assertEqual([types.fits(disk, clock), types.fits(("Listed", 0), clock)], [False, False])
        self.assertEqual(types.fits(clock, ("Listed", 0)), True)

    def test_base_types_fit_only_themselves(self):
        types = self.types_of([])
        every = [INT, BOOL, STRING, UNIT, ("Listed", 0)]
        self.assertEqual([(a, b) for a in every for b in every if types.fits(a, b)], [(it, it) for it in every])

    def types_of(self, *listed):
        image = changed(maker(), "types", list(listed))
        return Types(changed(image, "methods", [b"next", b"more", b"take", b"read", b"remove"]))


class Verifying(unittest.TestCase):
    def test_samples_are_verified_and_state_the_reports_of_their_programs(self):
        for file in sorted(glob.glob(os.path.join(DATA, "*.img"))):
            name = os.path.basename(file)[:-4]
            image = named(name)
            with self.subTest(name):
                self.assertEqual((range_faults(image), verify(image)), ([], None))
                if name != "smallest":
                    with open(os.path.join(TOP, "examples", name, "report.txt"), encoding="utf-8") as it:
                        self.assertEqual(report(image), it.read())

    def test_the_image_that_is_made_here(self):
        image = maker()
        self.assertEqual((range_faults(image), verify(image), decode(encode(image))), ([], None, image))

    def test_wrong_images(self):
        for name, path, value, failure in WRONG:
            with self.subTest(f"{name} {path}", failure=failure):
                self.assertEqual(verify(changed(original(name), path, value)), failure)

    def test_as_many_fields_are_set_wherever_a_state_comes_from(self):
        # Two jumps lead to one address, with no field set and with one.
        image = changed(maker(), "bodies.0.rows", rows(TRUE, ("JumpFalse", 5), ONE, ("Set", 1), ("Jump", 5), ("Finish",)))
        self.assertEqual(verify(changed(image, f"{INIT}.targets", [target(5)])), ("V-State", 0, 0, 4))

    def test_a_jump_may_go_to_the_next_address(self):
        image = changed(maker(), "bodies.1.rows", put(2, row("Jump", 3)))
        self.assertEqual(verify(image), ("V-Flow", 0, 1, 2))
        self.assertEqual(verify(changed(image, f"{MAKE}.targets", [target(3, [], [2])])), None)

    def test_after_a_target_an_operand_has_its_type_and_no_longer_its_own(self):
        image = changed(maker(), "types", put(2, []))
        self.assertEqual(verify(changed(image, f"{MAKE}.targets", [target(4, [("Listed", 1)])])), None)
        self.assertEqual(verify(changed(image, f"{MAKE}.targets", [target(4, [("Listed", 2)])])), ("V-Type", 0, 1, 4))

    def test_methods_of_main_push_grants_and_instances(self):
        image = maker()
        image.bodies.append(body(0, 3, push("Instance", 0), ("Drop",), push("Grant", 1), ("Return",)))
        image.scopes[1].entries.append(entry(0, 4))
        image.main.typing.bodies.append(of_body(4, b"clock", result=("Listed", 2)))
        self.assertEqual(verify(image), ("V-Range", 0, 0, 0))
        image.types.append([])
        self.assertEqual(verify(image), None)

    def test_what_is_out_of_range(self):
        for path, value, demand in OUT_OF_RANGE:
            image = changed(maker(), path, value)
            with self.subTest(path, demand=demand):
                self.assertIn(demand, range_faults(image))
                self.assertEqual(verify(image), ("V-Range", 0, 0, 0))

    def test_what_is_in_range(self):
        for path, value in IN_RANGE:
            with self.subTest(path):
                self.assertEqual(range_faults(changed(maker(), path, value)), [])


if __name__ == "__main__":
    unittest.main()
