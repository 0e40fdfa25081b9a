"""What `certify` writes, read by the grammar of docs/LANGUAGE.md ("Certificates") and held against what was worked out by hand."""

import os
import subprocess

from support import HELLO, PROGRAM, ToolTest, needs_program

LIT, VAR, CALL, BODY, SUB = 0, 1, 3, 11, 12
INT, UNIT = (0,), (3,)

# The one literal is a part of the body, whose place is that of `run`.
SMALLEST = "program\n  run: {}\n    ()\n"

# A name of one type stands where another is asked for, which has the same method.
SUBSUMED = """type One
  def f(): {} Int
type Other
  def f(): {} Int
module one: One
  def f(): {} Int = 1
module asks: Other
  use one
  def f(): {} Int = (one: Other).f()
program
  run: {}
    ()
"""


class Reader:
    """Reads the bytes of a certificate from front to back."""

    def __init__(self, data):
        self.data, self.at = data, 0

    def byte(self):
        self.at += 1
        return self.data[self.at - 1]

    def num(self):
        self.at += 4
        return int.from_bytes(self.data[self.at - 4 : self.at], "little")

    def many(self, read):
        return [read() for _ in range(self.num())]

    def set(self):
        return self.many(self.num)

    def typ(self):
        form = self.byte()
        parts = {4: (self.num, lambda: self.many(self.set)), 5: (self.num, self.set), 6: (self.num,)}
        return (form, *(read() for read in parts.get(form, ())))

    def pair(self):
        return self.num(), self.num()

    def node(self):
        return (self.byte(), (self.num(), self.num(), self.num()), self.num(), self.num(), self.set())

    def scope(self):
        return self.many(self.typ), self.many(self.pair), self.many(self.pair), self.set(), self.many(self.node)

    def whole(self):
        """The scopes that all of the bytes say."""
        assert self.data[:8] == b"WYCERT01"
        self.at = 8
        scopes = self.many(self.scope)
        assert self.at == len(self.data), "more bytes follow"
        return scopes


@needs_program
class Certificates(ToolTest):
    def certified(self, text):
        self.write("x.wy", text)
        made = subprocess.run([PROGRAM, "certify", "x.wy"], cwd=self.room, capture_output=True, check=True)
        self.assertEqual(made.stderr, b"")
        with open(os.path.join(self.room, "certificate"), "wb") as it:
            it.write(made.stdout)
        said = subprocess.run([PROGRAM, "recheck", "certificate", "x.wy"], cwd=self.room, capture_output=True, check=True)
        self.assertEqual(said.stdout, b"proved\n")
        return Reader(made.stdout).whole()

    def test_the_smallest_program_has_one_type_and_two_nodes(self):
        nodes = [(LIT, (1, 3, 5), 0, 0, []), (BODY, (1, 2, 3), 1, 0, [])]
        self.assertEqual(self.certified(SMALLEST), [([UNIT], [], [], [], nodes)])

    def test_parts_come_before_the_whole_with_their_effects(self):
        # The place of a call is that of its method's name.
        [(types, pairs, plain, locals_, nodes)] = self.certified(HELLO)
        self.assertEqual((pairs, plain, locals_), ([], [], []))
        rules = [(rule, place, parts, effect) for rule, place, parts, _, effect in nodes]
        effect = rules[2][3]
        wanted = [(VAR, (1, 4, 5), 0, []), (LIT, (1, 4, 19), 0, []), (CALL, (1, 4, 13), 2, effect), (BODY, (1, 3, 3), 1, [])]
        self.assertEqual((rules, len(effect)), (wanted, 1))
        self.assertEqual([types[typ][0] for _, _, _, typ, _ in nodes[:3]], [4, 2, 3])

    def test_another_type_than_is_asked_for_is_a_pair(self):
        scopes = self.certified(SUBSUMED)
        types, pairs, _, _, nodes = scopes[1]
        [sub] = [it for it in nodes if it[0] == SUB]
        before = nodes[nodes.index(sub) - 1]
        self.assertEqual((before[0], before[1]), (VAR, sub[1]))
        self.assertIn((before[3], sub[3]), pairs)
        self.assertEqual([len(types), len(pairs)], [len(set(map(repr, types))), len(set(pairs))])
        self.assertIn(INT, types)
