"""What the tools share on certificates: reading one (docs/LANGUAGE.md, "Bytes of a certificate")."""

import struct

RULES = "T-Lit T-Var T-This T-Call T-New T-If T-Seq T-Val T-Set T-Op T-Asc T-Body T-Sub".split()


class Reader:
    def __init__(self, data):
        self.data, self.at = data, len(b"WYCERT01")

    def number(self):
        self.at += 4
        return struct.unpack_from("<I", self.data, self.at - 4)[0]

    def byte(self):
        self.at += 1
        return self.data[self.at - 1]

    def list(self, one):
        return [one() for _ in range(self.number())]

    def type(self):
        tag = self.byte()
        if tag == 4:
            return tag, self.number(), self.list(lambda: self.list(self.number))
        if tag == 5:
            return tag, self.number(), self.list(self.number)
        return (tag, self.number()) if tag == 6 else (tag,)

    def pair(self):
        return self.number(), self.number()

    def node(self):
        rule = self.byte()
        file, line, column, _, _ = (self.number() for _ in range(5))
        self.list(self.number)
        return rule, file, line, column

    def scope(self):
        types, pairs, plain = self.list(self.type), self.list(self.pair), self.list(self.pair)
        self.list(self.number)
        return {"types": types, "C-Pairs": pairs, "C-Plain": plain, "nodes": self.list(self.node)}


def scopes_of(file):
    """Returns the scopes of a certificate, or none if it cannot be read."""
    try:
        with open(file, "rb") as it:
            reader = Reader(it.read())
        return reader.list(reader.scope)
    except (OSError, struct.error, IndexError):
        return []
