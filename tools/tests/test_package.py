"""package: what is packed runs where it was unpacked, tools and pages too."""

import gzip
import hashlib
import os
import subprocess

from support import HELLO, PROGRAM, TOP, ToolTest, copy, needs_program

PACKED = ("VERSION", "LICENSE", "CHANGELOG.md", "README.md", "docs", "editors", "completions", "man", "examples", "library", "tools")
REFUSED = "tools/renew_dist makes dist/ anew"


@needs_program
class Package(ToolTest):
    """In a copy of what is packed, over sources of one file, with the program in dist/."""

    def setUp(self):
        super().setUp()
        for name in PACKED:
            copy(os.path.join(TOP, name), os.path.join(self.room, name))
        self.write("crates.txt", "wy_cli:\n")
        self.write("crates/wy_cli/src/main.rt", "one")
        os.mkdir(os.path.join(self.room, "dist"))
        self.put(PROGRAM)
        sums = {
            "version": self.read("VERSION").strip(),
            "sources": self.tool_here("tools/sources_sum").stdout.strip(),
            "program": hashlib.sha256(self.bytes_of(PROGRAM)).hexdigest(),
        }
        self.write("dist/MANIFEST", "".join(f"{name} {value}\n" for name, value in sums.items()))

    def bytes_of(self, path):
        with open(path, "rb") as it:
            return it.read()

    def put(self, program):
        """Puts a program into dist/."""
        with open(os.path.join(self.room, "dist/wyvern.gz"), "wb") as it:
            it.write(gzip.compress(self.bytes_of(program)))

    def refused(self, why):
        ran = self.tool_here("tools/package")
        self.assertEqual(ran.returncode, 1)
        for wanted in (why, REFUSED):
            self.assertIn(wanted, ran.stderr)
        self.assertFalse(os.path.exists(os.path.join(self.room, "out/release")))

    def test_the_archive(self):
        ran = self.tool_here("tools/package")
        self.assertEqual(ran.returncode, 0, ran.stderr)
        release = os.path.join(self.room, "out", "release")
        version = self.read("VERSION").strip()
        names = sorted(it for it in os.listdir(release) if not it.endswith(".deb"))
        self.assertEqual(names, ["SHA256SUMS", f"wyvern-{version}-linux-x86_64.tar.gz"])
        subprocess.run(["sha256sum", "-c", "--quiet", "SHA256SUMS"], cwd=release, check=True)
        subprocess.run(["tar", "-xzf", names[1], "-C", self.room], cwd=release, check=True)
        self.write("x.wy", HELLO.replace("{console.Out}", "{}"))
        ran = self.tool_here("usr/share/wyvern/tools/explain", "check", "x.wy")
        self.assertEqual(ran.returncode, 4)
        self.assertIn("which does not allow console.Out", ran.stderr)
        share = os.path.join(self.room, "usr/share/wyvern")
        ran = subprocess.run(["./wyvern check library/*.wy examples/orders/*.wy"], shell=True, cwd=share, capture_output=True, text=True)
        self.assertEqual(ran.stdout, "accepted\n")

    def test_a_foreign_program(self):
        self.put(self.write("other", "#!/bin/sh\necho foreign\n"))
        self.refused("not the program that dist/MANIFEST names")

    def test_a_program_of_other_sources(self):
        self.write("crates/wy_cli/src/main.rt", "two")
        self.refused("of other sources")

    def test_a_program_of_another_version(self):
        self.write("VERSION", "9.9.9\n")
        self.refused("this is 9.9.9")

    def test_without_a_program(self):
        os.remove(os.path.join(self.room, "dist/wyvern.gz"))
        self.refused("no program in dist/")

    def test_words(self):
        self.assertEqual(self.tool_here("tools/package", PROGRAM).returncode, 1)

    def tool_here(self, name, *words):
        env = {it: value for it, value in os.environ.items() if it != "WYVERN"}
        return subprocess.run([os.path.join(self.room, name), *words], cwd=self.room, env=env, capture_output=True, text=True)
