"""`site` makes pages of the documents and of the public items, and each link leads somewhere."""

import glob
import html.parser
import os
import re
import shutil
import subprocess
import sys
import unittest

from support import TOP, ToolTest

sys.path.insert(0, os.path.join(TOP, "tools"))

import public_items  # noqa: E402

LIBRARY = """//! What is shared.

mod hidden;
pub mod open;

pub use hidden::{Kept, made};
pub use wy_other::thing::Thing;
"""
HIDDEN = """/// A thing that is *kept*.
#[derive(Debug)]
pub struct Kept {
    /// Its number.
    pub number: u8,
    secret: u8,
}

impl Kept {
    /// Returns the number (docs/LANGUAGE.md, "Two words").
    pub fn number(&self) -> u8
        requires small { self.now.number < 9 }
        ensures { result ≡ self.now.number }
    {
        self.number
    }

    fn none() {}
}

/// Makes one.
pub fn made(
    number: u8,
) -> Kept {
    Kept { number, secret: 1 }
}

pub fn unseen() {}
"""
OPEN = """//! What is open.

/// A kind.
pub enum Kind {
    A,
    B(u8),
}

pub type Kinds = Vec<Kind>;

pub const TABLE: [u8; 2] = [
    1, 2,
];

pub trait Taker {
    /// Takes one.
    fn take(&mut self) -> u8
        ensures { result ≡ 0 };
}

/// A law.
pub fn law()
    ensures { Law<A> }
{}
"""


class Links(html.parser.HTMLParser):
    """The links and the anchors of a page, and whether each tag is closed in its order."""

    def __init__(self, text):
        super().__init__()
        self.links, self.anchors, self.open, self.wrong = [], set(), [], []
        self.feed(text)
        self.close()

    def handle_starttag(self, tag, attrs):
        if tag not in ("meta", "link", "br", "hr", "img", "input", "col"):
            self.open.append(tag)
        for name, value in attrs:
            if name in ("href", "src"):
                self.links.append(value)
            if name == "id":
                self.anchors.add(value)

    def handle_endtag(self, tag):
        if not self.open or self.open.pop() != tag:
            self.wrong.append(tag)


class SiteTest(ToolTest):
    """A test with the sources of one crate in its folder."""

    def setUp(self):
        super().setUp()
        for name, text in (("lib", LIBRARY), ("hidden", HIDDEN), ("open", OPEN)):
            self.write(f"crates/wy_one/src/{name}.rt", text)
        self.folder = os.path.join(self.room, "crates", "wy_one")


class Items(SiteTest):
    def test_what_is_public(self):
        modules = public_items.modules_of(self.folder)
        self.assertEqual([(it.path, it.doc) for it in modules], [("", "What is shared."), ("open", "What is open.")])
        names = [[f"{it.kind} {it.owner}.{it.name}" for it in module.items] for module in modules]
        self.assertEqual(names, [["struct .Kept", "fn Kept.number", "fn .made"], ["enum .Kind", "type .Kinds", "const .TABLE", "trait .Taker", "fn .law"]])
        self.assertEqual(public_items.other_crates_uses(self.folder), ["wy_other::thing::Thing"])

    def test_signatures_and_clauses(self):
        texts = {it.name: it.text for module in public_items.modules_of(self.folder) for it in module.items}
        self.assertEqual(texts["Kept"], "pub struct Kept {\n    /// Its number.\n    pub number: u8,\n    // private fields\n}")
        clauses = "\n    requires small { self.now.number < 9 }\n    ensures { result ≡ self.now.number }"
        self.assertEqual(texts["number"], "pub fn number(&self) -> u8" + clauses)
        self.assertEqual(texts["made"], "pub fn made(\n    number: u8,\n) -> Kept")
        self.assertEqual((texts["Kinds"], texts["TABLE"]), ("pub type Kinds = Vec<Kind>;", "pub const TABLE: [u8; 2]"))
        self.assertEqual(texts["law"], "pub fn law()\n    ensures { Law<A> }")
        self.assertEqual(texts["Taker"], OPEN[OPEN.index("pub trait"): OPEN.index("\n/// A law")].rstrip("\n"))

    def test_uses(self):
        self.assertEqual(list(public_items.leaves("a::{b,\n c::{d, e}, }")), [["a", "b"], ["a", "c", "d"], ["a", "c", "e"]])

    def test_every_public_item_of_the_repository_has_a_text(self):
        found = [it for folder in glob.glob(os.path.join(TOP, "crates", "*")) for it in public_items.modules_of(folder)]
        items = [it for module in found for it in module.items]
        self.assertGreater(len(items), 100)
        for item in items:
            self.assertTrue(item.text.startswith("pub "), item)
            self.assertFalse(item.kind == "fn" and re.search(r"\n\{|\{$", item.text), item)


@unittest.skipUnless(shutil.which("pandoc"), "no pandoc")
class Pages(SiteTest):
    def setUp(self):
        super().setUp()
        for name in ("site", "site.css", "project.py", "public_items.py"):
            shutil.copy(os.path.join(TOP, "tools", name), self.write("tools/" + name, ""))
        self.write("README.md", "# `one`\n\nSee [it](docs/LANGUAGE.md#two-words), [a file](docs/a.yml), [nothing](none.md) and [x](https://x.y/).\n")
        self.write("docs/LANGUAGE.md", "# Language\n\n## Two words\n\n`wy_one` and `wy_one::open` and wy_two. [Back](../README.md).\n\n| a |\n|---|\n| b |\n")
        self.write("docs/OTHER.md", "# Other\n\n[A folder](../crates/wy_one/), [tools](../tools).\n")
        self.write("docs/a.yml", "a: 1\n")
        self.write("crates/wy_one/README.md", "# wy_one\n\nOne.\n")

    def site(self, *words):
        ran = subprocess.run([sys.executable, "tools/site", *words], cwd=self.room, capture_output=True, text=True)
        return ran.returncode, ran.stdout + ran.stderr

    def test_each_link_leads_somewhere(self):
        self.assertEqual(self.site("made"), (0, "site: 5 pages, 8 public items, 1 files copied, 0 links lead nowhere\n"))
        paths = glob.glob(os.path.join(self.room, "made", "**", "*.html"), recursive=True)
        pages = {os.path.normpath(it): Links(self.read(it)) for it in paths}
        self.assertEqual(len(pages), 5)
        for path, page in pages.items():
            self.assertEqual((page.wrong, page.open), ([], []), path)
            for link in page.links:
                name, _, anchor = link.partition("#")
                to = os.path.normpath(os.path.join(os.path.dirname(path), name)) if name else path
                if link != "https://x.y/":
                    self.assertTrue(os.path.isfile(to), (path, link))
                    self.assertTrue(not anchor or anchor in pages[to].anchors, (path, link))

    def test_what_the_pages_have(self):
        self.assertEqual(self.site("made")[0], 0)
        first = self.read("made/index.html")
        for text in ('<a href="docs/LANGUAGE.html#two-words">it</a>', '<a href="files/docs/a.yml.txt">a file</a>', ", nothing and ", "<title>one</title>"):
            self.assertIn(text, first)
        self.assertEqual(self.read("made/files/docs/a.yml.txt"), "a: 1\n")
        language = self.read("made/docs/LANGUAGE.html")
        self.assertIn('<a href="../crates/wy_one/index.html"><code>wy_one</code></a> and <code>wy_one::open</code> and wy_two.', language)
        self.assertIn('<div class="wide"><table>', language)
        self.assertIn('<a href="../crates/wy_one/index.html">A folder</a>, tools.', self.read("made/docs/OTHER.html"))
        crate = self.read("made/crates/wy_one/index.html")
        self.assertIn('<a href="../../docs/LANGUAGE.html#two-words">docs/LANGUAGE.md, "Two words"</a>', crate)
        self.assertIn("requires small { self.now.number &lt; 9 }", crate)
        index = self.read("made/items.html")
        self.assertIn('<a href="crates/wy_one/index.html#item.Kept.number"><code>Kept::number</code></a>', index)
        for path in ("index.html", "items.html", "crates/wy_one/index.html"):
            self.assertEqual(self.read("made/" + path).count('aria-current="page"'), 0 if path == "items.html" else 1)

    def test_arguments(self):
        self.assertEqual(self.site()[0], 2)
        self.assertEqual(self.site("--wild")[0], 2)
        self.assertEqual(self.site("docs"), (2, "site: docs is not an empty folder\n"))
        self.assertEqual(self.site("--help")[0], 0)

    def test_without_pandoc(self):
        ran = subprocess.run([sys.executable, "tools/site", "made"], cwd=self.room, capture_output=True, text=True, env={"PATH": self.room})
        self.assertEqual((ran.returncode, "apt-get install pandoc" in ran.stderr, os.path.exists(os.path.join(self.room, "made"))), (1, True, False))
