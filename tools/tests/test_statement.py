"""statement: all that a definition stands on is printed, once and whole, and a name that stands for nothing is an error."""

import os
import shutil
import subprocess

from support import TOP, ToolTest

LOW = """-- Small things.
use Rattle.std.specs.Prelude.{◌≡◌, List, [], ◌∷◌}
use Rattle.wy_low.specs.declared.kinds.Kind.{Kind}
use Rattle.wy_low.specs.declared.kinds.Kind.TheVariants as kind

-- what nothing uses
abbrev pub unused : List Kind
unused = []

-- the list of one
abbrev pub one : Kind → List Kind
one kind.Big = []
one k = k ∷ []

mutual
  -- a tree
  pub data Tree where
    pub leaf : Kind → Tree
    node : Trees → Tree

  pub data Trees where
    pub none : Trees

-- of two sides
abbrev pub ◌⊑◌ : Kind → Kind → Type 0
a ⊑ b = a ≡ b
"""
HIGH = """use Rattle.wy_low.specs.Low.{one, leaf, ◌⊑◌}
use Rattle.wy_low.specs.Low as low
use Rattle.wy_low.specs.declared.kinds.Kind.{Kind}

module _ (k : Kind) where
  -- the text "unused -- in quotes" names nothing
  abbrev pub inner : Kind → Type 0
  inner other = (long : low.Tree) → one k ⊑ other

-- .. and this stands on it
pub record Top (k : Kind) : Type 0 where
  pub holds : inner k (first_of k).second
  pub tree : leaf k

abbrev pub first_of : Kind → Kind
first_of k = record k { unused = "unused" }
"""
FIELDS = """-- Two fields with the names of definitions.
use Rattle.wy_low.specs.Low.{one}
use Rattle.wy_low.specs.declared.kinds.Kind.{Kind}

-- what the statement says
abbrev pub Headline : Kind → Type 0
Headline k = asks k

abbrev pub asks : Kind → Type 0
asks k = one k

abbrev pub ResolveTo : Type 0
ResolveTo = Kind

-- it has a field of that name
pub record Asked : Type 0 where
  pub asks : Kind
"""


class Statements(ToolTest):
    def setUp(self):
        super().setUp()
        for name in ("statement", "project.py"):
            os.makedirs(os.path.join(self.room, "tools"), exist_ok=True)
            shutil.copy(os.path.join(TOP, "tools", name), os.path.join(self.room, "tools", name))
        self.write("crates/wy_low/specs/Low.antt", LOW)
        self.write("crates/wy_high/specs/High.antt", HIGH)

    def statement(self, *words):
        ran = subprocess.run([os.path.join(self.room, "tools/statement"), *words], capture_output=True, text=True)
        return ran.returncode, ran.stdout + ran.stderr

    def test_all_that_it_stands_on_and_nothing_else(self):
        status, said = self.statement("Top")
        self.assertEqual(status, 0)
        places = [said.index(it) for it in ("wy_low/specs/Low.antt", "one kind.Big", "pub data Tree ", "a ⊑ b", "High.antt", "inner other", "Top (k", "first_of k =")]
        self.assertEqual(places, sorted(places))
        self.assertIn("6 definitions", said)
        self.assertIn("wy_low: kinds.Kind", said)
        self.assertIn("std: List, [], ◌∷◌, ◌≡◌", said)
        self.assertNotIn("what nothing uses", said)
        self.assertEqual(said.count("one k = k ∷ []"), 1)
        self.assertIn("module _ (k : Kind) where\n\n[6]\n", said)

    def test_a_small_one(self):
        status, said = self.statement("wy_low.one")
        self.assertEqual((status, "1 definitions" in said, "Tree" in said), (0, True, False))

    def test_a_field_hides_no_definition(self):
        self.write("crates/wy_engine/specs/Fields.antt", FIELDS)
        status, said = self.statement("Headline")
        self.assertEqual((status, "asks k = one k" in said, "Asked" in said), (0, True, False))
        self.assertIn("3 definitions of 7 lines, in 2 files", said)
        self.assertIn("The whole files have 21 lines.", said)

    def test_each_readme_lists_the_files_of_the_statement(self):
        self.write("crates/wy_engine/specs/Fields.antt", FIELDS)
        self.write("crates/wy_rules/specs/Rules.antt", "abbrev pub Accepted : Type 0\nAccepted = Unit {0}\n")
        self.write("crates/wy_low/specs/Others.antt", "abbrev pub other : Type 0\nother = Unit {0}\n")
        self.write("crates/wy_low/specs/Lib.antt", "pub mod Low\npub mod Others\n")
        self.write("crates/wy_low/README.md", "# wy_low\n\n## Trusted\n\nAll.\n")
        self.assertEqual(self.statement("--check")[0], 1)
        self.assertEqual(self.statement("--write"), (0, "statement: 3 files, 3 written\n"))
        self.assertEqual(self.statement("--check"), (0, "statement: 3 files, 0 wrong\n"))
        page = self.read("crates/wy_low/README.md")
        self.assertTrue(page.startswith("# wy_low\n\n## Definitions\n\n"))
        self.assertTrue(page.endswith("\n- Part of the statement: `Low`.\n- Only for proofs: `Others`.\n\n## Trusted\n\nAll.\n"))
        self.write("crates/wy_low/README.md", page.replace("`Others`", "`Low`"))
        status, said = self.statement("--check")
        self.assertEqual((status, "crates/wy_low/README.md is not what the sources say" in said), (1, True))
        self.statement("--write")
        self.assertEqual(self.read("crates/wy_low/README.md"), page)

    def test_the_page_of_promises_has_the_counts(self):
        self.write("crates/wy_engine/specs/Fields.antt", FIELDS)
        self.write("crates/wy_rules/specs/Rules.antt", "abbrev pub Accepted : Type 0\nAccepted = Unit {0}\n")
        self.write("docs/PROMISES.md", "| [headline](statement/headline.txt) | all | 1 | 2 | 3 |\n")
        self.assertEqual(self.statement("--check")[0], 1)
        self.statement("--write")
        self.assertEqual(self.read("docs/PROMISES.md"), "| [headline](statement/headline.txt) | all | 3 | 7 | 21 |\n")
        self.assertEqual(self.statement("--check")[0], 0)

    def test_what_cannot_be_resolved_is_an_error(self):
        self.write("crates/wy_high/specs/High.antt", HIGH.replace("one k ⊑ other", "two k ⊑ other"))
        status, said = self.statement("Top")
        self.assertEqual((status, "two stands for nothing" in said), (1, True))
        self.write("crates/wy_high/specs/High.antt", HIGH.replace("{one, leaf", "{one, leave, leaf").replace("leaf k", "leave k"))
        status, said = self.statement("Top")
        self.assertEqual((status, "leave is not there" in said), (1, True))
        self.assertEqual(self.statement("Bottom")[0], 1)
        self.assertEqual(self.statement()[0], 2)
