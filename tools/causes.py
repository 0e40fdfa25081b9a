"""What the tools share on `syntax: Unexpected`: the word that is meant, and the likely cause.

The causes are guesses from the words around the place. The grammar alone (docs/LANGUAGE.md, "Grammar") says what is accepted."""

import re

from sources import RESERVED, parts_at, word_at

# (the patterns of causes are not for longer lines)
LONGEST_HINTED = 2000
BASE_TYPES = {"Int", "Bool", "String", "Unit"}
# (reserved words that may stand where a name may)
NO_NAMES = BASE_TYPES | {"if", "this", "true", "false", "new"}
OPENED_BY = {")": "(", "]": "[", "}": "{"}
NAMING = re.compile(r"(?:\b(?:def|val|var|type|module|instance|import|grant|effect|use)|[(,])\s*$")
ORDER = (
    "in a module the order is `use`, `instance` and `import`, `effect`, `init`, then fields and methods; "
    "in a program it is `grant`, `use`, `instance` and `import`, `run`"
)
MISSING = {
    "while": "there are no loops: a method calls itself (docs/TOUR.md, \"Loops\")",
    "for": "there are no loops: a method calls itself (docs/TOUR.md, \"Loops\")",
    "return": "there is no `return`: the last line of a block is its value",
    "null": "there is no `null`: each field has an initialiser",
    "let": "a name for a value is `val NAME = ..`",
    "const": "a name for a value is `val NAME = ..`",
    "fun": "a method is `def NAME(..): {..} TYPE`",
    "fn": "a method is `def NAME(..): {..} TYPE`",
    "class": "there are no classes: there are types, modules, and object literals by `new`",
    "and": "and is `&&`, or is `||`, not is `!`",
    "or": "and is `&&`, or is `||`, not is `!`",
    "not": "and is `&&`, or is `||`, not is `!`",
}


def line_before(lines, number):
    """Returns the last line before a number that has words."""
    return next((it for it in reversed(lines[: number - 1]) if it.strip() and not it.strip().startswith("//")), "")


def in_line(word, before, rest, is_plain):
    """Returns the likely cause of a word in the middle of a line, or None."""
    return in_declaration(word, before, is_plain) or in_statement(word, before, rest) or in_expression(word, before)


def in_declaration(word, before, is_plain):
    if word in RESERVED - NO_NAMES and NAMING.search(before):
        return f"`{word}` is a reserved word, and cannot be a name"
    if word in BASE_TYPES and re.search(r"\bmodule \w+\(.*:\s*$", before):
        return "a module takes objects, not numbers or texts: give these to its methods"
    if re.search(r"\bdef \w+\(.*\):\s*$", before):
        if is_plain:
            return "in a plain module a method has no set of effects" if word == "{" else None
        return "outside a plain module a method needs its set of effects: `def f(): {} Unit`" if word != "{" else None
    if word in ("{", "[") and is_plain:
        return "in a plain module no effects are written"
    if word == "=" and re.search(r"\b(var|val) \w+\s*$", before):
        return "a field needs its type: `var n: Int = 0`"
    if word == "{" and re.search(r"\bdef \w+\(.*\)\s*$", before):
        return "a colon is missing before the set: `def f(): {} Unit`"
    if re.search(r"\bdef \w+\(.*\):\s*(\{.*\}\s*)?\w+(\[.*\])?\s+$", before):
        return "`=` is missing before the body, or the body belongs to the next, deeper line"
    if re.search(r"\bdef \w+\s*$", before) and word != "(":
        return "a method has parentheses, also without parameters: `def f(): {} Unit`"
    if re.search(r"\b(run|init)\s*$", before):
        return "a colon and a set belong here: `run: {..}`"
    if re.search(r"\b(run|init):\s*$", before):
        return "the set of effects is missing: `run: {}` may do nothing"
    if word == "<" and re.search(r":\s*\w+$", before):
        return "there are no generic types: write a type for each thing that it is of"
    if word in ("at", ":") and re.match(r"\s*(resource|plain|instance|import)\b", before) and "(" not in before:
        return "parentheses belong here, also without arguments or parameters"
    return None


def in_statement(word, before, rest):
    if word == "if" and re.search(r"\bval \w+\s*=\s*\(?$", before):
        return "a `val` that is given an `if` needs its type: `val x: Int = if ..`"
    if word == "if" and re.search(r"\belse\s+$", before):
        return "there is no `else if` over blocks: put the `if` on a line of its own under `else`, one indent deeper"
    if word == "=" and re.search(r"[-+*/%]$", before):
        return f"there is no `{before[-1]}=`: write `x = x {before[-1]} ..`"
    if word == "=" and rest.startswith("=>"):
        return "there are no lambdas: an object literal with one method does it (docs/TOUR.md, \"Callbacks\")"
    if word == "=" and re.search(r"\b(then|else)\s+\w+\s*$", before):
        return "an assignment cannot follow `then` or `else`: use an `if` with blocks, or `x = (if c then a else b : T)`"
    if word == "new":
        return "`new` stands alone on the right of `=` or on a line of its own: name the object by a `val` first"
    if word == ":" and re.search(r"\b(if|else|then|program)\b", before):
        return "no colon stands here: a block begins with the next, deeper line"
    return None


def in_expression(word, before):
    last = re.search(r"(\w+)\s*$", before)
    if word in ("<", "<=", ">", ">=", "==", "!=") and re.search(r"(==|!=|<=|>=|<|>)", before):
        return "comparisons do not follow one another: write `a < b && b < c`"
    if word == "." and re.search(r"-\s*\d+$", before):
        return "a call on a negative number needs parentheses"
    if word in ("[", "]"):
        return "there are no lists and no indexes: they are objects with methods (docs/TOUR.md, \"Lists\")"
    if word in MISSING or (last and last[1] in MISSING):
        return MISSING[word if word in MISSING else last[1]]
    if word == "if":
        return "an `if` inside an expression stands in parentheses with its type: `(if c then 1 else 2 : Int)`"
    if word == ")" and re.search(r"\(\s*if\b.*\belse\b", before):
        return "an `if` in parentheses needs its type: `(if c then 1 else 2 : Int)`"
    if word in (",", ")") and re.search(r"\btext_\w+\(", before):
        return "this `text_` word takes another number of arguments (docs/LANGUAGE.md, \"Operators\")"
    if word == "(" and last and last[1] not in RESERVED:
        return f"a method of the same module is called on `this`: `this.{last[1]}(..)`"
    if word in OPENED_BY and before.count(word) >= before.count(OPENED_BY[word]):
        return f"this `{word}` closes nothing that is open"
    if (word[0].isidentifier() or word[0] in '"0123456789') and re.search(r'[\w)"]\s*$', before):
        return "an operator, a comma or the end of the line is missing before it"
    return None


def at_begin(word, previous, is_dedent, kind):
    """Returns the likely cause of a word that begins its line, or stands at the end of the file, or None."""
    if word in ("use", "instance", "import", "effect", "init") and kind == "plain module":
        return "a plain module has fields and methods alone: it writes no effects, and uses no other module"
    if word in ("effect", "init") and kind == "program":
        return f"a program has no `{word}` line"
    if word in ("use", "instance", "import", "effect", "init", "grant"):
        return f"`{word}` comes too late here: {ORDER}"
    if word in ("def", "var") and kind == "program":
        return f"a `{word}` belongs to a module or to an object literal (`new`)"
    if word == "else":
        return "this `else` belongs to no `if`: it is as wide as its `if`, whose first block is deeper"
    if re.match(r"\s*val\b", previous):
        return "a block cannot end in a `val`: end it with a value, or with `()`"
    if re.search(r"(=|\brun:\s*\{.*\})\s*$", previous) or re.match(r"\s*(else|if\b.*)$", previous):
        return "the line before needs a value, or a block of deeper lines"
    if word in MISSING:
        return MISSING[word]
    if not kind:
        return "a file has types, modules and a program, which begin with `type`, `module`, `resource module`, `plain module` or `program`"
    if word in ("def", "val", "var", "new") and re.match(r"\s*(effect|def)\b", previous) and not is_dedent:
        return None
    if is_dedent:
        return "what is above this line is not complete: an `if` with blocks needs an `else` (`()` does nothing), and a program its `run`"
    return None


def hint(text, line, column, kind):
    """Says which word `Unexpected` names, and the likely cause, in an item of a kind."""
    lines, is_plain = text.split("\n"), kind == "plain module"
    before, rest = parts_at(lines[line - 1], column) if line <= len(lines) else ("", "")
    word = word_at(rest)
    is_end = not before.strip() and not "\n".join([rest, *lines[line:]]).strip()
    what = "the end of the file" if is_end else f"`{word}`" if word and not rest.startswith("//") else "the end of the line"
    said = f"{what} cannot follow what comes before it"
    previous = line_before(lines, line)
    if max(len(before), len(previous)) > LONGEST_HINTED:
        return [said]
    if before.strip() == "":
        is_dedent = len(before) < len(previous) - len(previous.lstrip(" "))
        cause = at_begin(word, previous, is_dedent, kind) or (in_line(word, "", rest, is_plain) if word else None)
    elif not word or rest.startswith("//"):
        cause = at_line_end(before)
    else:
        cause = in_line(word, before, rest, is_plain)
    return [said, *([f"likely: {cause}"] if cause else [])]


def at_line_end(before):
    """Returns what is likely missing at the end of a line, or None."""
    if re.match(r"\s*def \w+\(.*\):\s*\w+$", before):
        return "outside a plain module a method needs its set of effects: `def f(): {} Unit`"
    if re.match(r"\s*(resource |plain )?module\b", before) and not re.search(r"\)?\s*:\s*\w+\s*$", before):
        return "a module names the type that it is sealed at: `module m: Type`, `resource module m(..): Type`"
    if re.match(r"\s*import\b.*\)\s*$", before):
        return "an `import` has a bound: `import x = m(..) at {..}`"
    if re.search(r"\b(run|init):\s*$", before):
        return "the set of effects is missing: `run: {}` may do nothing"
    if before.rstrip().endswith("="):
        return "the value after `=` is missing"
    if re.search(r"\.\s*\w+$", before):
        return "a call has parentheses, also without arguments; there are no fields that others see"
    if before.count("(") > before.count(")"):
        return "a parenthesis is open: an expression stands on one line"
    if re.search(r"\bif\b", before) and re.search(r"\bthen\b", before):
        return "an `if` with `then` needs an `else` on the same line"
    return None
