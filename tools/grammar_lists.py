#!/usr/bin/env python3
"""Writes what follows from the rules of the grammar: two files of crates/dsl_tree.

It reads the parts and their rules from specs/Grammar.antt and the numbers of codes from specs/Codes.antt.

- specs/PartLists.antt: for each part the least lists that pass the test `is_predictive` of specs/Lookahead.antt.
- proofs/EachPart.antt: the list of all parts, and that a test which holds on it holds of each.

With `--check` it writes nothing, and fails if a file isn't what it would write.
"""
import pathlib
import re
import sys

CRATES = pathlib.Path(__file__).resolve().parent.parent / "crates"
CRATE = CRATES / "dsl_tree"
SPECS = CRATE / "specs"

LISTS_HEAD = """\
-- Written by tools/grammar_lists.py from the rules of Grammar.antt: change those, and run it again.
--
-- What each part may begin with, and what it may go on with, by the numbers of `Codes.code`. Nothing rests on these
-- lists but that they pass the test `is_predictive`, which proofs/Checked.antt computes for each part.
use Rattle.std.specs.Prelude.{ℕ, List, [], ◌∷◌, Bool, true, false}
use Rattle.dsl_tree.specs.Grammar.{Part}

-- the place of a part in the list of all parts, and what the functions below say of it
pub record Row : Type 0 where
  pub place : ℕ
  pub empty : Bool
  pub first : List ℕ
  pub goes_on : List ℕ
  pub second : List ℕ

abbrev row : ℕ → Bool → List ℕ → List ℕ → List ℕ → Row
row n e f g s = record { place = n; empty = e; first = f; goes_on = g; second = s }

abbrev pub row_of : Part → Row
"""

LISTS_TAIL = """\
-- the codes of the first token of a part
abbrev pub first : Part → List ℕ
first p = (row_of p).first

-- whether a part may be written as nothing
abbrev pub empty : Part → Bool
empty p = (row_of p).empty

-- the codes with which a longer part goes on at the end of a whole one
abbrev pub goes_on : Part → List ℕ
goes_on p = (row_of p).goes_on

-- the codes of the second token of a part
abbrev pub second : Part → List ℕ
second p = (row_of p).second
"""

EACH_HEAD = """\
-- Written by tools/grammar_lists.py from the parts of Grammar.antt: change those, and run it again.
--
-- The list of all parts: a test that holds on it holds of each.
use Rattle.std.proofs.Common.{◌≡◌, ℕ, zero, suc, List, [], ◌∷◌, Bool, true, subst, arith}
use Rattle.std.specs.List.{list_all}
use Rattle.dsl_tree.specs.Grammar.{Part}
use Rattle.dsl_tree.specs.PartLists.{row_of}
use Rattle.dsl_tree.proofs.Tests.{left_of, right_of}

-- the part at a place
abbrev part_at : List Part → ℕ → Part
part_at [] n = Part.File
part_at (p ∷ parts) zero = p
part_at (p ∷ parts) (suc n) = part_at parts n

passes : (test : Part → Bool) (parts : List Part) (n : ℕ) → test Part.File ≡ true → list_all test parts ≡ true → test (part_at parts n) ≡ true
passes test [] n f h = f
passes test (p ∷ parts) zero f h = left_of (test p) (list_all test parts) h
passes test (p ∷ parts) (suc n) f h = passes test parts n f (right_of (test p) (list_all test parts) h)

"""

EACH_TAIL = """\
-- each part stands at its own place
at_place : (p : Part) → part_at parts (row_of p).place ≡ p
at_place p = grind arith

pub each_part : (test : Part → Bool) → list_all test parts ≡ true → (p : Part) → test p ≡ true
each_part test h p = subst (λ (q : Part). test q ≡ true) (at_place p) (passes test parts (row_of p).place (left_of (test Part.File) _ h) h)
"""


def plain(path):
    """The text of a file without its comments."""
    return "\n".join(line.split("-- ")[0] for line in path.read_text().splitlines())


def numbers(text):
    """The codes that have names, and those of kinds, marks and words by their constructors."""
    named = {name: int(value) for name, value in re.findall(r"^(\w+) = (\d+)$", text, re.M)}
    kinds = {
        name: int(value)
        for name, value in re.findall(r"^(?:code|mark_code|word_code) \w+\.(\w+) = (\d+)$", text, re.M)
    }
    return named, kinds


class Grammar:
    """The parts in order, and the rules of each: rows of `("code", codes)` and `("part", name)`."""

    def __init__(self, grammar, codes):
        self.named, self.kinds = numbers(codes)
        self.definitions = dict(re.findall(r"^([a-z_]+) (?:[a-z]+ )?= (.*)$", grammar, re.M))
        self.parts = re.findall(r"^  (\w+) : Part$", grammar, re.M)
        self.rules = {}
        for name, body in re.findall(r"^rules (\w+) =\n(.*?)(?=^rules |\Z)", grammar, re.M | re.S):
            self.rules[name] = [self.row(text) for text in rows(" ".join(body.split()))]

    def row(self, text):
        return [self.symbol(symbol) for symbol in items(text)]

    def symbol(self, text):
        head, _, rest = text.partition(" ")
        if head == "Of":
            return ("part", rest)
        return ("code", self.codes(text))

    def codes(self, text):
        """The codes of a symbol, or of a list of codes."""
        head, _, rest = text.partition(" ")
        rest = inner(rest)
        if head in ("Seen", "Bare"):
            return [code for item in items(rest) for code in self.code(item)]
        if head == "name_or":
            return self.codes("Seen (si_name ∷ factor_name ∷ offset_name ∷ other_name ∷ map word_code (" + rest + "))")
        if head in ("mark", "word", "placed_mark", "placed_word"):
            return [self.kinds[rest]]
        if head in ("any_word", "placed_words", "placed_marks"):
            return [self.kinds[item] for item in items(rest)]
        return self.codes(self.definitions[head])

    def code(self, text):
        head, _, rest = text.partition(" ")
        if head == "map":
            return [self.kinds[item] for item in items(inner(rest.partition(" ")[2]))]
        if head in ("code", "mark_code", "word_code"):
            return [self.kinds[rest.split(".")[-1]]]
        return [self.named[head]]


def inner(text):
    """The text between its outer brackets, if it stands in such."""
    return text[1:-1] if text.startswith("(") and text.endswith(")") else text


def split(text):
    """The pieces between the outermost `∷` of a text."""
    pieces, depth, start = [], 0, 0
    for at, character in enumerate(text):
        depth += (character == "(") - (character == ")")
        if character == "∷" and depth == 0:
            pieces.append(text[start:at].strip())
            start = at + 1
    return pieces + [text[start:].strip()]


def items(text):
    """The items of a list that is written with `∷`. A last `map f xs` stands for its items."""
    return [piece for piece in split(text) if piece != "[]"]


def rows(text):
    """The rows of a list of rows, the last of which is `[]` and no row."""
    pieces = split(text)
    assert pieces[-1] == "[]"
    return ["[]" if piece == "[]" else inner(piece) for piece in pieces[:-1]]


def least(parts, step, start):
    """The least values of the parts of which each is at least what `step` makes of them."""
    values = {part: start() for part in parts}
    while True:
        later = {part: step(values, part) for part in parts}
        if later == values:
            return values
        values = later


def lists(grammar):
    """What may be empty, the first codes, the codes that a part goes on with, and the second codes."""
    parts, rules = grammar.parts, grammar.rules
    empty = least(
        parts,
        lambda now, p: any(all(kind == "part" and now[x] for kind, x in row) for row in rules[p]),
        bool,
    )

    def blank(row):
        return all(kind == "part" and empty[x] for kind, x in row)

    def begun(first, row):
        """The first codes of a row."""
        codes = set()
        for kind, x in row:
            codes |= first[x] if kind == "part" else set(x)
            if kind == "code" or not empty[x]:
                break
        return codes

    first = least(parts, lambda now, p: set().union(*(begun(now, row) for row in rules[p])), set)

    def ended(now, row):
        """The codes with which a longer row goes on at the end of a whole one."""
        codes = set()
        for kind, x in reversed(row):
            if kind == "code":
                break
            codes |= now[x] | (first[x] if empty[x] else set())
            if not empty[x]:
                break
        return codes

    goes_on = least(
        parts,
        lambda now, p: set().union(*(ended(now, row) for row in rules[p])) | (first[p] if empty[p] else set()),
        set,
    )

    def seconds(now, row):
        """The second codes of a row."""
        if not row:
            return set()
        (kind, x), others = row[0], row[1:]
        if kind == "code":
            return begun(first, others)
        return now[x] | begun(first, others) | (seconds(now, others) if empty[x] else set())

    second = least(parts, lambda now, p: set().union(*(seconds(now, row) for row in rules[p])), set)
    return empty, first, goes_on, second


def wrapped(head, words, width=150):
    """The words after the head, in as few lines as the width lets."""
    lines = [head]
    for word in words:
        if len(lines[-1]) + 1 + len(word) > width:
            lines.append("   ")
        lines[-1] += " " + word
    return lines


def lists_text(grammar):
    empty, first, goes_on, second = lists(grammar)

    def codes(values):
        text = " ∷ ".join([str(code) for code in sorted(values)] + ["[]"])
        return f"({text})" if values else text

    lines = []
    for at, part in enumerate(grammar.parts):
        columns = [codes(table[part]) for table in (first, goes_on, second)]
        lines += wrapped(f"row_of Part.{part} =", [f"row {at} {str(empty[part]).lower()}", *columns])
    return LISTS_HEAD + "\n".join(lines) + "\n\n" + LISTS_TAIL


def each_text(grammar):
    """The list of all parts, and the lemma on it."""
    words = ["Part." + grammar.parts[0], *("∷ Part." + part for part in grammar.parts[1:]), "∷ []"]
    lines = ["abbrev pub parts : List Part", "parts =", *wrapped("   ", words)]
    return EACH_HEAD + "\n".join(lines) + "\n\n" + EACH_TAIL


def main():
    grammar = Grammar(plain(SPECS / "Grammar.antt"), plain(SPECS / "Codes.antt"))
    outputs = {
        SPECS / "PartLists.antt": lists_text(grammar),
        CRATE / "proofs/EachPart.antt": each_text(grammar),
    }
    for path, text in outputs.items():
        if "--check" not in sys.argv[1:]:
            path.write_text(text)
        elif path.read_text() != text:
            sys.exit(f"{path}: not what tools/grammar_lists.py writes from the rules")


if __name__ == "__main__":
    main()
