#!/usr/bin/env python3
"""Checks the EBNF of the grammar. It says nothing if all is well.

- The lines in docs/LANGUAGE.md, and those in the comments of crates/dsl_tree/specs/Grammar.antt, are the same words.
- Each part of the grammar has such lines, by its own name, and no other name has any.
- The lines of each part write what its rules write. Both are read as sets of rows of tokens and of the parts that the
  lines name; the other parts of the rules are replaced by their own rules. Such sets are regular, so they are compared
  whole.

With `--write` it first puts the lines of Grammar.antt into docs/LANGUAGE.md. Those of a new part come after those of the
part before it.
"""
import re
import sys

import grammar_lists
from grammar_lists import CRATES, SPECS

PAGE = CRATES.parent / "docs/LANGUAGE.md"
KINDS = (CRATES / "dsl_lexer/specs/Kinds.antt", CRATES / "dsl_lexer/specs/Shapes.antt")
# What the words without quotes stand for, by the names of codes in specs/Codes.antt.
TOKENS = {
    "N": "si_name factor_name offset_name other_name",
    "B": "si_name other_name",
    "SI": "si_name",
    "factor": "factor_name",
    "offset": "offset_name",
    "E": "small_number",
    "W": "small_number large_number",
    "R": "small_number large_number point_number",
    "P": "physical_code",
    "S": "text_code",
    "NL": "Newline",
    "INDENT": "Indent",
    "DEDENT": "Dedent",
    "END": "End",
}
# No set of one part has so many states.
MANY = 10000


class Bad(Exception):
    """What is wrong with the lines."""


def ebnf_name(part):
    return re.sub(r"(?<!^)(?=[A-Z])", "_", part).lower()


def page_texts():
    """The lines of each name in the page's section on the grammar."""
    section = re.search(r"^## Grammar\n(.*?)^## ", PAGE.read_text(), re.M | re.S).group(1)
    lines = {}
    for block in re.findall(r"^```\n(.*?)^```", section, re.M | re.S):
        for text in re.split(r"\n(?=\S)", block.rstrip()):
            name = text.split()[0]
            if name in lines:
                raise Bad(f"docs/LANGUAGE.md: {name} has lines twice")
            lines[name] = text
    return lines


def comment_texts():
    """The lines of each part in the comment above its rules."""
    lines = {}
    for comment, part in re.findall(r"((?:^-- .*\n)*)^rules (\w+) =$", (SPECS / "Grammar.antt").read_text(), re.M):
        name = ebnf_name(part)
        found = re.search(rf"^-- ({name}\s+(?:--\s+)?=.*)", comment, re.M | re.S)
        if not found:
            raise Bad(f"Grammar.antt: no line of {name} above its rules")
        lines[name] = re.sub(r"^-- ", "", found.group(1), flags=re.M).rstrip()
    return lines


def write():
    """Puts the lines of the parts into the page."""
    known, page, before = page_texts(), PAGE.read_text(), None
    for name, text in comment_texts().items():
        if name in known:
            page = page.replace(f"\n{known[name]}\n", f"\n{text}\n", 1)
        elif before:
            page = page.replace(f"\n{before}\n", f"\n{before}\n{text}\n", 1)
        before = text
    PAGE.write_text(page)


def words(texts):
    return {name: text.split() for name, text in texts.items()}


class Reader:
    """The tree of what an EBNF line writes: `("row", trees)`, `("any", trees)`, `("many", tree)`, or a symbol."""

    def __init__(self, name, words, symbol):
        self.left = re.findall(r"'[^']*'|[A-Za-z_]+|\S", " ".join(words[2:]))
        self.name, self.symbol = name, symbol
        self.tree = self.choice()
        if words[1] != "=" or self.left:
            raise Bad(f"{name}: can't be read at {' '.join(self.left)}")

    def choice(self):
        trees = [self.row()]
        while self.left[:1] == ["|"]:
            self.left.pop(0)
            trees.append(self.row())
        return ("any", trees)

    def row(self):
        trees = []
        while self.left and self.left[0] not in ("|", ")", "]", "}"):
            trees.append(self.item())
        return ("row", trees)

    def item(self):
        word = self.left.pop(0)
        for opening, closing in ("()", "[]", "{}"):
            if word == opening:
                tree = self.choice()
                if self.left[:1] != [closing]:
                    raise Bad(f"{self.name}: no {closing} for a {opening}")
                self.left.pop(0)
                return {"(": tree, "[": ("any", [tree, ("row", [])]), "{": ("many", tree)}[opening]
        return self.symbol(self.name, word)


class Steps:
    """A set of rows as states: from each, steps by a token or a part, or by nothing (None). A state is a number."""

    def __init__(self):
        self.steps = []
        self.known = {}

    def state(self):
        self.steps.append([])
        if len(self.steps) > MANY:
            raise Bad("a part repeats itself in the middle, so its lines must name it")
        return len(self.steps) - 1

    def step(self, start, by, end):
        self.steps[start].append((by, end))

    def tree(self, tree, end):
        """The state from which a tree leads to the end."""
        kind, value = tree
        start = self.state()
        if kind == "any":
            for it in value:
                self.step(start, None, self.tree(it, end))
        elif kind == "row":
            for it in reversed(value):
                end = self.tree(it, end)
            self.step(start, None, end)
        elif kind == "many":
            self.step(start, None, end)
            self.step(start, None, self.tree(value, start))
        elif kind == "code":
            for code in value:
                self.step(start, code, end)
        else:
            self.step(start, value, end)
        return start

    def part(self, grammar, part, kept, end):
        """The state from which the rules of a part lead to the end. Parts that are kept are steps of their own."""
        if (part, end) in self.known:
            return self.known[part, end]
        start = self.known[part, end] = self.state()
        for row in grammar.rules[part]:
            at = end
            for kind, value in reversed(row):
                if kind == "part" and value not in kept:
                    at = self.part(grammar, value, kept, at)
                else:
                    at = self.tree((kind, value), at)
            self.step(start, None, at)
        return start

    def closed(self, states):
        """The states and all that are reached from them by nothing."""
        found, left = set(states), list(states)
        while left:
            for by, end in self.steps[left.pop()]:
                if by is None and end not in found:
                    found.add(end)
                    left.append(end)
        return frozenset(found)

    def after(self, states):
        """The states after each step."""
        ends = {}
        for state in states:
            for by, end in self.steps[state]:
                if by is not None:
                    ends.setdefault(by, set()).add(end)
        return {by: self.closed(found) for by, found in ends.items()}


def difference(steps, first, second, end):
    """A row that is in one of two sets alone, or None."""
    start = (steps.closed([first]), steps.closed([second]))
    seen, left = {start}, [(start, [])]
    while left:
        (one, two), row = left.pop(0)
        if (end in one) != (end in two):
            return row
        ones, twos = steps.after(one), steps.after(two)
        for by in {**ones, **twos}:
            pair = (ones.get(by, frozenset()), twos.get(by, frozenset()))
            if pair not in seen:
                seen.add(pair)
                left.append((pair, row + [by]))
    return None


def parts_in(tree):
    kind, value = tree
    if kind == "part":
        return {value}
    if kind == "code":
        return set()
    return set().union(*map(parts_in, value)) if kind in ("any", "row") else parts_in(value)


def check():
    page, comments = words(page_texts()), words(comment_texts())
    grammar = grammar_lists.Grammar(*(grammar_lists.plain(SPECS / name) for name in ("Grammar.antt", "Codes.antt")))
    parts = {ebnf_name(part): part for part in grammar.parts}
    for name in {**page, **parts}:
        if name not in page:
            raise Bad(f"docs/LANGUAGE.md: no line of {name}")
        if name not in parts:
            raise Bad(f"docs/LANGUAGE.md: {name} is no part of the grammar")
        if page[name] != comments.get(name):
            raise Bad(f"{name}: docs/LANGUAGE.md and Grammar.antt have different lines")
    texts = {}
    for path in KINDS:
        for text, kind in re.findall(r'\(codes "([^"]+)", (?:(?:Reserved|LeftOut) )?(\w+)\)', path.read_text()):
            if kind in grammar.kinds:
                texts[text] = grammar.kinds[kind]
    codes = {**grammar.named, **grammar.kinds}

    def symbol(name, word):
        if word[1:-1] in texts and word == f"'{word[1:-1]}'":
            return ("code", [texts[word[1:-1]]])
        if word in TOKENS:
            return ("code", [codes[code] for code in TOKENS[word].split()])
        if word in parts:
            return ("part", parts[word])
        raise Bad(f"{name}: {word} is no token and no part")

    for name, part in parts.items():
        tree = Reader(name, page[name], symbol).tree
        steps = Steps()
        end = steps.state()
        row = difference(steps, steps.tree(tree, end), steps.part(grammar, part, parts_in(tree), end), end)
        if row is not None:
            shown = {code: "'" + text + "'" for text, code in texts.items()}
            by_code = {code: it for it, code in codes.items() if it in " ".join(TOKENS.values()).split()}
            said = " ".join(str(shown.get(by, by_code.get(by, by))) for by in row)
            raise Bad(f"{name}: its lines and its rules differ at: {said or 'nothing'}")


if __name__ == "__main__":
    try:
        if "--write" in sys.argv[1:]:
            write()
        check()
    except Bad as why:
        sys.exit(f"tools/grammar_ebnf.py: {why}")
