"""Reads the C of the tasks: `main`, whose statements become trees. An expression is one of

- `("number", value, kind)`, `("name", name)`, `("element", name, index)`, `("draw", kind)`,
- `("cast", kind, part)`, `("-", part)`, `("!", part)`, `(operator, left, right)`;

a statement is one of

- `("block", statements)`, `("declare", kind, name, count, value)` (count and value may be None), `("set", name, value)`,
- `("if", test, then, otherwise)` (otherwise may be None), `("while", line, test, body)`,
- `("break",)`, `("end",)` for `abort` and `return`, `("fail",)` for `reach_error`."""

import re
from typing import NamedTuple

import tasks

TOKEN = re.compile(r"[A-Za-z_]\w*|\d+[UuLl]*|&&|\|\||[<>=!]=|[-+*/%<>=!(){}\[\],;]")
# From the weakest to the strongest; all of them go from left to right.
LEVELS = (("||",), ("&&",), ("==", "!="), ("<", ">", "<=", ">="), ("+", "-"), ("*", "/", "%"))


class Kind(NamedTuple):
    """A type of integers."""

    digits: int
    signed: bool


KINDS = {
    f"{prefix}{name}": Kind(digits, not prefix)
    for digits, name in tasks.SIGNED.items()
    for prefix in ("", "unsigned ")
}
INT = KINDS["int"]
DRAWN = {f"__VERIFIER_nondet_{word}": KINDS[name] for name, word in tasks.INPUTS.items()}
TYPE_WORDS = {word for name in KINDS for word in name.split()}


class Reader:
    """The tokens of a text, each with its line, and the place of the next one."""

    def __init__(self, lines, first=1):
        self.tokens = [(it[0], first + at) for at, line in enumerate(lines) for it in TOKEN.finditer(line)]
        self.at = 0

    def next(self):
        return self.tokens[self.at][0] if self.at < len(self.tokens) else ""

    def line(self):
        return self.tokens[self.at][1]

    def take(self):
        self.at += 1
        return self.tokens[self.at - 1][0]

    def skip(self, *expected):
        for word in expected:
            if self.next() != word:
                raise ValueError(f"{word} and not {self.next()} expected, line {self.line()}")
            self.at += 1

    def has(self, word):
        """Whether the next token is this one, which is taken then."""
        found = self.next() == word
        self.at += found
        return found


# ---- expressions


def expression(reader, level=0):
    if level == len(LEVELS):
        return unary(reader)
    tree = expression(reader, level + 1)
    while reader.next() in LEVELS[level]:
        operator = reader.take()
        tree = (operator, tree, expression(reader, level + 1))
    return tree


def unary(reader):
    word = reader.take()
    if word in ("-", "!"):
        return (word, unary(reader))
    if word == "(" and reader.next() in TYPE_WORDS:
        kind = kind_of(reader)
        reader.skip(")")
        return ("cast", kind, unary(reader))
    if word == "(":
        tree = expression(reader)
        reader.skip(")")
        return tree
    return number(word) if word[0].isdigit() else named(reader, word)


def number(word):
    """A decimal number, with the first type of C11 6.4.4.1 that has room for it."""
    digits = word.rstrip("UuLl")
    suffix = word[len(digits) :].upper()
    signed = "U" not in suffix
    wide = suffix.count("L") == 2 or int(digits) >= 2 ** (31 if signed else 32)
    return ("number", int(digits), Kind(64 if wide else 32, signed))


def named(reader, word):
    if word in DRAWN:
        reader.skip("(", ")")
        return ("draw", DRAWN[word])
    if not reader.has("["):
        return ("name", word)
    index = expression(reader)
    reader.skip("]")
    return ("element", word, index)


def kind_of(reader):
    words = []
    while reader.next() in TYPE_WORDS:
        words.append(reader.take())
    return KINDS[" ".join(words)]


# ---- statements


def statement(reader):
    line = reader.line()
    if reader.next() in TYPE_WORDS:
        return declaration(reader)
    word = reader.take()
    if word == "{":
        return block(reader)
    if word == "if":
        test, then = in_brackets(reader), statement(reader)
        return ("if", test, then, statement(reader) if reader.has("else") else None)
    if word == "while":
        return ("while", line, in_brackets(reader), statement(reader))
    return simple(reader, word)


def in_brackets(reader):
    reader.skip("(")
    tree = expression(reader)
    reader.skip(")")
    return tree


def block(reader):
    """What stands after `{`."""
    statements = []
    while not reader.has("}"):
        statements.append(statement(reader))
    return ("block", statements)


def declaration(reader):
    kind = kind_of(reader)
    declared = [declarator(reader, kind)]
    while reader.has(","):
        declared.append(declarator(reader, kind))
    reader.skip(";")
    return ("block", declared)


def declarator(reader, kind):
    name, count = reader.take(), None
    if reader.has("["):
        count = int(reader.take())
        reader.skip("]")
    return ("declare", kind, name, count, expression(reader) if reader.has("=") else None)


def simple(reader, word):
    if word == "break":
        tree = ("break",)
    elif word == "return":
        expression(reader)
        tree = ("end",)
    elif word in ("abort", "reach_error"):
        reader.skip("(", ")")
        tree = ("end",) if word == "abort" else ("fail",)
    else:
        reader.skip("=")
        tree = ("set", word, expression(reader))
    reader.skip(";")
    return tree


def changed(tree):
    """The names that a statement sets."""
    match tree:
        case ("set", name, _):
            return {name}
        case ("block", parts) | ("if", _, *parts) | ("while", _, _, *parts):
            return set().union(*map(changed, parts))
    return set()


def main_of(lines):
    """The block of `main`, which is the last function."""
    start = lines.index("int main() {")
    reader = Reader(lines[start + 1 :], start + 2)
    return block(reader)


def expression_of(text):
    reader = Reader([text])
    tree = expression(reader)
    if reader.next():
        raise ValueError(f"not an expression: {text}")
    return tree
