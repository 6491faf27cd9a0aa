#!/usr/bin/env python3
"""Writes correct programs with products, and for each a witness with its invariants, into FOLDER:
NAME-WIDTH.c, NAME-WIDTH.yml, and unreach.prp for all. Prints their names.

Usage: tasks.py FOLDER [PATTERN]. PATTERN is a regular expression, as `^ps2-32$`: the tasks whose names it is found in
are written, and no others.

Most programs are those of SV-COMP's nla-digbench, with the invariants that a person would write; the last six have
no products. They are C but for these words, which `c_lines` replaces:

- `wide` and `uwide` are the signed and the unsigned type of WIDTH bits: short, int or long long;
- `draw(TYPE)` is an input of this type;
- `assume(E);` ends the run where E doesn't hold, `check(E);` calls `reach_error` there;
- `//@ loop invariant E;` belongs to the loop on the next line, or after more such lines, and goes to the witness.

Under unreach-call signed overflow wraps (docs/MEANING.md, "Runs"), and so the types are signed as in the competition.

The obligations are those of an experiment with a symbolic evaluator in Python, of 55 tasks. Four things differ:

- An `int` of 16 digits can't be written. `division-16` converts its results to `short`: its check has the same value
  for all inputs, but its circuits are those of 32 digits.
- How an element is read (by a tree of choices, or by a chain) is the validator's, so `search` is one task and not two.
- The inner loop of cohendiv doubles a and b, as in the competition; in the experiment it changed nothing.
- `checks` was added."""

import hashlib
import re
import sys
from pathlib import Path
from typing import NamedTuple

FORMULA = "G ! call(reach_error())"
SIGNED = {16: "short", 32: "int", 64: "long long"}
INPUTS = {
    "short": "short",
    "int": "int",
    "long long": "longlong",
    "unsigned short": "ushort",
    "unsigned int": "uint",
    "unsigned long long": "ulonglong",
}


class Program(NamedTuple):
    name: str
    widths: tuple
    body: str


class Task(NamedTuple):
    name: str
    width: int
    program: str
    witness: str


# ---- the programs


def power_sum(degree, summand, invariant):
    """The sum of the powers up to k, beside its closed form."""
    body = f"""
int k = draw(int);
wide y = 0, x = 0, c = 0;
//@ loop invariant {invariant};
while (1) {{
  check({invariant});
  if (c >= k) break;
  c = c + 1;
  y = y + 1;
  x = {summand} + x;
}}
check({invariant});
"""
    return Program(f"ps{degree}", (32, 64), body)


POWER_SUMS = [
    power_sum(2, "y", "y * y - 2 * x + y == 0"),
    power_sum(3, "y * y", "6 * x - 2 * y * y * y - 3 * y * y - y == 0"),
    power_sum(4, "y * y * y", "4 * x - y * y * y * y - 2 * y * y * y - y * y == 0"),
    power_sum(
        5, "y * y * y * y", "30 * x - 6 * y * y * y * y * y - 15 * y * y * y * y - 10 * y * y * y + y == 0"
    ),
    power_sum(
        6,
        "y * y * y * y * y",
        "-2 * y * y * y * y * y * y - 6 * y * y * y * y * y - 5 * y * y * y * y + y * y + 12 * x == 0",
    ),
]

SQRT1 = """
int n = draw(int);
wide a = 0, s = 1, t = 1;
//@ loop invariant t == 2 * a + 1 && s == (a + 1) * (a + 1);
while (1) {
  check(t == 2 * a + 1);
  check(s == (a + 1) * (a + 1));
  check(t * t - 4 * s + 2 * t + 1 == 0);
  if (s > n) break;
  a = a + 1;
  t = t + 2;
  s = s + t;
}
check(t == 2 * a + 1);
check(s == (a + 1) * (a + 1));
check(t * t - 4 * s + 2 * t + 1 == 0);
"""

GEO1 = """
int z = draw(int), k = draw(int);
assume(z >= 1);
assume(k >= 1);
uwide x = 1, y = z, c = 1;
//@ loop invariant x * z - x - y + 1 == 0;
while (1) {
  check(x * z - x - y + 1 == 0);
  if (c >= k) break;
  c = c + 1;
  x = x * z + 1;
  y = y * z;
}
x = x * (z - 1);
check(1 + x - y == 0);
"""

EGCD = """
int x = draw(int), y = draw(int);
assume(x >= 1);
assume(y >= 1);
wide a = x, b = y, p = 1, q = 0, r = 0, s = 1;
//@ loop invariant 1 == p * s - r * q && a == y * r + x * p && b == x * q + y * s;
while (1) {
  check(1 == p * s - r * q);
  check(a == y * r + x * p);
  check(b == x * q + y * s);
  if (a == b) break;
  if (a > b) {
    a = a - b;
    p = p - q;
    r = r - s;
  } else {
    b = b - a;
    q = q - p;
    s = s - r;
  }
}
check(a - b == 0);
check(p * x + r * y - b == 0);
check(q * r - p * s + 1 == 0);
check(q * x + s * y - b == 0);
"""

COHENDIV = """
int x = draw(int), y = draw(int);
assume(y >= 1);
wide q = 0, r = x, a = 0, b = 0;
//@ loop invariant b == y * a && x == q * y + r;
while (1) {
  check(b == y * a);
  check(x == q * y + r);
  if (r < y) break;
  a = 1;
  b = y;
  //@ loop invariant b == y * a && x == q * y + r && r >= y;
  while (1) {
    check(b == y * a);
    check(x == q * y + r);
    check(r >= 0);
    if (r < 2 * b) break;
    check(r >= 2 * y * a);
    a = 2 * a;
    b = 2 * b;
  }
  r = r - b;
  q = q + a;
}
check(x == q * y + r);
"""
# With 64 digits `2 * y` wraps at 32, and the invariants are too weak for this check.
COHENDIV_64 = COHENDIV.replace("    check(r >= 2 * y * a);\n", "")

# A bound of n doesn't hold where a + 1 wraps.
COHENCU = """
int a = draw(int);
wide n = 0, x = 0, y = 1, z = 6;
//@ loop invariant z == 6 * n + 6 && y == 3 * n * n + 3 * n + 1 && x == n * n * n;
while (1) {
  check(z == 6 * n + 6);
  check(y == 3 * n * n + 3 * n + 1);
  check(x == n * n * n);
  check(y * z - 18 * x - 12 * y + 2 * z - 6 == 0);
  check(z * z - 12 * y - 6 * z + 12 == 0);
  if (n > a) break;
  n = n + 1;
  x = x + y;
  y = y + z;
  z = z + 6;
}
check(z == 6 * n + 6);
"""

# The last check of cohencu, which needs n == a + 1 after the loop.
COHENCU_POST = """
int a = draw(int);
assume(a >= 0);
assume(a < 1000);
wide n = 0, x = 0, y = 1, z = 6;
//@ loop invariant z == 6 * n + 6 && x == n * n * n && y == 3 * n * n + 3 * n + 1 && n >= 0 && n <= a + 1;
while (1) {
  if (n > a) break;
  n = n + 1;
  x = x + y;
  y = y + z;
  z = z + 6;
}
check(6 * a * x - x * z + 12 * x == 0);
"""

PROD4BR = """
int x = draw(int), y = draw(int);
assume(y >= 1);
wide a = x, b = y, p = 1, q = 0;
//@ loop invariant q + a * b * p == (wide)x * y;
while (1) {
  check(q + a * b * p == (wide)x * y);
  if (a == 0 || b == 0) break;
  if (a % 2 == 0 && b % 2 == 0) {
    a = a / 2;
    b = b / 2;
    p = 4 * p;
  } else if (a % 2 == 1 && b % 2 == 0) {
    a = a - 1;
    q = q + b * p;
  } else if (a % 2 == 0 && b % 2 == 1) {
    b = b - 1;
    q = q + a * p;
  } else {
    a = a - 1;
    b = b - 1;
    q = q + (a + b + 1) * p;
  }
}
check(q == (wide)x * y);
check(a * b == 0);
"""

MANNADIV = """
int x1 = draw(int), x2 = draw(int);
assume(x1 >= 0);
assume(x2 != 0);
wide y1 = 0, y2 = 0, y3 = x1;
//@ loop invariant y1 * x2 + y2 + y3 == x1;
while (1) {
  check(y1 * x2 + y2 + y3 == x1);
  if (y3 == 0) break;
  if (y2 + 1 == x2) {
    y1 = y1 + 1;
    y2 = 0;
    y3 = y3 - 1;
  } else {
    y2 = y2 + 1;
    y3 = y3 - 1;
  }
}
check(y1 * x2 + y2 == x1);
"""

# The first loop of hard.
HARD_1 = """
unsigned int A = draw(unsigned int), B = draw(unsigned int);
assume(B >= 1);
uwide r = A, d = B, p = 1, q = 0;
//@ loop invariant q == 0 && r == A && d == B * p;
while (1) {
  check(q == 0);
  check(r == A);
  check(d == B * p);
  if (r < d) break;
  d = 2 * d;
  p = 2 * p;
}
check(A == q * B + r);
"""

# The second loop of hard, where d and p are assumed to be even as long as p isn't 1.
HARD_2 = """
unsigned int A = draw(unsigned int), B = draw(unsigned int);
uwide r = draw(uwide), d = draw(uwide), p = draw(uwide), q = draw(uwide);
assume(A == q * B + r && d == B * p);
//@ loop invariant A == q * B + r && d == B * p;
while (1) {
  check(A == q * B + r);
  check(d == B * p);
  if (p == 1) break;
  assume(p % 2 == 0);
  assume(d == 2 * (B * (p / 2)));
  assume(d / 2 == B * (p / 2));
  d = d / 2;
  p = p / 2;
  if (r >= d) {
    r = r - d;
    q = q + p;
  }
}
check(A == d * q + r);
check(B == d);
"""

SAME_PRODUCT = """
wide a = draw(wide), b = draw(wide);
check(a * b == a * b);
"""

COMMUTED = """
wide a = draw(wide), b = draw(wide), c = draw(wide);
check(a * b == b * a);
check((a * b) * c == a * (c * b));
check((a + b) * (a - b) == a * a - b * b);
"""

# Unsigned and signed products are the same number modulo 2^32.
SIGNS = """
wide a = draw(wide), b = draw(wide);
wide p = a * b;
uwide q = (uwide)a * (uwide)b;
check((wide)q == p);
"""

DIVISION = """
wide x = draw(wide), y = draw(wide);
assume(y != 0);
wide q = x / y, r = x % y;
check(x == (wide)(q * y + r));
"""

SQUARE = """
wide i = 0, s = 0, n = draw(wide);
//@ loop invariant s == i * i;
while (1) {
  if (i >= n) break;
  s = s + 2 * i + 1;
  i = i + 1;
}
check(s == i * i);
"""

# A product by addition: after the loop p == n * a needs i == n.
BY_ADDITION = """
uwide a = draw(uwide), n = draw(uwide);
uwide i = 0, p = 0;
//@ loop invariant p == i * a;
//@ loop invariant i <= n;
while (1) {
  if (i >= n) break;
  p = p + a;
  i = i + 1;
}
check(p == n * a);
"""

GAUSS_SUM = """
int n = draw(int);
assume(1 <= n && n <= 1000);
wide sum = 0, i = 1;
//@ loop invariant 1 <= i && i <= n + 1 && 2 * sum == i * (i - 1);
while (1) {
  if (i > n) break;
  sum = sum + i;
  i = i + 1;
}
check(2 * sum == n * (n + 1));
"""

# i is as wide as sn: with 32 digits it wraps where n is the greatest.
SUM02 = """
unsigned int n = draw(unsigned int);
uwide i = 0, sn = 0;
//@ loop invariant 2 * sn == i * (i - 1ULL) && i <= n + 1ULL;
while (1) {
  if (i > n) break;
  sn = sn + i;
  i = i + 1;
}
check(2 * sn == (uwide)n * ((uwide)n + 1));
"""

FERMAT = """
wide A = draw(wide), R = draw(wide);
wide u = 2 * R + 1, v = 1, r = R * R - A;
//@ loop invariant 4 * (A + r) == u * u - v * v - 2 * u + 2 * v;
while (1) {
  check(4 * (A + r) == u * u - v * v - 2 * u + 2 * v);
  if (r == 0) break;
  if (r > 0) {
    r = r - v;
    v = v + 2;
  } else {
    r = r + u;
    u = u + 2;
  }
}
check(4 * A == u * u - v * v - 2 * u + 2 * v);
"""

LCM1 = """
int a = draw(int), b = draw(int);
wide x = a, y = b, u = b, v = 0;
//@ loop invariant x * u + y * v == (wide)a * b;
while (1) {
  check(x * u + y * v == (wide)a * b);
  if (x == y) break;
  if (x > y) {
    x = x - y;
    v = v + u;
  } else {
    y = y - x;
    u = u + v;
  }
}
check(u * y + v * y == (wide)a * b);
"""

KNUTH = """
int n = draw(int), a = draw(int);
assume(n > 2);
assume(a > 2);
assume(a % 2 == 1);
wide d = a, r = n % a, t = 0;
wide k = n % (d - 2);
wide q = 4 * (n / (d - 2) - n / d);
//@ loop invariant d * d * q - 2 * q * d - 4 * r * d + 4 * k * d + 8 * r == 8 * n;
//@ loop invariant k * t == t * t;
while (1) {
  check(d * d * q - 2 * q * d - 4 * r * d + 4 * k * d + 8 * r == 8 * n);
  check(k * t == t * t);
  if (r == 0) break;
  if (2 * r - k + q < 0) {
    t = r;
    r = 2 * r - k + q + d + 2;
    k = t;
    q = q + 4;
    d = d + 2;
  } else {
    t = r;
    r = 2 * r - k + q;
    k = t;
    d = d + 2;
  }
}
"""

BRESENHAM = """
int X = draw(int), Y = draw(int);
wide v = 2 * Y - X, y = 0, x = 0;
//@ loop invariant 2 * Y * x - 2 * X * y - X + 2 * Y - v == 0;
while (1) {
  check(2 * Y * x - 2 * X * y - X + 2 * Y - v == 0);
  if (x > X) break;
  if (v < 0) {
    v = v + 2 * Y;
  } else {
    v = v + 2 * (Y - X);
    y = y + 1;
  }
  x = x + 1;
}
check(2 * Y * x - 2 * x * y - X + 2 * Y - v + 2 * y == 2 * Y * x - 2 * x * y - X + 2 * Y - v + 2 * y);
"""

# ---- loops without products

COUNT_UP_DOWN = """
uwide n = draw(uwide);
uwide x = n, y = 0;
//@ loop invariant x + y == n;
while (1) {
  if (x == 0) break;
  x = x - 1;
  y = y + 1;
}
check(y == n);
"""

DOWN = """
int n = draw(int);
wide k = 0, i = 0;
//@ loop invariant k == i && i >= 0 && (i <= n || i == 0);
while (1) {
  if (i >= n) break;
  i = i + 1;
  k = k + 1;
}
wide j = n;
//@ loop invariant j <= 0 || k == j;
while (1) {
  if (j <= 0) break;
  check(k > 0);
  j = j - 1;
  k = k - 1;
}
"""

HHK2008 = """
int a = draw(int), b = draw(int);
assume(a <= 1000000);
assume(0 <= b && b <= 1000000);
wide res = a, cnt = b;
//@ loop invariant res + cnt == a + b && cnt >= 0;
while (1) {
  if (cnt <= 0) break;
  cnt = cnt - 1;
  res = res + 1;
}
check(res == a + b);
"""

BHMR2007 = """
int n = draw(int);
assume(n >= 0 && n <= 1000000);
wide i = 0, a = 0, b = 0;
//@ loop invariant a + b == 3 * i && 0 <= i && i <= n;
while (1) {
  if (i >= n) break;
  if (draw(int) != 0) {
    a = a + 1;
    b = b + 2;
  } else {
    a = a + 2;
    b = b + 1;
  }
  i = i + 1;
}
check(a + b == 3 * n);
"""

SEARCH = """
int a[100];
int q = draw(int);
wide i = 0;
//@ loop invariant 0 <= i && i <= 100;
while (1) {
  if (i >= 100) break;
  if (a[i] == q) break;
  i = i + 1;
}
check(i >= 100 || a[i] == q);
"""

# Checks in a row, each weaker than the one before.
CHECKS = "\n".join(
    [
        "int x = draw(int);",
        "assume(x <= 1000);",
        *(f"if (x > 1000 + {k}) reach_error();" for k in range(400)),
    ]
)

PROGRAMS = [
    *POWER_SUMS,
    Program("sqrt1", (32, 64), SQRT1),
    Program("geo1", (32, 64), GEO1),
    Program("egcd", (32, 64), EGCD),
    Program("cohendiv", (32,), COHENDIV),
    Program("cohendiv", (64,), COHENDIV_64),
    Program("cohencu", (32, 64), COHENCU),
    Program("cohencu_post", (32, 64), COHENCU_POST),
    Program("prod4br", (32, 64), PROD4BR),
    Program("mannadiv", (32,), MANNADIV),
    Program("hard_1", (32,), HARD_1),
    Program("hard_2", (32,), HARD_2),
    Program("same_product", (16, 32, 64), SAME_PRODUCT),
    Program("commuted", (16, 32, 64), COMMUTED),
    Program("signs", (32,), SIGNS),
    Program("division", (16, 32), DIVISION),
    Program("square", (32, 64), SQUARE),
    Program("by_addition", (32, 64), BY_ADDITION),
    Program("gauss_sum", (32,), GAUSS_SUM),
    Program("sum02", (64,), SUM02),
    Program("fermat", (32, 64), FERMAT),
    Program("lcm1", (32, 64), LCM1),
    Program("knuth", (32,), KNUTH),
    Program("bresenham", (32,), BRESENHAM),
    Program("count_up_down", (32, 64), COUNT_UP_DOWN),
    Program("down", (32,), DOWN),
    Program("hhk2008", (32,), HHK2008),
    Program("bhmr2007", (32,), BHMR2007),
    Program("search", (32,), SEARCH),
    Program("checks", (32,), CHECKS),
]

# ---- their files


def c_lines(body, width):
    """The lines of a program in C, and its invariants, each with the line of its loop."""
    body = re.sub(r"\buwide\b", f"unsigned {SIGNED[width]}", body)
    body = re.sub(r"\bwide\b", SIGNED[width], body)
    drawn = sorted(set(re.findall(r"\bdraw\(([a-z ]+)\)", body)))
    body = re.sub(r"\bdraw\(([a-z ]+)\)", lambda it: f"__VERIFIER_nondet_{INPUTS[it[1]]}()", body)
    body = re.sub(r"\bassume\((.*)\);$", r"if (!(\1)) abort();", body, flags=re.M)
    body = re.sub(r"\bcheck\((.*)\);$", r"if (!(\1)) reach_error();", body, flags=re.M)
    lines = ["extern void abort(void);", "void reach_error() { }"]
    lines += [f"{kind} __VERIFIER_nondet_{INPUTS[kind]}();" for kind in drawn]
    lines += ["int main() {"]
    invariants = []
    for line in body.strip().splitlines():
        stated = re.match(r" *//@ loop invariant (.*);$", line)
        if stated:
            invariants.append((len(lines) + 1, stated[1]))
        else:
            lines.append("  " + line)
    return [*lines, "  return 0;", "}"], invariants


def witness_lines(program, digest, invariants):
    named = f"input_files: [{program}], input_file_hashes: {{{program}: {digest}}}"
    lines = [
        "- entry_type: invariant_set",
        "  metadata:",
        '    format_version: "2.0"',
        "    uuid: 01234567-89ab-4cde-8f01-23456789abcd",
        "    creation_time: 2024-04-10T12:00:00Z",
        '    producer: {name: bench, version: "1"}',
        f"    task: {{{named}, specification: '{FORMULA}', data_model: ILP32, language: C}}",
        "  content:" if invariants else "  content: []",
    ]
    for line, value in invariants:
        where = f"type: loop_invariant, location: {{line: {line}}}"
        lines.append(f'    - invariant: {{{where}, value: "{value}", format: c_expression}}')
    return lines


def write_task(folder, task, body):
    lines, invariants = c_lines(body, task.width)
    text = "\n".join(lines) + "\n"
    (folder / task.program).write_text(text)
    digest = hashlib.sha256(text.encode()).hexdigest()
    (folder / task.witness).write_text("\n".join(witness_lines(task.program, digest, invariants)) + "\n")


def chosen(pattern=""):
    """The tasks in whose names the pattern is found, each with the body of its program."""
    return [
        (Task(name, width, f"{name}-{width}.c", f"{name}-{width}.yml"), body)
        for name, widths, body in PROGRAMS
        for width in widths
        if re.search(pattern, f"{name}-{width}")
    ]


def write(folder, pattern=""):
    """The chosen tasks; their files are written, and the property."""
    (folder / "unreach.prp").write_text(f"CHECK( init(main()), LTL({FORMULA}) )\n")
    listed = chosen(pattern)
    for task, body in listed:
        write_task(folder, task, body)
    return [task for task, _ in listed]


def main():
    if len(sys.argv) not in (2, 3):
        sys.exit("usage: tasks.py FOLDER [PATTERN]")
    folder = Path(sys.argv[1])
    folder.mkdir(parents=True, exist_ok=True)
    for task in write(folder, *sys.argv[2:]):
        print(f"{task.name}-{task.width}")


if __name__ == "__main__":
    main()
