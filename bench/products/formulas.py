#!/usr/bin/env python3
"""Writes the obligations of the tasks of tasks.py for other solvers: NAME-WIDTH.smt2 into FOLDER, in SMT-LIB 2 with the
logic QF_BV. Prints their names.

Usage: formulas.py FOLDER [PATTERN], as tasks.py.

A formula says that some obligation fails: `unsat` says that all of them hold. The obligations are those of Hoare's
logic: each invariant of a loop on arrival and after one turn from any values for which the invariants of the loop hold,
and that no `reach_error` is reached. They are made as docs/MEANING.md says ("Invariant sets"), in one pass:

- signed numbers wrap; a run ends, without a failure, where a divisor is 0 or an index is outside its array;
- an invariant holds where it is defined and isn't 0;
- what a loop changes has any value at its head, all else keeps what is known of it;
- what holds at a test is known after it, as are invariants where they were tested.

Values and conditions have names of their own, so no term is written twice. An element is a choice among all elements,
each a variable: there are no arrays."""

import sys
from pathlib import Path
from typing import NamedTuple

sys.dont_write_bytecode = True
import subset  # noqa: E402
import tasks  # noqa: E402
from subset import INT, Kind  # noqa: E402

# What SMT-LIB calls an operator: on any numbers, or on signed and on unsigned ones.
ANY = {"+": "bvadd", "-": "bvsub", "*": "bvmul"}
SIGNED = {"/": "bvsdiv", "%": "bvsrem", "<": "bvslt", "<=": "bvsle", ">": "bvsgt", ">=": "bvsge"}
UNSIGNED = {"/": "bvudiv", "%": "bvurem", "<": "bvult", "<=": "bvule", ">": "bvugt", ">=": "bvuge"}
TESTS = ("<", "<=", ">", ">=", "==", "!=")


class Value(NamedTuple):
    """A term, and its type; None for a truth, which C has as an int."""

    term: str
    kind: Kind | None


class State(NamedTuple):
    """`path` is all that is known, `way` the tests alone of the `if` that stand around this place in its loop."""

    path: str
    way: str
    cells: dict


# ---- terms


def both(left, right):
    if "false" in (left, right):
        return "false"
    return right if left == "true" else left if right == "true" else f"(and {left} {right})"


def either(left, right):
    if "true" in (left, right):
        return "true"
    return right if left == "false" else left if right == "false" else f"(or {left} {right})"


def opposite(truth):
    known = {"true": "false", "false": "true"}.get(truth)
    return known or (truth[5:-1] if truth.startswith("(not ") else f"(not {truth})")


def choice(test, left, right):
    return f"(ite {test} {left} {right})"


def literal(number, kind):
    return f"(_ bv{number} {kind.digits})"


def truth_of(value):
    return opposite(f"(= {value.term} {literal(0, value.kind)})") if value.kind else value.term


def converted(value, kind):
    """The value in another type (C11 6.3.1.3)."""
    if value.kind is None:
        return Value(choice(value.term, literal(1, kind), literal(0, kind)), kind)
    more = kind.digits - value.kind.digits
    if more > 0:
        extension = "sign_extend" if value.kind.signed else "zero_extend"
        return Value(f"((_ {extension} {more}) {value.term})", kind)
    cut = f"((_ extract {kind.digits - 1} 0) {value.term})"
    return Value(cut if more < 0 else value.term, kind)


def promoted(kind):
    return INT if kind is None or kind.digits < INT.digits else kind


def common(left, right):
    """The type in which two values meet (C11 6.3.1.8): the wider one, and of two as wide the unsigned one."""
    left, right = promoted(left), promoted(right)
    return max(left, right, key=lambda it: (it.digits, not it.signed))


# ---- runs


class Formula:
    """The unknowns of a formula, its named terms, and the conditions on which some obligation fails."""

    def __init__(self, invariants):
        self.invariants = invariants
        self.unknowns = []
        self.terms = {}
        self.failures = []
        self.exits = []

    def name_of(self, term):
        """A name for this term, the same for the same term, or the term itself where it's short."""
        if not term.startswith("(") or term.startswith("(_ bv"):
            return term
        return self.terms.setdefault(term, f"t{len(self.terms)}")

    def unknown(self, kind):
        name = f"v{len(self.unknowns)}"
        self.unknowns.append(f"(declare-fun {name} () (_ BitVec {kind.digits}))")
        return Value(name, kind)

    def text(self):
        lines = ["(set-logic QF_BV)", *self.unknowns, "(assert"]
        lines += [f"(let (({name} {term}))" for term, name in self.terms.items()]
        # (`or` has at least two parts)
        lines += ["(or false", *self.failures, ")" * (len(self.terms) + 2), "(check-sat)", "(exit)", ""]
        return "\n".join(lines)

    def evaluate(self, tree, cells, needs):
        """The value; what has to hold for it to be defined is added to `needs`."""
        match tree:
            case ("number", number, kind):
                return Value(literal(number, kind), kind)
            case ("name", name):
                return cells[name]
            case ("draw", kind):
                return self.unknown(kind)
            case ("cast", kind, part):
                return converted(self.evaluate(part, cells, needs), kind)
            case ("element", name, index):
                return self.element(cells[name], self.evaluate(index, cells, needs), needs)
            case ("!", part):
                return Value(opposite(truth_of(self.evaluate(part, cells, needs))), None)
            case ("-", part):
                value = self.evaluate(part, cells, needs)
                kind = promoted(value.kind)
                return Value(f"(bvneg {converted(value, kind).term})", kind)
            case ("&&" | "||", left, right):
                return self.in_turn(tree[0], left, right, cells, needs)
            case (operator, left, right):
                values = [self.evaluate(it, cells, needs) for it in (left, right)]
                return self.operation(operator, *values, needs)

    def element(self, cells, index, needs):
        """The element of a sequence of values."""
        at = self.name_of(index.term)
        needs.append(f"(bvult {at} {literal(len(cells), index.kind)})")
        term = cells[-1].term
        for number in reversed(range(len(cells) - 1)):
            term = choice(f"(= {at} {literal(number, index.kind)})", cells[number].term, term)
        return Value(term, cells[-1].kind)

    def in_turn(self, operator, left, right, cells, needs):
        """The right part isn't evaluated where the left one decides."""
        first = self.name_of(truth_of(self.evaluate(left, cells, needs)))
        later = []
        second = truth_of(self.evaluate(right, cells, later))
        decided = opposite(first) if operator == "&&" else first
        needs += [either(decided, it) for it in later]
        return Value((both if operator == "&&" else either)(first, second), None)

    def operation(self, operator, left, right, needs):
        kind = common(left.kind, right.kind)
        left, right = (converted(it, kind).term for it in (left, right))
        if operator in ("==", "!="):
            equal = f"(= {left} {right})"
            return Value(equal if operator == "==" else opposite(equal), None)
        if operator in ("/", "%"):
            right = self.name_of(right)
            needs.append(opposite(f"(= {right} {literal(0, kind)})"))
        word = ANY.get(operator) or (SIGNED if kind.signed else UNSIGNED)[operator]
        return Value(f"({word} {left} {right})", None if operator in TESTS else kind)

    def value_of(self, tree, state, kind=None):
        """A full expression, converted to a type where one is given, and the state in which it is defined."""
        needs = []
        value = self.evaluate(tree, state.cells, needs)
        value = converted(value, kind) if kind else value
        value = Value(self.name_of(value.term), value.kind)
        return value, self.known(state, *needs)

    def known(self, state, *truths):
        path = state.path
        for truth in truths:
            path = both(path, truth)
        return state._replace(path=self.name_of(path))

    def fork(self, test, state):
        """The test as a truth, and the states where it holds and where it doesn't; None for one that can't be."""
        if test[0] == "number":
            return ("true", state, None) if test[1] else ("false", None, state)
        value, state = self.value_of(test, state)
        truth = self.name_of(truth_of(value))
        ways = [(it, self.name_of(both(state.way, it))) for it in (truth, opposite(truth))]
        return truth, *(self.known(state._replace(way=way), it) for it, way in ways)

    def merged(self, states, way):
        """One state for several, each with a test: the first whose test holds is that of the run."""
        states = [(test, state) for test, state in states if state]
        if not states:
            return None
        *others, (_, last) = states
        path, cells = last.path, dict(last.cells)
        for test, state in reversed(others):
            path = either(state.path, path)
            for name, value in state.cells.items():
                if name in cells and cells[name] != value:
                    term = choice(test, value.term, cells[name].term)
                    cells[name] = Value(self.name_of(term), value.kind)
        return State(self.name_of(path), way, cells)

    def run(self, tree, state):
        """The state after a statement, or None where no run comes to its end."""
        if state is None or tree is None:
            return state
        match tree:
            case ("block", parts):
                for part in parts:
                    state = self.run(part, state)
                return state
            case ("declare", kind, name, count, value):
                return self.declare(kind, name, count, value, state)
            case ("set", name, value):
                value, state = self.value_of(value, state, state.cells[name].kind)
                return state._replace(cells={**state.cells, name: value})
            case ("if", test, then, otherwise):
                truth, yes, no = self.fork(test, state)
                return self.merged([(truth, self.run(then, yes)), ("true", self.run(otherwise, no))], state.way)
            case ("while", line, test, body):
                return self.loop(self.invariants.get(line, ()), test, body, state)
            case ("break",):
                self.exits[-1].append(state)
            case ("fail",):
                self.failures.append(state.path)

    def declare(self, kind, name, count, value, state):
        if value:
            cells, state = self.value_of(value, state, kind)
        elif count:
            cells = tuple(self.unknown(kind) for _ in range(count))
        else:
            cells = self.unknown(kind)
        return state._replace(cells={**state.cells, name: cells})

    def held(self, invariants, state):
        """The condition on which all invariants hold."""
        truth = "true"
        for tree in invariants:
            needs = []
            value = self.name_of(truth_of(self.evaluate(tree, state.cells, needs)))
            for need in (*needs, value):
                truth = both(truth, need)
        return self.name_of(truth)

    def claim(self, invariants, state):
        """The state after a test of the invariants."""
        truth = self.held(invariants, state)
        self.failures.append(both(state.path, opposite(truth)))
        return self.known(state, truth)

    def loop(self, invariants, test, body, before):
        before = self.claim(invariants, before)
        names = subset.changed(body) & set(before.cells)
        drawn = {name: self.unknown(before.cells[name].kind) for name in sorted(names)}
        head = State(before.path, "true", {**before.cells, **drawn})
        _, turn, left = self.fork(test, self.known(head, self.held(invariants, head)))
        self.exits.append([left])
        after = self.run(body, turn)
        if after:
            self.claim(invariants, after)
        return self.merged([(it.way, it) for it in self.exits.pop() if it], before.way)


def formula_of(body, width):
    """The text of the formula of a program."""
    lines, stated = tasks.c_lines(body, width)
    invariants = {}
    for line, text in stated:
        invariants.setdefault(line, []).append(subset.expression_of(text))
    formula = Formula(invariants)
    formula.run(subset.main_of(lines), State("true", "true", {}))
    return formula.text()


def write(folder, pattern=""):
    """The names of the tasks in whose names the pattern is found; their formulas are written."""
    names = []
    for task, body in tasks.chosen(pattern):
        names.append(f"{task.name}-{task.width}")
        (folder / f"{names[-1]}.smt2").write_text(formula_of(body, task.width))
    return names


def main():
    if len(sys.argv) not in (2, 3):
        sys.exit("usage: formulas.py FOLDER [PATTERN]")
    folder = Path(sys.argv[1])
    folder.mkdir(parents=True, exist_ok=True)
    for name in write(folder, *sys.argv[2:]):
        print(name)


if __name__ == "__main__":
    main()
