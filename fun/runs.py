"""Terms of a system, and the steps of a loop.

A certificate of a loop has a term and steps from it, each a rule and a place. This module makes the terms between the
steps, so that `tell` can print them in the program's syntax. What it makes is for reading alone: the answer is that of
the program, which has gone through the same steps.

A term is a tuple: ("symbol", name), ("free", name), ("bound", index), ("meta", name, arguments), ("lambda", type, body)
or ("apply", function, argument). The index of a bound variable is the number of binders between it and its own.
"""

import re
from dataclasses import dataclass

TOKEN = re.compile(r"->|=>|[A-Za-z_][\w']*#?|\$\d+|%\d+|\?\d+|[\\:.()\[\],;{}]")


class Reader:
    """Reads terms as `wanda show` and certificates write them: each abstraction and each application in parentheses."""

    def __init__(self, text, metas=()):
        self.tokens = TOKEN.findall(text)
        self.at = 0
        self.metas = metas

    def peek(self):
        return self.tokens[self.at] if self.at < len(self.tokens) else ""

    def take(self):
        self.at += 1
        return self.tokens[self.at - 1]

    def skip_type(self):
        """Goes behind a type, which is a sort or stands in parentheses, and returns its text."""
        start, depth = self.at, 0
        while True:
            depth += {"(": 1, ")": -1}.get(self.take(), 0)
            if depth == 0:
                return " ".join(self.tokens[start : self.at])

    def skip_binder_type(self):
        start = self.at
        while self.peek() != ".":
            self.take()
        return " ".join(self.tokens[start : self.at])

    def term(self, depth=0):
        token = self.take()
        if token == "(":
            return self.inner(depth)
        if token.startswith("$"):
            return ("bound", depth - 1 - int(token[1:]))
        if token.startswith("%"):
            self.take()
            return ("free", f"{token}:{self.skip_type()}")
        if token.startswith("?") or token in self.metas:
            return ("meta", token, self.arguments(depth))
        return ("symbol", token)

    def inner(self, depth):
        """What stands behind an open parenthesis, with the one that closes it."""
        if self.peek() == "\\":
            self.take(), self.take(), self.take()
            kind = self.skip_binder_type()
            self.take()
            term = ("lambda", kind, self.term(depth + 1))
        else:
            term = self.term(depth)
            while self.peek() != ")":
                term = ("apply", term, self.term(depth))
        self.take()
        return term

    def arguments(self, depth):
        if self.peek() != "[":
            return ()
        found = []
        while self.take() != "]":
            found.append(self.term(depth))
        return tuple(found)


def printed(term, depth=0):
    """The text of a term, as a certificate has it."""
    kind = term[0]
    if kind in ("symbol", "free"):
        return term[1]
    if kind == "bound":
        return f"${depth - 1 - term[1]}"
    if kind == "meta":
        inside = ",".join(printed(it, depth) for it in term[2])
        return term[1] + (f"[{inside}]" if inside else "")
    if kind == "lambda":
        return f"(\\${depth}:{term[1]}.{printed(term[2], depth + 1)})"
    return "(" + " ".join(printed(it, depth) for it in spine(term)) + ")"


def spine(term):
    """The head of a term and its arguments."""
    parts = []
    while term[0] == "apply":
        parts.append(term[2])
        term = term[1]
    return [term, *reversed(parts)]


def with_indices(term, change, depth=0):
    """The term with `change(index, depth)` in place of each variable that is bound outside of it.

    `index` counts from the term's root on; the result is put below `depth` binders.
    """
    kind = term[0]
    if kind == "bound":
        return term if term[1] < depth else change(term[1] - depth, depth)
    if kind == "lambda":
        return ("lambda", term[1], with_indices(term[2], change, depth + 1))
    if kind == "apply":
        return ("apply", with_indices(term[1], change, depth), with_indices(term[2], change, depth))
    if kind == "meta":
        return ("meta", term[1], tuple(with_indices(it, change, depth) for it in term[2]))
    return term


def raised(term, by):
    """The term below `by` more binders."""
    return with_indices(term, lambda index, depth: ("bound", index + by + depth)) if by else term


def put(body, arguments):
    """The body of a function with these arguments: the last one has the index 0 in the body."""
    count = len(arguments)

    def change(index, depth):
        if index < count:
            return raised(arguments[count - 1 - index], depth)
        return ("bound", index - count + depth)

    return with_indices(body, change)


class Clash(Exception):
    """A left side does not match, or a place leads out of a term."""


def match(pattern, term, found, depth=0):
    """Adds to `found` what the meta-variables of the pattern stand for; `depth` binders of the pattern are open."""
    kind = pattern[0]
    if kind == "meta":
        places = [it[1] for it in pattern[2]]

        def change(index, inner):
            if index in places:
                return ("bound", len(places) - 1 - places.index(index) + inner)
            if index < depth:
                raise Clash
            return ("bound", index - depth + len(places) + inner)

        found.setdefault(pattern[1], with_indices(term, change))
    elif kind != term[0] or kind in ("symbol", "free", "bound") and pattern != term:
        raise Clash
    elif kind == "lambda":
        match(pattern[2], term[2], found, depth + 1)
    elif kind == "apply":
        match(pattern[1], term[1], found, depth)
        match(pattern[2], term[2], found, depth)


def filled(side, found, depth=0):
    """A right side with what was found for its meta-variables."""
    kind = side[0]
    if kind == "meta":
        arguments = [filled(it, found, depth) for it in side[2]]
        return put(outside(found[side[1]], len(arguments), depth), arguments)
    if kind == "lambda":
        return ("lambda", side[1], filled(side[2], found, depth + 1))
    if kind == "apply":
        return ("apply", filled(side[1], found, depth), filled(side[2], found, depth))
    return side


def outside(body, count, depth):
    """A body of `count` arguments, put below `depth` binders of a right side."""

    def change(index, inner):
        return ("bound", (index if index < count else index + depth) + inner)

    return with_indices(body, change)


@dataclass(frozen=True)
class Rule:
    left: tuple
    right: tuple


def read_rule(line):
    """A rule of the canonical form, `rule {F:[nat] nat, X:nat} left => right;`."""
    head, sides = line.removeprefix("rule ").removeprefix("{").split("}", 1)
    metas = {it.split(":")[0].strip() for it in head.split(",") if ":" in it}
    reader = Reader(sides, metas)
    left = reader.term()
    reader.take()
    return Rule(left, reader.term())


def rewritten(term, path, change):
    """The term with `change` applied at the place that the path leads to."""
    if not path:
        return change(term)
    if term[0] == "lambda" and path[0] == "0":
        return ("lambda", term[1], rewritten(term[2], path[1:], change))
    if term[0] != "apply":
        raise Clash
    if path[0] == "0":
        return ("apply", rewritten(term[1], path[1:], change), term[2])
    return ("apply", term[1], rewritten(term[2], path[1:], change))


def part_at(term, path, number=0):
    """What stands at a place. Binders on the way are opened by free variables, which are counted from `number` on."""
    for digit in path:
        if term[0] == "lambda" and digit == "0":
            term = put(term[2], [("free", f"%{number}:{term[1]}")])
            number += 1
        elif term[0] == "apply":
            term = term[1 + int(digit)]
        else:
            raise Clash
    return term


def next_number(term):
    """One more than the greatest number of a free variable in the term."""
    return 1 + max((int(it[1:]) for it in re.findall(r"%\d+", printed(term))), default=-1)


def by_rule(rule):
    """What a rule makes of the term at its place."""

    def change(term):
        found = {}
        match(rule.left, term, found)
        return filled(rule.right, found)

    return change


def by_beta(term):
    """An abstraction with its argument put in."""
    if term[0] != "apply" or term[1][0] != "lambda":
        raise Clash
    return put(term[1][2], [term[2]])


@dataclass(frozen=True)
class Step:
    """The place of a step, what stands there before and after it, and its rule; -1 is beta."""

    before: tuple
    after: tuple
    rule: int
    whole: tuple  # the whole term after the step


@dataclass(frozen=True)
class Loop:
    """A term, the steps from it, and what stands in the last term as an instance of the first one."""

    first: tuple
    steps: tuple
    again: tuple


def read_loop(certificate, rules):
    """The loop that a certificate shows, over the rules of the system in their order."""
    first = term = again = None
    steps, number = [], 0
    for line in certificate.splitlines():
        word, _, rest = line.partition(" ")
        if word == "term":
            first = term = Reader(rest).term()
            number = next_number(first)
        elif word == "step":
            name, path = rest.split(" /")
            rule = -1 if name == "beta" else int(name)
            change = by_beta if rule < 0 else by_rule(rules[rule])
            before, term = part_at(term, path, number), rewritten(term, path, change)
            steps.append(Step(before, part_at(term, path, number), rule, term))
        elif word == "at":
            again = part_at(term, rest.removeprefix("/"), number)
    return Loop(first, tuple(steps), again)
