"""From equations that are read from the top to single choices that may be read in any order.

A module's equations are tried one after the other; the rules of a system have no order. So the patterns of all
equations together become a tree of choices by one constructor each, whose leaves are disjoint (Augustsson 1985,
Maranget 2008): where the first equation that is left wants a constructor, that place is looked at next.
"""

from fun.core import Con, Let, Mark, Switch, Var, split_arrows
from fun.messages import Message, Refused
from fun.types import LIST

MOST_LEAVES = 200


class Row:
    """An equation: tests (a variable and the pattern that it is to match), and what comes where all hold.

    `build` makes the right side; it takes a function that makes what comes where its guards fail. `falls` says whether
    they may.
    """

    def __init__(self, tests, build, falls, place, type_):
        self.tests = tests
        self.build = build
        self.falls = falls
        self.place = place
        self.type = type_  # of the right side
        self.leaves = [0]  # how often it was reached, shared by the rows that are made of this one

    def with_tests(self, tests):
        """The same equation with other tests left."""
        row = Row(tests, self.build, self.falls, self.place, self.type)
        row.leaves = self.leaves
        return row


def compiled(rows, fail):
    """The tree of choices for rows; `fail` is what comes where none matches."""
    if not rows:
        return fail
    first, aliases = settled(rows[0])
    if not first.tests:
        first.leaves[0] += 1
        if first.leaves[0] > MOST_LEAVES:
            line, column = first.place
            raise Refused([Message(line, column, f"this equation would become more than {MOST_LEAVES} rules, since those before "
                                   "it overlap with it in many ways: match fewer arguments at once, or write the cases out")])
        body = first.build(lambda: compiled(rows[1:], fail)) if first.falls else first.build(None)
        body = Mark(first.place[0], body)
        for variable, column in reversed(aliases):
            body = Let(variable, column, body, first.place[0])
        return body
    rest = [first.with_tests(first.tests)] + rows[1:]
    column = choose(first, rows)
    body = split(rest, column, fail)
    for variable, target in reversed(aliases):
        body = Let(variable, target, body, first.place[0])
    return body


def settled(row):
    """A row without the tests that hold at once, and the names that these give: pairs of variables."""
    aliases, tests = [], []
    for column, pattern in row.tests:
        if pattern.variable is not None:
            aliases.append((pattern.variable, column))
        if pattern.con is not None:
            tests.append((column, without_name(pattern)))
    return row.with_tests(tests), aliases


def without_name(pattern):
    """A constructor pattern without its name, which was given."""
    if pattern.variable is None:
        return pattern
    return type(pattern)(pattern.con, pattern.arguments, None, pattern.type)


def choose(first, rows):
    """The variable to look at: one that the first row tests, of these the one that most rows at the front test."""
    best, most = None, -1
    for column, _ in first.tests:
        count = 0
        for row in rows:
            if not any(other is column and pattern.con is not None for other, pattern in row.tests):
                break
            count += 1
        if count > most:
            best, most = column, count
    return best


def split(rows, column, fail):
    """A choice by the constructor of a variable."""
    data, types = column.type.data, column.type.arguments
    branches = []
    for info in data.constructors:
        con = Con(info, types)
        fields, _ = split_arrows(con.type, info.arity)
        names = names_for(rows, column, info, fields)
        variables = [Var(name, type_) for name, type_ in zip(names, fields)]
        branches.append((con, variables, compiled(specialised(rows, column, info, variables), fail)))
    return Switch(column, branches, fail.type, rows[0].place)


def specialised(rows, column, info, variables):
    """The rows that are left where the variable has this constructor, with the tests of its fields."""
    left = []
    for row in rows:
        tests, fits = [], True
        for other, pattern in row.tests:
            if other is not column or pattern.con is None:
                tests.append((other, pattern))
            elif pattern.con.info is info:
                tests.extend(zip(variables, pattern.arguments))
                if pattern.variable is not None:
                    tests.append((column, type(pattern)(None, [], pattern.variable, pattern.type)))
            else:
                fits = False
        if fits:
            left.append(row.with_tests(tests))
    return left


def names_for(rows, column, info, fields):
    """Names for the fields: as the first row that names them has them."""
    names = [None] * info.arity
    for row in rows:
        for other, pattern in row.tests:
            if other is column and pattern.con is not None and pattern.con.info is info:
                for number, argument in enumerate(pattern.arguments):
                    if names[number] is None and argument.variable is not None:
                        names[number] = argument.variable.base
    return [name or usual_name(type_) for name, type_ in zip(names, fields)]


def usual_name(type_):
    """A name for a variable of a type that has none."""
    if type_.data is LIST:
        return "xs"
    if type_.data.name == "->":
        return "f"
    return {"Nat": "n", "Bool": "b"}.get(type_.data.name, "x")
