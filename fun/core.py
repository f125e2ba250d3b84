"""Expressions behind the types: no patterns but single choices, no type variables, no local functions.

A variable is an object, and two variables are equal where they are one object. So an expression that is put into
another one, or that stands at two places of which one is within the other, has to get variables of its own there
(`copied`). Types are those of `types`, without variables.
"""

import itertools

from fun.types import ARROW, TCon, argument_count, arrows, replaced

NUMBERS = itertools.count()


class Var:
    """A variable with the name that a reader knows; `number` orders variables by their making."""

    __slots__ = ("base", "type", "number")

    def __init__(self, base, type_):
        self.base = base
        self.type = type_
        self.number = next(NUMBERS)

    def again(self):
        """A new variable of the same name and type."""
        return Var(self.base, self.type)


class Symbol:
    """A function, or a choice or binding that became a symbol of its own.

    `known` is its name in the Prelude, and `method` the operator of Eq or Ord that it is. `types` are those of its
    instance. `words` and `origin` tell a reader where it comes from.
    """

    def __init__(self, base, type_, arity, function, kind, line, types=()):
        self.base = base
        self.type = type_
        self.arity = arity
        self.function = function
        self.kind = kind
        self.line = line
        self.types = tuple(types)
        self.known = None
        self.method = None
        self.words = None
        self.parent = None  # the symbol that this one is a part of, for its name
        self.template = None  # for copies: the function, what it is copied for, and the copy's parameters
        self.extra = []  # for local functions: the outer variables that are its first arguments
        self.patterns = []  # for choices and bindings: what its arguments are in the program
        self.looks = False  # for choices and bindings: whether the first argument is what is looked at or bound
        self.recursive = False


class Ref:
    """A symbol as an expression."""

    __slots__ = ("symbol",)

    def __init__(self, symbol):
        self.symbol = symbol


class Con:
    """A constructor at types."""

    __slots__ = ("info", "types", "type")

    def __init__(self, info, types):
        self.info = info
        self.types = tuple(types)
        table = dict(zip(info.data.parameters, self.types))
        fields = [replaced(one, table) for one in info.fields]
        self.type = arrows(fields, TCon(info.data, self.types))


class App:
    """A function with arguments, at least one; the function is no `App`."""

    __slots__ = ("function", "arguments")

    def __init__(self, function, arguments):
        self.function = function
        self.arguments = arguments


class Lam:
    """A lambda over variables, at least one."""

    __slots__ = ("parameters", "body")

    def __init__(self, parameters, body):
        self.parameters = parameters
        self.body = body


class Let:
    """A variable with its value, which does not use it."""

    __slots__ = ("variable", "value", "body", "line")

    def __init__(self, variable, value, body, line):
        self.variable = variable
        self.value = value
        self.body = body
        self.line = line


class Pattern:
    """A pattern of a binding: a constructor with patterns, or none; and a variable for what it matches, or none."""

    __slots__ = ("con", "arguments", "variable", "type")

    def __init__(self, con, arguments, variable, type_):
        self.con = con
        self.arguments = arguments
        self.variable = variable
        self.type = type_

    def variables(self):
        """The variables of the pattern."""
        own = [self.variable] if self.variable is not None else []
        return own + [one for argument in self.arguments for one in argument.variables()]


class Unpack:
    """A pattern binding: the variables of the pattern stand for parts of the value."""

    __slots__ = ("pattern", "value", "body", "line")

    def __init__(self, pattern, value, body, line):
        self.pattern = pattern
        self.value = value
        self.body = body
        self.line = line


class Switch:
    """A choice by the constructor of a value: a branch (constructor, variables, body) for each constructor."""

    __slots__ = ("scrutinee", "branches", "type", "place")

    def __init__(self, scrutinee, branches, type_, place):
        self.scrutinee = scrutinee
        self.branches = branches
        self.type = type_
        self.place = place  # (line, column) in the program


class Fail:
    """What no equation covers: the program stops there with an error."""

    __slots__ = ("type", "place")

    def __init__(self, type_, place):
        self.type = type_
        self.place = place


class Mark:
    """An expression with the line of the equation, alternative or branch that it is the right side of."""

    __slots__ = ("line", "body")

    def __init__(self, line, body):
        self.line = line
        self.body = body


class Local:
    """A local function of which the variables that it uses are not known yet."""

    __slots__ = ("instance",)

    def __init__(self, instance):
        self.instance = instance


class Function:
    """A symbol with its parameters and body."""

    def __init__(self, symbol, parameters, body):
        self.symbol = symbol
        self.parameters = parameters
        self.body = body


def type_of(node):
    """The type of an expression."""
    if isinstance(node, (Var, Con, Switch, Fail)):
        return node.type
    if isinstance(node, Ref):
        return node.symbol.type
    if isinstance(node, Local):
        return node.instance.symbol.type
    if isinstance(node, App):
        type_ = type_of(node.function)
        for _ in node.arguments:
            type_ = type_.arguments[1]
        return type_
    if isinstance(node, Lam):
        return arrows([one.type for one in node.parameters], type_of(node.body))
    return type_of(node.body)


def split_arrows(type_, count):
    """The first argument types of a functional type, and the rest."""
    arguments = []
    for _ in range(count):
        arguments.append(type_.arguments[0])
        type_ = type_.arguments[1]
    return arguments, type_


def is_functional(type_):
    """Whether a type is one of functions."""
    return type_.data is ARROW


def is_atom(node):
    """Whether a node may stand at several places without more work: a variable, a name, a constructor of such."""
    if isinstance(node, (Var, Con, Ref, Local)):
        return True
    return isinstance(node, App) and isinstance(node.function, Con) and all(is_atom(one) for one in node.arguments)


def is_known_function(node):
    """Whether a node is a function that is known: a lambda, a name or a partial application."""
    if isinstance(node, (Lam, Ref, Local)):
        return True
    if isinstance(node, Con):
        return is_functional(node.type)
    return isinstance(node, App) and isinstance(node.function, (Ref, Con, Local)) and is_functional(type_of(node))


def apply(function, arguments, line=0):
    """A function with arguments, put in where it is a lambda, into branches and bodies."""
    if not arguments:
        return function
    if isinstance(function, App):
        return App(function.function, function.arguments + arguments)
    if isinstance(function, Lam):
        count = min(len(function.parameters), len(arguments))
        body = function.body
        if count < len(function.parameters):
            body = Lam(function.parameters[count:], body)
        body = apply(body, arguments[count:], line)
        for parameter, argument in reversed(list(zip(function.parameters, arguments))):
            body = Let(parameter, argument, body, line)
        return body
    if isinstance(function, Let):
        return Let(function.variable, function.value, apply(function.body, arguments, line), function.line)
    if isinstance(function, Unpack):
        return Unpack(function.pattern, function.value, apply(function.body, arguments, line), function.line)
    if isinstance(function, Switch):
        branches = [(con, variables, apply(body, arguments, line)) for con, variables, body in function.branches]
        return Switch(function.scrutinee, branches, split_arrows(function.type, len(arguments))[1], function.place)
    if isinstance(function, Mark):
        return Mark(function.line, apply(function.body, arguments, line))
    if isinstance(function, Fail):
        return Fail(split_arrows(function.type, len(arguments))[1], function.place)
    return App(function, list(arguments))


def joined(function, arguments):
    """A function with arguments, without bindings: a lambda is carried out where no argument is dropped or doubled."""
    if not arguments:
        return function
    if isinstance(function, App):
        return joined(function.function, function.arguments + arguments)
    if isinstance(function, Lam):
        parameter, argument = function.parameters[0], arguments[0]
        body = Lam(function.parameters[1:], function.body) if function.parameters[1:] else function.body
        if isinstance(argument, (Var, Con)) or occurrences(body, {parameter}) == 1:
            return joined(unbound(substituted(body, parameter, argument)), arguments[1:])
    return App(function, list(arguments))


def unbound(node):
    """A term without bindings: each is a lambda with an argument, carried out as `joined` says."""
    if isinstance(node, Let):
        return joined(Lam([node.variable], unbound(node.body)), [unbound(node.value)])
    if isinstance(node, App):
        return joined(unbound(node.function), [unbound(one) for one in node.arguments])
    if isinstance(node, Lam):
        return Lam(node.parameters, unbound(node.body))
    return node


def unmarked(node):
    """A node without a mark at its top."""
    while isinstance(node, Mark):
        node = node.body
    return node


def unlined(node):
    """An expression without lines and places: of what the module has not."""
    if isinstance(node, Mark):
        return unlined(node.body)
    if isinstance(node, Fail):
        return Fail(node.type, (0, 0))
    node = rebuilt(node, unlined)
    if isinstance(node, (Let, Unpack)):
        node.line = 0
    elif isinstance(node, Switch):
        node.place = (0, 0)
    return node


CHILDREN = {
    App: lambda node: [node.function] + node.arguments,
    Lam: lambda node: [node.body],
    Mark: lambda node: [node.body],
    Let: lambda node: [node.value, node.body],
    Unpack: lambda node: [node.value, node.body],
    Switch: lambda node: [node.scrutinee] + [body for _, _, body in node.branches],
}


def children(node):
    """The parts of a node."""
    find = CHILDREN.get(type(node))
    return find(node) if find else []


def walk(node):
    """All nodes of an expression."""
    stack = [node]
    while stack:
        one = stack.pop()
        yield one
        find = CHILDREN.get(type(one))
        if find:
            stack.extend(find(one))


def bound(node):
    """The variables that a node itself binds."""
    if isinstance(node, Lam):
        return node.parameters
    if isinstance(node, Let):
        return [node.variable]
    if isinstance(node, Unpack):
        return node.pattern.variables()
    if isinstance(node, Switch):
        return [one for _, variables, _ in node.branches for one in variables]
    return []


def free_variables(node):
    """The free variables of an expression, in the order of their making; binders are bound nowhere else."""
    used, inner = set(), set()
    for one in walk(node):
        if isinstance(one, Var):
            used.add(one)
        else:
            inner.update(bound(one))
    return sorted(used - inner, key=lambda one: one.number)


def occurrences(node, variables):
    """How often any of these variables stands in an expression."""
    return sum(1 for one in walk(node) if type(one) is Var and one in variables)


def rebuilt(node, change):
    """A node with each part changed; binders stay."""
    if isinstance(node, App):
        return apply(change(node.function), [change(one) for one in node.arguments])
    if isinstance(node, Lam):
        return Lam(node.parameters, change(node.body))
    if isinstance(node, Let):
        return Let(node.variable, change(node.value), change(node.body), node.line)
    if isinstance(node, Unpack):
        return Unpack(node.pattern, change(node.value), change(node.body), node.line)
    if isinstance(node, Switch):
        branches = [(con, variables, change(body)) for con, variables, body in node.branches]
        return Switch(change(node.scrutinee), branches, node.type, node.place)
    if isinstance(node, Mark):
        return Mark(node.line, change(node.body))
    return node


def copied_pattern(pattern, table):
    """A pattern with new variables, which the table gets."""
    variable = pattern.variable
    if variable is not None:
        table[variable] = variable = variable.again()
    return Pattern(pattern.con, [copied_pattern(one, table) for one in pattern.arguments], variable, pattern.type)


def copied(node, table):
    """An expression with new variables for all that it binds, and with variables replaced by the table."""
    if isinstance(node, Var):
        value = table.get(node, node)
        return value if isinstance(value, Var) else copied(value, {})
    if isinstance(node, App):
        return apply(copied(node.function, table), [copied(one, table) for one in node.arguments])
    if isinstance(node, Lam):
        table = dict(table)
        parameters = [one.again() for one in node.parameters]
        table.update(zip(node.parameters, parameters))
        return Lam(parameters, copied(node.body, table))
    if isinstance(node, Let):
        value, table = copied(node.value, table), dict(table)
        table[node.variable] = variable = node.variable.again()
        return Let(variable, value, copied(node.body, table), node.line)
    if isinstance(node, Unpack):
        value, table = copied(node.value, table), dict(table)
        pattern = copied_pattern(node.pattern, table)
        return Unpack(pattern, value, copied(node.body, table), node.line)
    if isinstance(node, Switch):
        branches = []
        for con, variables, body in node.branches:
            inner = dict(table)
            fresh = [one.again() for one in variables]
            inner.update(zip(variables, fresh))
            branches.append((con, fresh, copied(body, inner)))
        return Switch(copied(node.scrutinee, table), branches, node.type, node.place)
    if isinstance(node, Mark):
        return Mark(node.line, copied(node.body, table))
    return node


def substituted(node, variable, value):
    """An expression with a value for a variable; each place but the first gets variables of its own."""
    return copied(node, {variable: value})


def canonical(node, numbers):
    """A tree of tuples that is equal for expressions that differ in names alone.

    `numbers` has the numbers of variables, and gets those of variables that are met free.
    """
    if isinstance(node, Var):
        if node not in numbers:
            numbers[node] = len(numbers)
        return numbers[node]
    if isinstance(node, Ref):
        return node.symbol
    if isinstance(node, Con):
        return (node.info, node.types)
    if isinstance(node, App):
        return ("app", canonical(node.function, numbers), *[canonical(one, numbers) for one in node.arguments])
    if isinstance(node, Mark):
        return canonical(node.body, numbers)
    for one in bound(node):
        numbers[one] = len(numbers)
    if isinstance(node, Lam):
        return ("lam", tuple(one.type for one in node.parameters), canonical(node.body, numbers))
    if isinstance(node, Let):
        return ("let", canonical(node.value, numbers), canonical(node.body, numbers))
    if isinstance(node, Unpack):
        return ("unpack", canonical_pattern(node.pattern, numbers), canonical(node.value, numbers),
                canonical(node.body, numbers))
    if isinstance(node, Switch):
        branches = [(con.info, tuple(numbers[one] for one in variables), canonical(body, numbers))
                    for con, variables, body in node.branches]
        return ("switch", canonical(node.scrutinee, numbers), tuple(branches))
    return ("fail", node.type)


def canonical_pattern(pattern, numbers):
    """The same for patterns of bindings."""
    variable = None if pattern.variable is None else numbers[pattern.variable]
    arguments = tuple(canonical_pattern(one, numbers) for one in pattern.arguments)
    return (pattern.con.info if pattern.con else None, variable, arguments)


def arity_of(type_):
    """How many arguments a function of this type takes."""
    return argument_count(type_)
