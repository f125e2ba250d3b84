"""Small steps on expressions that leave their meaning: what is known is put in, and small functions are written out.

- A lambda with arguments, a choice on a known constructor and a binding of an atom are carried out.
- With the step `conditions`, saturated `. $ id flip curry uncurry maybe either` are what they stand for, `const` where
  it drops no call, and sums and differences with numerals are reckoned as far as they can.
"""

from fun import core
from fun.core import App, Con, Fail, Lam, Let, Mark, Pattern, Ref, Switch, Unpack, Var, apply, copied, is_atom, is_known_function
from fun.core import unmarked


def numeral_of(node):
    """The number that a closed expression of `Zero` and `Succ` is, or None."""
    number = 0
    while isinstance(node, App) and isinstance(node.function, Con) and node.function.info.name == "Succ":
        node, number = node.arguments[0], number + 1
    return number if isinstance(node, Con) and node.info.name == "Zero" else None


def constructed(node):
    """The constructor and the arguments of a node that is a saturated constructor, or None."""
    if isinstance(node, Con) and node.info.arity == 0:
        return node, []
    if isinstance(node, App) and isinstance(node.function, Con) and node.function.info.arity == len(node.arguments):
        return node.function, node.arguments
    return None


class Simplifier:
    """Simplifies expressions under the options of the translation."""

    def __init__(self, options):
        self.options = options

    def run(self, node, table):
        """The expression with variables replaced by the table, simplified; all binders are new."""
        if isinstance(node, Var):
            value = table.get(node, node)
            return value if isinstance(value, Var) else copied(value, {})
        if isinstance(node, App):
            return self.application(self.value(node.function, table), [self.value(one, table) for one in node.arguments])
        if isinstance(node, Lam):
            table = dict(table)
            parameters = [one.again() for one in node.parameters]
            table.update(zip(node.parameters, parameters))
            return Lam(parameters, self.run(node.body, table))
        if isinstance(node, Let):
            return self.binding(node.variable, self.value(node.value, table), node.body, table, node.line)
        if isinstance(node, Unpack):
            return self.unpack(node.pattern, self.value(node.value, table), node.body, table, node.line)
        if isinstance(node, Switch):
            return self.switch(self.value(node.scrutinee, table), node, table)
        if isinstance(node, Mark):
            return Mark(node.line, self.value(node.body, table))
        return node

    def value(self, node, table):
        """The same for a part: without a mark at its top."""
        return unmarked(self.run(node, table))

    def binding(self, variable, value, body, table, line):
        """A binding; a value that is an atom or a known function is put in."""
        table = dict(table)
        if is_atom(value) or is_known_function(value):
            table[variable] = value
            return self.run(body, table)
        if isinstance(value, Let):
            return Let(value.variable, value.value, self.binding(variable, value.body, body, table, line), value.line)
        table[variable] = fresh = variable.again()
        return Let(fresh, value, self.run(body, table), line)

    def unpack(self, pattern, value, body, table, line):
        """A pattern binding; one of a known constructor binds the parts."""
        known = constructed(value)
        if pattern.con is None:
            return self.run(body, table) if pattern.variable is None else self.binding(pattern.variable, value, body, table, line)
        if known and known[0].info is pattern.con.info and pattern.variable is None:
            for one, part in reversed(list(zip(pattern.arguments, known[1]))):
                hold = Var(pattern_name(one), one.type)
                body = Unpack(one, hold, body, line)
                table = dict(table)
                table[hold] = part
            return self.run(body, table)
        table = dict(table)
        fresh = core.copied_pattern(pattern, table)
        return Unpack(fresh, value, self.run(body, table), line)

    def switch(self, scrutinee, node, table):
        """A choice; one on a known constructor is made."""
        known = constructed(scrutinee)
        if known:
            for con, variables, body in node.branches:
                if con.info is known[0].info:
                    return self.bindings(variables, known[1], body, table, node.place[0])
        if isinstance(scrutinee, Let):
            inner = self.switch(scrutinee.body, node, table)
            return Let(scrutinee.variable, scrutinee.value, inner, scrutinee.line)
        if isinstance(scrutinee, Unpack):
            return Unpack(scrutinee.pattern, scrutinee.value, self.switch(scrutinee.body, node, table), scrutinee.line)
        if isinstance(scrutinee, Switch) and all(
            constructed(unmarked(body)) or isinstance(unmarked(body), Fail) for _, _, body in scrutinee.branches
        ):
            branches = [(con, variables, self.switch(unmarked(body), node, table)) for con, variables, body in scrutinee.branches]
            return Switch(scrutinee.scrutinee, branches, node.type, scrutinee.place)
        if isinstance(scrutinee, Fail):
            return Fail(node.type, scrutinee.place)
        branches = []
        for con, variables, body in node.branches:
            inner = dict(table)
            fresh = [one.again() for one in variables]
            inner.update(zip(variables, fresh))
            branches.append((con, fresh, self.run(body, inner)))
        return Switch(scrutinee, branches, node.type, node.place)

    def bindings(self, variables, values, body, table, line):
        """Bindings of several variables around a body."""
        table, kept = dict(table), []
        for variable, value in zip(variables, values):
            if is_atom(value) or is_known_function(value):
                table[variable] = value
            else:
                table[variable] = fresh = variable.again()
                kept.append((fresh, value))
        result = self.run(body, table)
        for fresh, value in reversed(kept):
            result = Let(fresh, value, result, line)
        return result

    def application(self, function, arguments):
        """A function with arguments, both simplified."""
        if isinstance(function, App):
            return self.application(function.function, function.arguments + arguments)
        if isinstance(function, Lam):
            count = min(len(function.parameters), len(arguments))
            body = function.body
            if count < len(function.parameters):
                body = Lam(function.parameters[count:], body)
            result = unmarked(self.bindings(function.parameters[:count], arguments[:count], body, {}, 0))
            return self.application(result, arguments[count:]) if arguments[count:] else result
        if isinstance(function, (Let, Switch, Unpack, Fail)):
            return self.run(apply(function, arguments), {})
        if isinstance(function, Ref):
            if self.options.conditions:
                short = self.written_out(function.symbol, arguments)
                if short is not None:
                    return short
        return App(function, arguments)

    def written_out(self, symbol, arguments):
        """What a small known function with these arguments stands for, or None."""
        known, count = symbol.known, len(arguments)
        if known in ("+", "-") and count == 2:
            return reckoned(known, *arguments)
        if known == "id" and count >= 1:
            return self.applied(arguments[0], arguments[1:])
        if known == "$" and count >= 1:
            return self.applied(arguments[0], arguments[1:])
        if known == "const" and count >= 2 and is_atom(arguments[1]):
            return self.applied(arguments[0], arguments[2:])
        if known in (".", "flip", "curry", "uncurry") and count >= 1:
            return self.combinator(symbol, arguments)
        if known in ("maybe", "either") and count >= 3:
            return self.applied(self.elimination(known, arguments[:3]), arguments[3:])
        return None

    def applied(self, function, arguments):
        """A function with arguments, where there are any."""
        return self.application(function, arguments) if arguments else function

    def combinator(self, symbol, arguments):
        """`.`, `flip`, `curry` and `uncurry`, as lambdas where arguments are missing."""
        wanted = 2 if symbol.known == "uncurry" else 3
        given = arguments[:wanted]
        if symbol.known == "." and len(given) < 2:
            return None
        types_, _ = core.split_arrows(core.type_of(Ref(symbol)), wanted)
        missing = [Var("xyz"[number], types_[number]) for number in range(len(given), wanted)]
        values = given + missing
        if symbol.known == ".":
            body = self.application(values[0], [self.application(values[1], [values[2]])])
        elif symbol.known == "flip":
            body = self.application(values[0], [values[2], values[1]])
        elif symbol.known == "curry":
            pair = core.type_of(values[0]).arguments[0]
            body = self.application(values[0], [App(Con(pair.data.constructors[0], pair.arguments), values[1:])])
        else:
            body = self.elimination("uncurry", values)
        if missing:
            return Lam(missing, body)
        return self.applied(body, arguments[wanted:])

    def elimination(self, known, arguments):
        """`maybe`, `either` and `uncurry` as a choice."""
        value = arguments[-1]
        type_ = core.type_of(value)
        branches = []
        for number, info in enumerate(type_.data.constructors):
            con = Con(info, type_.arguments)
            fields, _ = core.split_arrows(con.type, info.arity)
            variables = [Var("xy"[place], field) for place, field in enumerate(fields)]
            handler = arguments[0] if known == "uncurry" else arguments[number]
            branches.append((con, variables, apply(handler, list(variables))))
        hold = Var("p" if known == "uncurry" else "m", type_)
        tree = Switch(hold, branches, core.type_of(branches[-1][2]), (0, 0))
        return self.binding(hold, value, tree, {}, 0)


def reckoned(known, left, right):
    """A sum or a difference with a numeral on the right, as far as it can be reckoned; else None."""
    number = numeral_of(right)
    if number is None:
        return None
    if known == "+":
        succ = succ_of(right, left)
        for _ in range(number):
            left = App(succ, [left])
        return left
    taken = number
    while taken and constructed(left):
        con, arguments = constructed(left)
        if con.info.name == "Zero":
            return left
        left, taken = arguments[0], taken - 1
    if taken == number and number:
        return None
    return left if taken == 0 else None


def succ_of(*nodes):
    """The constructor `Succ`, by the type of a number."""
    return Con(core.type_of(nodes[0]).data.constructors[1], ())


def pattern_name(pattern):
    """A name for what a pattern matches."""
    from fun.match import usual_name

    return pattern.variable.base if isinstance(pattern, Pattern) and pattern.variable else usual_name(pattern.type)


def simplify_all(program):
    """Simplifies each function of the program."""
    simplifier = Simplifier(program.options)
    for function in program.functions.values():
        function.body = simplifier.run(function.body, {})
