"""From functions to rules: choices refine the left sides, and become symbols of their own where they can't.

A function's body is followed from its top. A choice on a variable of the left side splits the rule, with a constructor
in the variable's place. A choice on anything else is a new symbol, which is given what is looked at, and the variables
that its branches use:

    f (x : xs) | p x = g x xs          f (x : xs)        => f_case1 (p x) (x : xs)
               | otherwise = xs        f_case1 True (x : xs) => g x xs    ..

What such a symbol is given decides whether a proof is found. Where several parts of a pattern are needed, or a whole
that is known to be a constructor, the pattern itself is the argument, and stands again on the left (step `patterns`).

A binding is placed in the innermost branch that has all of its uses. Used once it is put in place, else it is an
argument of a symbol of its own. Where a condition compares a variable with a constant it becomes choices on the
variable (step `conditions`).
"""

from fun import core
from fun.core import App, Con, Fail, Lam, Let, Mark, Ref, Switch, Symbol, Unpack, Var, is_atom, joined, unmarked
from fun.match import usual_name
from fun.simplify import Simplifier, constructed, numeral_of, reckoned

MOST_COPIES = 4
LARGEST_TESTED = 3  # the largest numeral with which a call, and no variable, is compared by a choice


class Rule:
    """A rule: a symbol with patterns, the right side, and the line that it comes from."""

    __slots__ = ("symbol", "patterns", "right", "line")

    def __init__(self, symbol, patterns, right, line):
        self.symbol = symbol
        self.patterns = patterns
        self.right = right
        self.line = line


class Context:
    """Where a body stands: the symbol and its patterns, and what variables of the body stand for."""

    def __init__(self, symbol, patterns, table, line):
        self.symbol = symbol
        self.patterns = patterns
        self.table = table
        self.line = line

    def refined(self, variable, term):
        """The same with a term for a variable of the patterns."""
        table = {one: replaced(value, variable, term) for one, value in self.table.items()}
        table[variable] = term
        return Context(self.symbol, [replaced(one, variable, term) for one in self.patterns], table, self.line)

    def bound(self, pairs):
        """The same with terms for more variables."""
        table = dict(self.table)
        table.update(pairs)
        return Context(self.symbol, self.patterns, table, self.line)

    def at_line(self, line):
        """The same at another line."""
        return Context(self.symbol, self.patterns, self.table, line) if line else self


def replaced(term, variable, value):
    """A term of patterns with a term for a variable."""
    if term is variable:
        return value
    if isinstance(term, App):
        arguments = [replaced(one, variable, value) for one in term.arguments]
        function = replaced(term.function, variable, value)
        same = function is term.function and all(a is b for a, b in zip(arguments, term.arguments))
        return term if same else App(function, arguments)
    if isinstance(term, Lam):
        body = replaced(term.body, variable, value)
        return term if body is term.body else Lam(term.parameters, body)
    return term


def variables_of(term):
    """The variables of a pattern, from the left."""
    if isinstance(term, Var):
        return [term]
    if isinstance(term, App):
        return [one for argument in term.arguments for one in variables_of(argument)]
    return []


def has_part(term, part):
    """Whether a pattern is, or has within it, a constructor term."""
    if term is part:
        return True
    return isinstance(term, App) and any(has_part(one, part) for one in term.arguments)


# Bindings


def pushed(make, names, body):
    """A binding of the variables `names` at the innermost branch that has all of their uses.

    `make` puts the binding around an expression.
    """
    count = core.occurrences(body, names)
    if count == 0:
        return body
    if isinstance(body, Mark):
        return Mark(body.line, pushed(make, names, body.body))
    if isinstance(body, Switch) and core.occurrences(body.scrutinee, names) == 0:
        branches = [(con, variables, pushed(make, names, one)) for con, variables, one in body.branches]
        return Switch(body.scrutinee, branches, body.type, body.place)
    if isinstance(body, (Let, Unpack)) and core.occurrences(body.value, names) == 0:
        return rebuilt_binding(body, body.value, pushed(make, names, body.body))
    if isinstance(body, App) and core.occurrences(body.function, names) == 0:
        holders = [number for number, one in enumerate(body.arguments) if core.occurrences(one, names)]
        if len(holders) == 1 and isinstance(body.arguments[holders[0]], (Switch, Let, Unpack)):
            arguments = list(body.arguments)
            arguments[holders[0]] = pushed(make, names, arguments[holders[0]])
            return App(body.function, arguments)
    return make(body)


def rebuilt_binding(node, value, body):
    """A binding with another value and body."""
    if isinstance(node, Let):
        return Let(node.variable, value, body, node.line)
    return Unpack(node.pattern, value, body, node.line)


class RuleMaker:
    """Makes the rules of all functions."""

    def __init__(self, program):
        self.program = program
        self.options = program.options
        self.simplifier = Simplifier(program.options)
        self.rules = {}  # symbol to its rules; a symbol stands behind the function that it belongs to
        self.uncovered = []  # (context's function, line, symbol, patterns)
        self.strict = []  # (function, line)
        self.copies = {}  # (function's symbol, place) to how many symbols it became
        self.made = {}  # canonical form to symbol
        self.counts = {}  # (function's symbol, kind) to a number
        self.owner = None
        self.group = set()

    # Placing of bindings

    def placed(self, node):
        """An expression with each binding at its place."""
        if isinstance(node, Let):
            return self.place_let(node.variable, self.placed(node.value), self.placed(node.body), node.line)
        if isinstance(node, Unpack):
            return self.place_unpack(node.pattern, self.placed(node.value), self.placed(node.body), node.line)
        if isinstance(node, Switch):
            return self.known_switch(core.rebuilt(node, self.placed))
        return core.rebuilt(node, self.placed)

    def known_switch(self, node):
        """A choice, made where what it looks at is a constructor."""
        known = constructed(node.scrutinee)
        if not known:
            return node
        for con, variables, body in node.branches:
            if con.info is known[0].info:
                for variable, value in reversed(list(zip(variables, known[1]))):
                    body = self.place_let(variable, value, body, node.place[0])
                return body
        return node

    def place_let(self, variable, value, body, line):
        """A binding of a variable at its place."""
        if is_atom(value):
            return core.substituted(body, variable, value)

        def make(inner):
            if core.occurrences(inner, {variable}) > 1:
                return Let(variable, value, inner, line)
            result = core.substituted(inner, variable, value)
            return self.known_switch(result) if isinstance(result, Switch) else result

        return pushed(make, {variable}, body)

    def place_unpack(self, pattern, value, body, line):
        """A pattern binding at its place, where it becomes a binding and choices."""
        names = set(pattern.variables())

        def make(inner):
            hold = Var(usual_name(pattern.type), pattern.type)
            tree = Let(hold, value, opened(pattern, hold, inner, line), line)
            return Mark(-line, tree) if line else tree

        return pushed(make, names, body) if names else body

    # Functions

    def function(self, function):
        """The rules of a function."""
        symbol = function.symbol
        self.owner = symbol
        self.rules[symbol] = []
        body = self.placed(function.body)
        context = Context(symbol, list(function.parameters), {}, symbol.line)
        self.tail(body, context)

    def tail(self, node, context):
        """Follows a body to the rules of its symbol."""
        if isinstance(node, Mark):
            if node.line < 0:
                self.note_strict(unmarked(node), -node.line)
            self.tail(node.body, context.at_line(max(node.line, 0)))
        elif isinstance(node, Let):
            self.tail_let(node, context)
        elif isinstance(node, Switch):
            self.tail_switch(node, context)
        elif isinstance(node, Fail):
            self.uncovered.append((self.owner, node.place[0] or context.line, context.symbol, context.patterns))
        else:
            choice = self.short_circuit(node, context, True)
            if choice is None:
                self.add(context, self.term(node, context))
            else:
                self.tail_switch(choice, context)

    def short_circuit(self, node, context, in_tail):
        """`&&` or `||` as a choice, where its right side calls the current function, or its left compares a variable.

        Strict, they would evaluate a recursive call in any case; so programs that end would be said to run for ever.
        """
        name, arguments = self.parts(node)
        if name not in ("&&", "||") or len(arguments) != 2:
            return None
        left, right = arguments
        compares = in_tail and self.options.conditions and self.matchable(left, context)
        if not compares and not self.calls_itself(right):
            return None
        false, true = (Con(info, ()) for info in self.program.bool.constructors)
        pattern = Switch(left, [], core.type_of(node), (context.line, 0))
        if name == "&&":
            return self.switched(left, right, false, pattern)
        return self.switched(left, true, right, pattern)

    def add(self, context, right):
        """A rule."""
        self.rules[context.symbol].append(Rule(context.symbol, context.patterns, right, context.line))

    def note_strict(self, node, line):
        """Notes a pattern binding whose variables its branch may never need."""
        inner = node.body if isinstance(node, Let) else node
        while isinstance(inner, (Switch, Mark, Let)):
            inner = unmarked(inner.branches[-1][2]) if isinstance(inner, Switch) else inner.body
        if constructed(inner) or isinstance(inner, Lam):
            self.strict.append((self.owner, line))

    def tail_let(self, node, context):
        """A binding in a body: a symbol of its own, whose argument is the value."""
        if is_atom(node.value):
            self.tail(node.body, context.bound({node.variable: self.term(node.value, context)}))
            return
        body = node.body
        kind = "case" if isinstance(unmarked(body), Switch) and unmarked(body).scrutinee is node.variable else "let"
        self.add(context, self.auxiliary(kind, node.variable, node.value, body, context, (node.line, 0)))

    def tail_switch(self, node, context):
        """A choice in a body."""
        scrutinee = node.scrutinee
        if isinstance(scrutinee, Var):
            scrutinee = context.table.get(scrutinee, scrutinee)
        known = constructed(scrutinee)
        if known:
            self.tail_known(node, known, context)
        elif isinstance(scrutinee, Var):
            for con, variables, body in node.branches:
                fresh = [one.again() for one in variables]
                term = App(con, list(fresh)) if fresh else con
                self.tail(body, context.refined(scrutinee, term).bound(dict(zip(variables, fresh))))
        else:
            tree = self.condition(node, context)
            if tree is not None:
                self.tail(tree, context)
            else:
                hold = Var(usual_name(core.type_of(scrutinee)), core.type_of(scrutinee))
                body = Switch(hold, node.branches, node.type, node.place)
                self.add(context, self.auxiliary("case", hold, scrutinee, body, context, node.place))

    def tail_known(self, node, known, context):
        """A choice on a constructor: its branch, with the parts."""
        for con, variables, body in node.branches:
            if con.info is known[0].info:
                pairs = {}
                for variable, value in zip(variables, known[1]):
                    pairs[variable] = self.term(value, context)
                self.tail(body, context.bound(pairs))
                return

    # Conditions

    def condition(self, node, context):
        """A choice by a condition, as choices on variables where the condition compares such; else None."""
        if not self.options.conditions or core.type_of(node.scrutinee).data is not self.program.bool:
            return self.recursive_condition(node)
        branches = {con.info.name: body for con, _, body in node.branches}
        if not self.matchable(node.scrutinee, context):
            return self.recursive_condition(node)
        return self.choices(node.scrutinee, branches["True"], branches["False"], node, context)

    def recursive_condition(self, node):
        """`&&` and `||` with a recursive call on the right are choices: strict they would turn what ends into a loop."""
        scrutinee = node.scrutinee
        if not (isinstance(scrutinee, App) and isinstance(scrutinee.function, Ref)) or len(scrutinee.arguments) != 2:
            return None
        known = scrutinee.function.symbol.known
        if known not in ("&&", "||") or not self.calls_itself(scrutinee.arguments[1]):
            return None
        left, right = scrutinee.arguments
        branches = {con.info.name: body for con, _, body in node.branches}
        inner = Switch(right, node.branches, node.type, node.place)
        if known == "&&":
            return self.switched(left, inner, branches["False"], node)
        return self.switched(left, branches["True"], inner, node)

    def calls_itself(self, node):
        """Whether an expression calls a function that the current one may be called by."""
        return any(isinstance(one, Ref) and one.symbol in self.group for one in core.walk(node))

    def switched(self, condition, yes, no, node):
        """A choice by a condition at the place of another."""
        false, true = (Con(info, ()) for info in self.program.bool.constructors)
        return Switch(condition, [(true, [], yes), (false, [], no)], node.type, node.place)

    def parts(self, condition):
        """The known name of a condition and its arguments, or None."""
        if isinstance(condition, App) and isinstance(condition.function, Ref):
            symbol = condition.function.symbol
            name = symbol.method[0] if symbol.method else symbol.known
            return name, condition.arguments
        return None, []

    def matchable(self, condition, context):
        """Whether a condition has a comparison of a variable with a constant in it."""
        name, arguments = self.parts(condition)
        if name == "not" and len(arguments) == 1:
            return self.matchable(arguments[0], context)
        if name in ("&&", "||") and len(arguments) == 2:
            return any(self.matchable(one, context) for one in arguments) or self.calls_itself(arguments[1])
        if name == "null" and len(arguments) == 1:
            return isinstance(self.looked_up(arguments[0], context), Var) or bool(constructed(self.looked_up(arguments[0], context)))
        return self.comparison(name, arguments, context) is not None

    def looked_up(self, node, context):
        """What a node stands for, where it is a variable."""
        return context.table.get(node, node) if isinstance(node, Var) else node

    def comparison(self, name, arguments, context):
        """A comparison with a constant: (value, constant, whether the constant stands on the left), or None."""
        if name not in ("==", "/=", "<", "<=", ">", ">=") or len(arguments) != 2:
            return None
        left, right = (self.looked_up(one, context) for one in arguments)
        for value, constant, turned in ((left, right, False), (right, left, True)):
            number = numeral_of(constant)
            if number is None and not (isinstance(constant, Con) and constant.info.arity == 0):
                continue
            if isinstance(value, Var) or constructed(value):
                return value, constant, turned
            if (number or 0) <= LARGEST_TESTED and isinstance(value, App):
                return value, constant, turned
        return None

    def choices(self, condition, yes, no, node, context):
        """The choices that a condition becomes."""
        name, arguments = self.parts(condition)
        if isinstance(condition, Con):
            return yes if condition.info.name == "True" else no
        if name == "not" and len(arguments) == 1:
            return self.choices(arguments[0], no, yes, node, context)
        if name in ("&&", "||") and len(arguments) == 2 and self.matchable(condition, context):
            left, right = arguments
            if name == "&&":
                return self.choices(left, self.choices(right, yes, no, node, context), no, node, context)
            return self.choices(left, yes, self.choices(right, yes, no, node, context), node, context)
        if name == "null" and len(arguments) == 1 and self.matchable(condition, context):
            return self.null(arguments[0], yes, no, node)
        found = self.comparison(name, arguments, context)
        if found is None:
            return self.switched(condition, yes, no, node)
        value, constant, turned = found
        if turned:
            name = {"<": ">", ">": "<", "<=": ">=", ">=": "<="}.get(name, name)
        if not isinstance(value, Var) and not constructed(value):
            hold = Var(usual_name(core.type_of(value)), core.type_of(value))
            return Let(hold, value, self.compared(hold, name, constant, yes, no, node), node.place[0])
        return self.compared(value, name, constant, yes, no, node)

    def null(self, value, yes, no, node):
        """A look whether a list is empty."""
        type_ = core.type_of(value)
        nil, cons = (Con(info, type_.arguments) for info in type_.data.constructors)
        fields, _ = core.split_arrows(cons.type, 2)
        variables = [Var("x", fields[0]), Var("xs", fields[1])]
        return Switch(value, [(nil, [], yes), (cons, variables, no)], node.type, node.place)

    def compared(self, value, name, constant, yes, no, node):
        """The choices by which a value is compared with a constant."""
        holds = {"==": "E", "/=": "LG", "<": "L", "<=": "LE", ">": "G", ">=": "GE"}[name]
        number = numeral_of(constant)
        if number is not None:
            return self.compared_number(value, holds, number, yes, no, node)
        type_ = core.type_of(value)
        branches = []
        for info in type_.data.constructors:
            con = Con(info, type_.arguments)
            fields, _ = core.split_arrows(con.type, info.arity)
            outcome = "L" if info.number < constant.info.number else "G" if info.number > constant.info.number else "E"
            branches.append((con, [Var(usual_name(one), one) for one in fields], yes if outcome in holds else no))
        return Switch(value, branches, node.type, node.place)

    def compared_number(self, value, holds, number, yes, no, node):
        """The same for numbers: one `Succ` after the other, as far as it is to be known."""
        possible = "EG" if number == 0 else "LEG"
        outcomes = {one in holds for one in possible}
        if len(outcomes) == 1:
            return yes if outcomes.pop() else no
        zero, succ = (Con(info, ()) for info in self.program.nat.constructors)
        less = Var(value.base + "'" if isinstance(value, Var) else "n", core.type_of(zero))
        below = yes if ("E" if number == 0 else "L") in holds else no
        if number == 0:
            above = yes if "G" in holds else no
        else:
            above = self.compared_number(less, holds, number - 1, yes, no, node)
        return Switch(value, [(zero, [], below), (succ, [less], above)], node.type, node.place)

    # Symbols of their own

    def auxiliary(self, kind, hold, value, body, context, place):
        """A call of a new symbol: of the value, where there is one, and of what the body uses."""
        arguments, patterns, table = [], [], dict(context.table)
        if hold is not None:
            arguments.append(self.term(value, context))
            patterns.append(hold)
        general = self.general(body, hold, context)
        kept = self.kept(body, hold, context)
        key_place = (self.owner, place)
        chosen = kept
        form = self.form(kind, patterns, kept, table, body)
        if form not in self.made and self.copies.get(key_place, 0) >= MOST_COPIES:
            chosen = general
            table = {}
            form = self.form(kind, patterns, general, table, body)
        symbol = self.made.get(form)
        arguments += [argument for argument, _ in chosen]
        patterns += [pattern for _, pattern in chosen]
        if symbol is None:
            self.copies[key_place] = self.copies.get(key_place, 0) + 1
            symbol = self.new_symbol(kind, patterns, body, context, place)
            symbol.looks = hold is not None
            self.made[form] = symbol
            for variable in patterns:
                for one in variables_of(variable):
                    table.pop(one, None)
            self.tail(body, Context(symbol, patterns, table, context.line))
        return App(Ref(symbol), arguments) if arguments else Ref(symbol)

    def form(self, kind, patterns, chosen, table, body):
        """What tells symbols of one function apart: patterns and body, whatever their names."""
        numbers = {}
        shapes = [core.canonical(one, numbers) for one in patterns]
        shapes += [core.canonical(pattern, numbers) for _, pattern in chosen]
        return (self.owner, kind, tuple(shapes), core.canonical(resolved(body, table), numbers))

    def general(self, body, hold, context):
        """The variables that a body uses, each an argument, whatever is known of it."""
        return [(self.term(one, context), one) for one in core.free_variables(body) if one is not hold]

    def kept(self, body, hold, context):
        """What a body is given: pairs of an argument and a pattern that stands for it on the left."""
        free = [one for one in core.free_variables(body) if one is not hold]
        values = [context.table.get(one, one) for one in free]
        wholes = [value for value in values if not isinstance(value, Var)]
        direct = {value for value in values if isinstance(value, Var)}
        needed = {one for value in values for one in variables_of(value)}
        pairs, seen = [], set()
        for pattern in context.patterns:
            inside = [one for one in variables_of(pattern) if one in needed]
            seen.update(variables_of(pattern))
            if isinstance(pattern, Var) or not inside:
                pairs += [(one, one) for one in inside]
                continue
            whole = any(has_part(pattern, value) for value in wholes)
            if self.options.patterns and (whole or len(inside) > 1):
                pairs.append((pattern, pattern))
            else:
                pairs += self.parts_kept(pattern, inside, wholes, direct, context)
        return pairs

    def parts_kept(self, pattern, inside, wholes, direct, context):
        """The parts of a pattern as arguments of their own."""
        return [(one, one) for one in inside]

    def new_symbol(self, kind, patterns, body, context, place):
        """A symbol for a choice or a binding of the current function."""
        owner = self.owner
        number = self.counts[owner, kind] = self.counts.get((owner, kind), 0) + 1
        type_ = core.arrows([core.type_of(one) for one in patterns], core.type_of(body))
        line = place[0] or context.line
        symbol = Symbol(f"{kind}{number}", type_, len(patterns), owner.function, kind, line)
        symbol.parent = owner
        symbol.patterns = list(patterns)
        self.rules[symbol] = []
        return symbol

    # Terms

    def term(self, node, context):
        """An expression as a term of a right side."""
        node = unmarked(node)
        if isinstance(node, Var):
            return context.table.get(node, node)
        if isinstance(node, App):
            choice = self.short_circuit(node, context, False)
            if choice is not None:
                return self.inner_switch(choice, context)
            function = self.term(node.function, context)
            arguments = [self.term(one, context) for one in node.arguments]
            if isinstance(function, Ref) and function.symbol.known in ("+", "-") and len(arguments) == 2:
                if self.options.conditions:
                    short = reckoned(function.symbol.known, *arguments)
                    if short is not None:
                        return short
            return joined(function, arguments)
        if isinstance(node, Lam):
            inner = Context(context.symbol, context.patterns + node.parameters, context.table, context.line)
            return Lam(node.parameters, self.term(node.body, inner))
        if isinstance(node, Let):
            return self.inner_let(node, context)
        if isinstance(node, Switch):
            return self.inner_switch(node, context)
        if isinstance(node, Fail):
            return self.auxiliary("case", None, None, node, context, node.place)
        return node

    def inner_let(self, node, context):
        """A binding within a right side."""
        if is_atom(node.value):
            return self.term(node.body, context.bound({node.variable: self.term(node.value, context)}))
        inner = unmarked(node.body)
        kind = "case" if isinstance(inner, Switch) and inner.scrutinee is node.variable else "let"
        return self.auxiliary(kind, node.variable, node.value, node.body, context, (node.line, 0))

    def inner_switch(self, node, context):
        """A choice within a right side."""
        scrutinee = self.looked_up(node.scrutinee, context)
        known = constructed(scrutinee)
        if known:
            for con, variables, body in node.branches:
                if con.info is known[0].info:
                    pairs = {one: self.term(value, context) for one, value in zip(variables, known[1])}
                    return self.term(body, context.bound(pairs))
        if isinstance(scrutinee, Var):
            return self.auxiliary("case", None, None, node, context, node.place)
        if self.condition(node, context) is not None:
            return self.auxiliary("case", None, None, node, context, node.place)
        hold = Var(usual_name(core.type_of(scrutinee)), core.type_of(scrutinee))
        body = Switch(hold, node.branches, node.type, node.place)
        return self.auxiliary("case", hold, scrutinee, body, context, node.place)


def resolved(node, table):
    """An expression with the terms of a table for its variables."""
    if isinstance(node, Var):
        return table.get(node, node)
    return core.rebuilt(node, lambda one: resolved(one, table))


def opened(pattern, hold, body, line):
    """Choices that match a variable against the pattern of a binding around a body."""
    if pattern.variable is not None:
        body = Let(pattern.variable, hold, body, line)
    if pattern.con is None:
        return body
    fields, _ = core.split_arrows(pattern.con.type, pattern.con.info.arity)
    variables = []
    for argument, field in zip(pattern.arguments, fields):
        if argument.con is None and argument.variable is not None:
            variables.append(argument.variable)
        else:
            variables.append(Var(usual_name(field), field))
    for argument, variable in reversed(list(zip(pattern.arguments, variables))):
        if argument.con is not None:
            body = opened(argument, variable, body, line)
    type_ = core.type_of(body)
    branches = []
    for info in pattern.type.data.constructors:
        con = Con(info, pattern.type.arguments)
        if info is pattern.con.info:
            branches.append((con, variables, body))
        else:
            others, _ = core.split_arrows(con.type, info.arity)
            branches.append((con, [Var(usual_name(one), one) for one in others], Fail(type_, (line, 0))))
    return Switch(hold, branches, type_, (line, 0))


def make_rules(program):
    """The rules of all functions of the program, in their order, and what was noted on the way."""
    maker = RuleMaker(program)
    groups = call_groups(program.functions)
    for function in program.functions.values():
        maker.group = groups[function.symbol]
        maker.function(function)
    return maker


def call_groups(functions):
    """For each symbol the symbols that may be called by it and call it."""
    from fun.syntax import components

    symbols = list(functions)
    edges = {}
    for symbol, function in functions.items():
        edges[symbol] = {one.symbol for one in core.walk(function.body) if isinstance(one, Ref) and one.symbol in functions}
    groups = {}
    for component in components(symbols, edges):
        members = set(component)
        for symbol in component:
            groups[symbol] = members if len(members) > 1 or symbol in edges[symbol] else set()
    return groups
