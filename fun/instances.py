"""Functions at the types where they are used, as expressions of `core`; local functions are lifted on the way.

Each use of a polymorphic function is an instance of its own, made once for each list of types. A definition takes as
many arguments as its general type has arrows, and not more at an instance with more.
"""

from fun import core, match, prelude, types
from fun import syntax as s
from fun.core import App, Con, Fail, Lam, Let, Local, Mark, Pattern, Ref, Switch, Symbol, Unpack, Var, apply
from fun.lift import resolve_locals
from fun.messages import Message, Refused
from fun.types import TCon, argument_count, arrows, pruned, replaced

MOST_TYPE = 60  # the size of types at which an instance is made


class Own:
    """Sorts of their own for type variables: data types without constructors."""

    def __init__(self):
        self.sorts = {}

    def sort(self, number):
        """The sort for the type variable with this number of a function."""
        if number not in self.sorts:
            name = chr(97 + number) if number < 26 else f"t{number}"
            self.sorts[number] = TCon(types.Data(name, [], (0, 0), True))
        return self.sorts[number]


class LocalFunction:
    """A local function with the scope that it stands in."""

    def __init__(self, node, env, table, maker):
        self.node = node
        self.env = env
        self.table = table
        self.maker = maker
        self.instances = {}


class LocalInstance:
    """A local function at types; `parameters` and `body` are there once it is made."""

    def __init__(self, symbol):
        self.symbol = symbol
        self.parameters = []
        self.body = None
        self.extra = []  # the variables that it uses, which become its first arguments


class Program:
    """All functions of a module that are wanted, at their types."""

    def __init__(self, typed, options):
        self.typed = typed
        self.options = options
        self.own = Own()
        self.bool = types.KNOWN_TYPES["Bool"]
        self.nat = types.KNOWN_TYPES["Nat"]
        self.known = types.known_scope()
        self.symbols = {}  # (node, types) to symbol
        self.functions = {}  # symbol to core.Function
        self.waiting = []
        self.user = None  # the module's function whose body is made, or that wanted the known one whose body is made
        self.defaults = []  # (function's node, type variable's name, type's name)
        self.roots = []  # (node, symbol)

    def request(self, node, type_arguments):
        """The symbol of a function at types; its body is made later."""
        key = (id(node), type_arguments)
        if key not in self.symbols:
            user = node if node.at[0] or self.user is None else self.user
            self.look_at_size(user, type_arguments)
            table = dict(zip(node.scheme.variables, type_arguments))
            type_ = replaced(node.scheme.type, table)
            arity = max(argument_count(node.scheme.type), node.arity)
            known = node.binding.known
            symbol = Symbol(node.name, type_, arity, node.name, "known" if known else "function", node.at[0], type_arguments)
            symbol.node = node
            symbol.recursive = node.recursive
            if known:
                self.name_known(symbol, node, type_arguments)
            self.symbols[key] = symbol
            self.waiting.append((symbol, node, table, user))
        return self.symbols[key]

    def name_known(self, symbol, node, type_arguments):
        """Notes what a known function is, for the steps that know its meaning."""
        symbol.known = node.name
        for name, (_, generic, _) in prelude.METHODS.items():
            if node.name == generic:
                symbol.method = (name, type_arguments[0])
            if prelude.NAT_METHODS.get(name) == node.name:
                symbol.method = (name, TCon(self.nat))

    def look_at_size(self, node, type_arguments):
        """Refuses an instance at a large type: a function that calls itself at ever larger types makes such."""
        if sum(type_size(one) for one in type_arguments) > MOST_TYPE:
            line, column = node.at if node.at[0] else (1, 1)
            raise Refused([Message(line, column, f"`{node.name}` is used at ever larger types: a function that calls itself at "
                                   "another type (polymorphic recursion) is no part of the language")])

    def method(self, name, type_):
        """The symbol of an operator of Eq or Ord at a type."""
        class_, generic, _ = prelude.METHODS[name]
        if generic is None:
            node = types.derive(type_.data, class_)
            symbol = self.request(node, tuple(type_.arguments))
            symbol.method = (name, type_)
            symbol.kind = "known"
            return symbol
        if type_.data is self.nat and name in prelude.NAT_METHODS:
            generic, arguments = prelude.NAT_METHODS[name], ()
        else:
            arguments = (type_,)
        symbol = self.request(self.known.values[generic].node, arguments)
        symbol.method = (name, type_)
        return symbol

    def make_all(self):
        """Makes the bodies of all functions that are wanted."""
        while self.waiting:
            symbol, node, table, self.user = self.waiting.pop()
            maker = Maker(self, symbol, table)
            function = maker.function(node, {})
            if node.binding.known:
                function.body = core.unlined(function.body)
            self.functions[symbol] = function
            for instance in maker.instances:
                self.functions[instance.symbol] = core.Function(instance.symbol, instance.parameters, instance.body)

    def start(self, node):
        """Makes an exported function: at its type, or at sorts of its own where it has variables."""
        arguments = []
        for number, variable in enumerate(node.scheme.variables):
            if variable.classes:
                data = self.nat if self.typed.natural else self.bool
                arguments.append(TCon(data))
                self.defaults.append((node, variable.name, data.name))
            else:
                arguments.append(self.own.sort(number))
        self.request(node, tuple(arguments))
        self.make_all()

    def wanted(self):
        """Makes all exported functions, those that call others first, so that an instance of the module is one."""
        functions = self.typed.functions
        names = {one.name: number for number, one in enumerate(functions)}
        edges = [{names[name] for name in s.free_names(one) if name in names} for one in functions]
        order = [number for component in s.components(range(len(functions)), edges) for number in component]
        exports = set(map(id, self.typed.exports))
        for number in range(len(functions)):
            if id(functions[number]) in exports and not functions[number].scheme.variables:
                self.start(functions[number])
        for number in reversed(order):
            node = functions[number]
            if id(node) in exports and node.scheme.variables:
                used = any(key[0] == id(node) for key in self.symbols)
                if self.options.all_instances or not used:
                    self.start(node)
        for node in self.typed.exports:
            found = [symbol for key, symbol in self.symbols.items() if key[0] == id(node)]
            self.roots.extend((node, symbol) for symbol in found)


def type_size(type_):
    """How many names a type has."""
    return 1 + sum(type_size(one) for one in type_.arguments)


class Maker:
    """Makes one function at types; local functions become symbols of their own."""

    def __init__(self, program, symbol, table):
        self.program = program
        self.symbol = symbol
        self.table = table
        self.instances = []

    # Types

    def concrete(self, type_, table):
        """A type without variables; what nothing tells is a sort of its own."""
        type_ = pruned(type_)
        if isinstance(type_, TCon):
            if not type_.arguments:
                return type_
            return TCon(type_.data, tuple(self.concrete(one, table) for one in type_.arguments))
        return table.get(type_) or self.program.own.sort(0)

    def concretes(self, some, table):
        """Several types."""
        return tuple(self.concrete(one, table) for one in some)

    def constructor(self, node, table):
        """A constructor at types."""
        return Con(node.info, self.concretes(node.types, table))

    def numeral(self, number):
        """A number as an expression."""
        zero, succ = (Con(info, ()) for info in self.program.nat.constructors)
        result = zero
        for _ in range(number):
            result = App(succ, [result])
        return result

    # Functions

    def function(self, node, env):
        """A function with its parameters and body."""
        parameters, body = self.definition(node, env, self.table, self.symbol.arity)
        resolve_locals(self.instances, body)
        function = core.Function(self.symbol, parameters, body)
        function.body = resolve_body(body)
        for instance in self.instances:
            instance.body = resolve_body(instance.body)
            instance.parameters = instance.extra + instance.parameters
            instance.symbol.type = arrows([one.type for one in instance.extra], instance.symbol.type)
            instance.symbol.arity += len(instance.extra)
            instance.symbol.extra = instance.extra
        return function

    def definition(self, node, env, table, arity):
        """The parameters and the body of a function's equations."""
        type_ = self.concrete(node.scheme.type, table)
        arguments, result = core.split_arrows(type_, arity)
        names = [parameter_name(node.clauses, number, arguments[number]) for number in range(arity)]
        parameters = [Var(name, one) for name, one in zip(names, arguments)]
        count = node.arity
        rest = parameters[count:]
        fail = Fail(result, node.at)
        rows = [self.row(clause, parameters[:count], env, table, rest) for clause in node.clauses]
        return parameters, match.compiled(rows, fail)

    def row(self, clause, columns, env, table, rest=()):
        """A clause as a row over variables; `rest` are arguments that its right side is given."""
        env = dict(env)
        tests = []
        for column, pattern in zip(columns, clause.patterns):
            tests.append((column, self.pattern(pattern, column.type, env, table)))
        right = self.right(clause.right, env, table)

        def build(rest_of_rows):
            return right.build(rest_of_rows, list(rest))

        return match.Row(tests, build, right.falls, clause.at, right.type)

    def pattern(self, pattern, type_, env, table):
        """A pattern as `core` has it; the scope gets its variables."""
        if isinstance(pattern, s.PVar):
            variable = env[pattern.name] = Var(pattern.name, type_)
            return Pattern(None, [], variable, type_)
        if isinstance(pattern, s.PWild):
            return Pattern(None, [], None, type_)
        if isinstance(pattern, s.PLit):
            zero, succ = (Con(info, ()) for info in self.program.nat.constructors)
            result = Pattern(zero, [], None, type_)
            for _ in range(pattern.number):
                result = Pattern(succ, [result], None, type_)
            return result
        if isinstance(pattern, s.PAs):
            variable = env[pattern.name] = Var(pattern.name, type_)
            inner = self.pattern(pattern.pattern, type_, env, table)
            if inner.variable is not None:  # as in `x@y`
                env[pattern.name] = inner.variable
            else:
                inner.variable = variable
            return inner
        con = Con(pattern.info, type_.arguments)
        fields, _ = core.split_arrows(con.type, pattern.info.arity)
        arguments = [self.pattern(one, field, env, table) for one, field in zip(pattern.arguments, fields)]
        return Pattern(con, arguments, None, type_)

    def right(self, right, env, table):
        """A right side, made once, that can be built with several things behind its guards."""
        return RightSide(self, right, env, table)

    # Expressions

    def expression(self, node, env, table):
        """An expression of the syntax tree as one of `core`."""
        if isinstance(node, s.Var):
            return self.variable(node, env, table)
        if isinstance(node, s.Con):
            return self.constructor(node, table)
        if isinstance(node, s.Lit):
            return self.numeral(node.number)
        if isinstance(node, s.App):
            arguments = []
            while isinstance(node, s.App):
                arguments.append(self.expression(node.argument, env, table))
                node = node.function
            return apply(self.expression(node, env, table), arguments[::-1], node.at[0])
        if isinstance(node, s.Annotated):
            return self.expression(node.expression, env, table)
        if isinstance(node, s.Let):
            wrap, inner = self.declarations(node.declarations, env, table)
            return wrap(self.expression(node.body, inner, table))
        if isinstance(node, s.If):
            condition = self.expression(node.condition, env, table)
            branches = [Mark(one.at[0], self.expression(one, env, table)) for one in (node.yes, node.no)]
            return self.choice(condition, *branches, node.at)
        if isinstance(node, s.Case):
            return self.case(node, env, table)
        return self.lambda_(node, env, table)

    def choice(self, condition, yes, no, place):
        """A choice by a condition."""
        false, true = (Con(info, ()) for info in self.program.bool.constructors)
        return Switch(condition, [(true, [], yes), (false, [], no)], core.type_of(yes), place)

    def case(self, node, env, table):
        """A `case`: a binding of what it looks at, with a tree of choices."""
        scrutinee = self.expression(node.scrutinee, env, table)
        type_ = core.type_of(scrutinee)
        column = scrutinee if isinstance(scrutinee, Var) else Var(match.usual_name(type_), type_)
        rows = [self.row(clause, [column], env, table) for clause in node.clauses]
        result = rows[0].type
        body = match.compiled(rows, Fail(result, node.at))
        return body if column is scrutinee else Let(column, scrutinee, body, node.at[0])

    def lambda_(self, node, env, table):
        """A lambda; its patterns are matched in its body."""
        clause, env = node.clause, dict(env)
        types_ = [self.concrete(one.type, table) for one in clause.patterns]
        parameters = []
        for pattern, type_ in zip(clause.patterns, types_):
            name = pattern.name if isinstance(pattern, (s.PVar, s.PAs)) else match.usual_name(type_)
            parameters.append(Var(name.rstrip("'") or name, type_))
        row = self.row(clause, parameters, env, table)
        result = row.type
        return Lam(parameters, match.compiled([row], Fail(result, node.at)))

    def variable(self, node, env, table):
        """A name."""
        binding = node.binding
        if binding.kind == "method":
            return Ref(self.program.method(node.name, self.concrete(node.types[0], table)))
        if binding.kind == "global":
            if binding.known and node.name == "otherwise":
                return Con(self.program.bool.constructors[1], ())
            return Ref(self.program.request(binding.node, self.concretes(node.types, table)))
        found = env[node.name]
        if isinstance(found, LocalFunction):
            return self.local(found, self.concretes(node.types, table))
        return found

    # Local declarations

    def declarations(self, declarations, env, table):
        """Local declarations: the scope with them, and a function that puts their bindings around an expression."""
        env = dict(env)
        bindings = []
        for one in declarations:
            if isinstance(one, s.PatternBinding):
                right = self.right(one.right, env, table)
                type_ = self.concrete(one.pattern.type, table)
                value = right.build(lambda type_=type_, at=one.at: Fail(type_, at), [])
                pattern = self.pattern(one.pattern, type_, env, table)
                bindings.append((pattern, value, one.at[0]))
            elif argument_count(one.scheme.type) == 0 and not one.recursive and not one.scheme.variables:
                type_ = self.concrete(one.scheme.type, table)
                right = self.right(one.clauses[0].right, env, table)
                value = right.build(lambda type_=type_, at=one.at: Fail(type_, at), [])
                env[one.name] = Var(one.name, type_)
                bindings.append((env[one.name], value, one.at[0]))
            else:
                env[one.name] = LocalFunction(one, env, table, self)

        def wrap(body):
            for target, value, line in reversed(bindings):
                if isinstance(target, Pattern):
                    body = Unpack(target, value, body, line)
                else:
                    body = Let(target, value, body, line)
            return body

        return wrap, env

    def local(self, function, type_arguments):
        """A local function at types: put in place where it is small, else lifted."""
        node = function.node
        table = dict(function.table)
        table.update(zip(node.scheme.variables, type_arguments))
        arity = max(argument_count(node.scheme.type), node.arity)
        if self.put_in_place(node):
            parameters, body = self.definition(node, function.env, table, arity)
            return Lam(parameters, body) if parameters else body
        if type_arguments not in function.instances:
            symbol = Symbol(node.name, self.concrete(node.scheme.type, table), arity, self.symbol.function, "local", node.at[0],
                            self.symbol.types + type_arguments)
            symbol.parent = self.symbol
            symbol.recursive = node.recursive
            instance = function.instances[type_arguments] = LocalInstance(symbol)
            self.instances.append(instance)
            instance.parameters, instance.body = self.definition(node, function.env, table, arity)
        return Local(function.instances[type_arguments])

    def put_in_place(self, node):
        """Whether a local function is small: one equation without constructor patterns that does not call itself."""
        simple = all(isinstance(one, (s.PVar, s.PWild)) for one in node.clauses[0].patterns)
        small = len(node.clauses) == 1 and simple and not node.recursive
        return small and (self.program.options.copies or argument_count(node.scheme.type) == 0)


class RightSide:
    """A right side: its parts are made once, and built with what comes where its guards fail."""

    def __init__(self, maker, right, env, table):
        self.maker = maker
        self.wrap, env = maker.declarations(right.where, env, table) if right.where else (lambda body: body, env)
        self.alternatives = []
        self.falls = True
        for guards, expression in right.alternatives:
            inner, parts = env, []
            for guard in guards:
                part, inner = self.guard(guard, inner, table)
                parts.append(part)
            line = guards[0].at[0] if guards else right.at[0]
            self.alternatives.append((parts, maker.expression(expression, inner, table), line))
            if all(part is None or part[0] == "let" for part in parts):
                self.falls = False
        self.type = core.type_of(self.alternatives[0][1])

    def guard(self, guard, env, table):
        """A guard as a part, and the scope behind it; None where it holds."""
        maker = self.maker
        if isinstance(guard, s.LetGuard):
            wrap, env = maker.declarations(guard.declarations, env, table)
            return ("let", wrap), env
        value = maker.expression(guard.expression, env, table)
        if guard.pattern is None:
            holds = isinstance(value, Con) and value.info.name == "True"
            return (None if holds else ("if", value, guard.at)), env
        env = dict(env)
        type_ = core.type_of(value)
        return ("match", value, maker.pattern(guard.pattern, type_, env, table), guard.at), env

    def build(self, otherwise, arguments):
        """The right side given arguments; `otherwise` makes what comes where all guards fail."""
        made = []

        def last():
            if not made:
                made.append(otherwise())
            return made[0]

        body = self.chain(0, last, arguments)
        return self.wrap(body)

    def chain(self, number, last, arguments):
        """The alternatives from this one on."""
        if number == len(self.alternatives):
            return last()
        parts, expression, line = self.alternatives[number]
        body = Mark(line, apply(expression, arguments))
        made = []

        def next_():
            if not made:
                made.append(self.chain(number + 1, last, arguments))
            return made[0]

        for part in reversed(parts):
            if part is None:
                continue
            if part[0] == "let":
                body = part[1](body)
            elif part[0] == "if":
                body = self.maker.choice(part[1], body, next_(), part[2])
            else:
                body = self.match(part, body, next_)
        return body

    def match(self, part, body, next_):
        """A pattern guard."""
        _, value, pattern, place = part
        column = value if isinstance(value, Var) else Var(match.usual_name(pattern.type), pattern.type)
        type_ = core.type_of(body)
        rows = [match.Row([(column, pattern)], lambda _: body, False, place, type_)]
        rows.append(match.Row([], lambda _: next_(), False, place, type_))
        tree = match.compiled(rows, Fail(type_, place))
        return tree if column is value else Let(column, value, tree, place[0])


def parameter_name(clauses, number, type_):
    """A name for a parameter: as the first clause that names it has it."""
    for clause in clauses:
        if number < len(clause.patterns) and isinstance(clause.patterns[number], (s.PVar, s.PAs)):
            return clause.patterns[number].name
    return match.usual_name(type_)


def resolve_body(body):
    """A body with each local function applied to the variables that it uses."""
    if isinstance(body, Local):
        extra = body.instance.extra
        return apply(Ref(body.instance.symbol), list(extra))
    return core.rebuilt(body, resolve_body)


def make_program(typed, options):
    """All functions that a module exports, and what they call."""
    program = Program(typed, options)
    program.wanted()
    return program
