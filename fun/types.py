"""Scopes and types: what each name is, and its type, by the method of Hindley and Milner with the classes Eq and Ord.

The checker writes into the tree what later steps want: the binding and the instance of each name, the types of pattern
variables, the order of local declarations. It goes on after an error, with one message for each declaration.

A type that is looked for is a `Meta`; where a function's type is made general, its metas become `Rigid` variables in
place, so that what was written into the tree speaks of these.
"""

from dataclasses import dataclass, field

from fun import prelude
from fun import syntax as s
from fun.messages import Message, Refused, nearest


class Meta:
    """A type that is not known yet; `ref` is the type once it is. `level` is how many bindings stand around it."""

    __slots__ = ("ref", "level")

    def __init__(self, level):
        self.ref = None
        self.level = level


class Rigid:
    """A type variable of a signature or of a general type, with the classes that it is in."""

    __slots__ = ("name", "classes", "level")

    def __init__(self, name, classes=()):
        self.name = name
        self.classes = set(classes)
        self.level = 0  # how many bindings stand around the signature while its function is checked


class Data:
    """A data type. `fields` of each constructor speak of `parameters`."""

    def __init__(self, name, parameters, at, known=False):
        self.name = name
        self.parameters = parameters
        self.at = at
        self.known = known
        self.constructors = []
        self.deriving = {}  # class to its place
        self.needs = {}  # class to the numbers of the parameters that are to be in it, or absent
        self.derived = {}  # class to the function that is derived


@dataclass(eq=False)
class ConInfo:
    """A constructor: its data type, number and fields."""

    name: str
    data: Data
    number: int
    fields: list

    @property
    def arity(self):
        """How many fields it has."""
        return len(self.fields)


@dataclass(frozen=True)
class TCon:
    """A data type with arguments; functions are of the data type `ARROW`."""

    data: Data
    arguments: tuple = ()


ARROW = Data("->", [Rigid("a"), Rigid("b")], (0, 0), True)
LIST = Data("[]", [Rigid("a")], (0, 0), True)
UNIT = Data("()", [], (0, 0), True)
LIST.constructors = [
    ConInfo("[]", LIST, 0, []),
    ConInfo(":", LIST, 1, [LIST.parameters[0], TCon(LIST, (LIST.parameters[0],))]),
]
UNIT.constructors = [ConInfo("()", UNIT, 0, [])]


def make_tuples():
    """The data types of tuples."""
    found = {}
    for count in range(2, 8):
        parameters = [Rigid(chr(97 + i)) for i in range(count)]
        data = Data(s.tuple_name(count), parameters, (0, 0), True)
        data.constructors = [ConInfo(data.name, data, 0, list(parameters))]
        found[data.name] = data
    return found


TUPLES = make_tuples()
for _data in (LIST, UNIT, *TUPLES.values()):
    for _class in ("Eq", "Ord"):
        _data.deriving[_class] = (0, 0)
        _data.needs[_class] = set(range(len(_data.parameters)))


@dataclass
class Scheme:
    """A general type: variables, and the type; the variables know their classes."""

    variables: list
    type: object


@dataclass(eq=False)
class Binding:
    """What a name stands for: kind is global, local, variable, pattern or method."""

    kind: str
    name: str
    at: tuple
    scheme: Scheme = None
    node: object = None
    known: bool = False  # whether it is of the Prelude or of Nat
    group: list = None  # while its group is checked: the uses that get its instance afterwards


def arrow(left, right):
    """The type of functions."""
    return TCon(ARROW, (left, right))


def arrows(arguments, result):
    """The type of functions of several arguments."""
    for argument in reversed(arguments):
        result = arrow(argument, result)
    return result


def pruned(type_):
    """The type behind metas that are known."""
    while isinstance(type_, Meta) and type_.ref is not None:
        type_ = type_.ref
    return type_


def replaced(type_, table):
    """The type with rigid variables replaced."""
    type_ = pruned(type_)
    if isinstance(type_, Rigid):
        return table.get(type_, type_)
    if isinstance(type_, TCon) and type_.arguments:
        return TCon(type_.data, tuple(replaced(one, table) for one in type_.arguments))
    return type_


def argument_count(type_):
    """How many arrows a type has at its top."""
    count, type_ = 0, pruned(type_)
    while isinstance(type_, TCon) and type_.data is ARROW:
        count, type_ = count + 1, pruned(type_.arguments[1])
    return count


class Shower:
    """Types as Haskell writes them; metas get names that no variable in sight has."""

    def __init__(self):
        self.names = {}

    def variable(self, type_):
        """The name of a variable."""
        if isinstance(type_, Rigid):
            wanted = type_.name
            taken = {name for other, name in self.names.items() if other is not type_}
            if type_ not in self.names:
                while wanted in taken:
                    wanted += "1"
                self.names[type_] = wanted
        elif type_ not in self.names:
            free = (chr(97 + i) for i in range(26) if chr(97 + i) not in self.names.values())
            self.names[type_] = next(free, f"t{len(self.names)}")
        return self.names[type_]

    def show(self, type_, strength=0):
        """A type; `strength` is 1 to the left of an arrow and 2 as an argument."""
        type_ = pruned(type_)
        if not isinstance(type_, TCon):
            return self.variable(type_)
        if type_.data is ARROW:
            text = f"{self.show(type_.arguments[0], 1)} -> {self.show(type_.arguments[1])}"
            return f"({text})" if strength else text
        if type_.data is LIST:
            return f"[{self.show(type_.arguments[0])}]"
        if type_.data.name.startswith("(,"):
            return "(" + ", ".join(self.show(one) for one in type_.arguments) + ")"
        if not type_.arguments:
            return type_.data.name
        text = " ".join([type_.data.name] + [self.show(one, 2) for one in type_.arguments])
        return f"({text})" if strength == 2 else text


def shown(*types):
    """Types as Haskell writes them, with common names for their variables."""
    shower = Shower()
    rigid = []
    for type_ in types:
        collect_rigid(type_, rigid)
    for one in rigid:
        shower.variable(one)
    texts = [shower.show(type_) for type_ in types]
    return texts[0] if len(texts) == 1 else texts


def collect_rigid(type_, found):
    """The rigid variables of a type, in order."""
    type_ = pruned(type_)
    if isinstance(type_, Rigid):
        if type_ not in found:
            found.append(type_)
    elif isinstance(type_, TCon):
        for one in type_.arguments:
            collect_rigid(one, found)


def shown_scheme(scheme):
    """A general type with its context."""
    shower = Shower()
    for one in scheme.variables:
        shower.variable(one)
    context = []
    for one in scheme.variables:
        classes = one.classes - ({"Eq"} if "Ord" in one.classes else set())
        context += [f"{name} {shower.variable(one)}" for name in sorted(classes)]
    text = shower.show(scheme.type)
    if not context:
        return text
    return (context[0] if len(context) == 1 else "(" + ", ".join(context) + ")") + " => " + text


class Mismatch(Exception):
    """Two types that are not equal; `endless` where one would have to hold itself."""

    def __init__(self, endless=False):
        super().__init__()
        self.endless = endless


def bind(meta, type_):
    """Makes a meta a type, after a look that it does not stand in it; levels go down."""
    work = [type_]
    while work:
        one = pruned(work.pop())
        if one is meta:
            raise Mismatch(endless=True)
        if isinstance(one, Meta):
            one.level = min(one.level, meta.level)
        elif isinstance(one, Rigid) and one.level > meta.level:
            raise Mismatch()
        elif isinstance(one, TCon):
            work.extend(one.arguments)
    meta.ref = type_


def unify(left, right):
    """Makes two types equal, or raises `Mismatch`."""
    left, right = pruned(left), pruned(right)
    if left is right:
        return
    if isinstance(left, Meta):
        bind(left, right)
    elif isinstance(right, Meta):
        bind(right, left)
    elif isinstance(left, TCon) and isinstance(right, TCon) and left.data is right.data:
        for one, other in zip(left.arguments, right.arguments):
            unify(one, other)
    else:
        raise Mismatch()


class Scope:
    """The names in sight: types, constructors and values."""

    def __init__(self):
        self.types = {}  # name to Data or Synonym
        self.constructors = {}
        self.values = {}


class Checker:
    """Types declarations in a scope; messages are gathered."""

    def __init__(self, scope, known=False):
        self.scope = scope
        self.known = known
        self.level = 0
        self.wanted = []  # constraints: (class, type, place, words)
        self.messages = []
        self.unknown = {}  # name to a sentence, for names that are no part of the language
        self.complained = False  # whether the current declaration has its message

    # Messages

    def complain(self, at, sentence, once=True):
        """A message; of each declaration the first one alone where `once`."""
        if once and self.complained:
            return
        self.complained = self.complained or once
        self.messages.append(Message(at[0], at[1], sentence))

    # Types as they are written

    def type_of(self, written, variables, make=None):
        """The type that a written one is. `make` makes a variable that is not there yet."""
        if written.is_variable:
            if written.head not in variables:
                if make is None:
                    self.complain(written.at, f"the type variable `{written.head}` is not in scope here")
                    return Meta(self.level)
                variables[written.head] = make(written.head)
            return variables[written.head]
        arguments = [self.type_of(one, variables, make) for one in written.arguments]
        data = self.find_type(written)
        if data is None:
            return Meta(self.level)
        wanted = len(data.parameters)
        if wanted != len(arguments):
            self.complain(written.at, f"`{data.name}` has {counted(wanted, 'type argument')}, and "
                          f"{'none is' if not arguments else str(len(arguments)) + ' are'} given")
            return Meta(self.level)
        if isinstance(data, Expansion):
            return replaced(data.type, dict(zip(data.parameters, arguments)))
        return TCon(data, tuple(arguments))

    def find_type(self, written):
        """The data type or synonym of a name, or None behind a message."""
        head = written.head
        fixed = {"->": ARROW, "[]": LIST, "()": UNIT, **TUPLES}
        if head in fixed:
            return fixed[head]
        found = self.scope.types.get(head)
        if found is not None:
            return found
        if head in ("Int", "Integer", "Double", "Float", "Word"):
            sentence = f"`{head}` is no part of the language: the numbers are those of `Nat`, from `import Nat`"
        elif head in ("Char", "String"):
            sentence = f"`{head}` is no part of the language: use a data type with a constructor for each sign that occurs"
        elif head == "Nat":
            sentence = "`Nat` is not in scope: write `import Nat`, or define the data type"
        elif head in prelude.PRELUDE_TYPES:
            sentence = f"`{head}` is no part of the language"
        else:
            sentence = f"the type `{head}` is not in scope" + meant(head, self.scope.types)
        self.complain(written.at, sentence)
        return None

    def scheme_of(self, qualified):
        """The general type of a signature."""
        variables = {}
        type_ = self.type_of(qualified.type, variables, Rigid)
        for name, variable in qualified.context:
            if variable.head not in variables:
                self.complain(variable.at, f"the type variable `{variable.head}` of the context stands nowhere in the type")
            else:
                variables[variable.head].classes.add(name)
        return Scheme(list(variables.values()), type_)

    # Constraints

    def want(self, class_, type_, at, words):
        """Notes that a type is to be in a class."""
        self.wanted.append((class_, type_, at, words))

    def solved(self, constraint):
        """What is left of a constraint: constraints on metas; refuses what can't hold."""
        left, work = [], [constraint[1]]
        class_, _, at, words = constraint
        while work:
            type_ = pruned(work.pop())
            if isinstance(type_, Meta):
                left.append((class_, type_, at, words))
            elif isinstance(type_, Rigid):
                if class_ not in type_.classes and not (class_ == "Eq" and "Ord" in type_.classes):
                    self.complain(at, f"{words} wants `{class_} {type_.name}`: write it into the context of the signature")
            elif type_.data is ARROW:
                self.complain(at, f"{words} compares values of the type `{shown(type_)}`, and functions can't be compared")
            elif class_ not in type_.data.needs:
                self.complain(at, f"{words} wants the type `{shown(type_)}` to be in `{class_}`: write `deriving ({class_})` "
                              "behind its data type")
            else:
                work.extend(type_.arguments[i] for i in type_.data.needs[class_])
        return left

    # Expressions

    def fresh(self):
        """A type that is not known yet."""
        return Meta(self.level)

    def instance(self, scheme):
        """A type of a general one, with the types of its variables."""
        types = [self.fresh() for _ in scheme.variables]
        return replaced(scheme.type, dict(zip(scheme.variables, types))), types

    def lookup(self, name, env):
        """The binding of a name, or None."""
        return env.get(name) or self.scope.values.get(name)

    def variable(self, node, env):
        """The type of a variable."""
        binding = node.binding or self.lookup(node.name, env)
        if binding is None:
            self.complain(node.at, self.not_in_scope(node.name, env), once=False)
            return self.fresh()
        node.binding = binding
        if isinstance(binding, Problem):
            self.complain(node.at, binding.sentence, once=False)
            return self.fresh()
        type_, node.types = self.instance(binding.scheme)
        for variable, one in zip(binding.scheme.variables, node.types):
            for class_ in variable.classes:
                self.want(class_, one, node.at, f"`{node.name}`")
        if binding.group is not None:
            binding.group.append(node)
        return type_

    def not_in_scope(self, name, env):
        """What to say of a name that is not there."""
        if name in self.unknown:
            return self.unknown[name]
        if name in prelude.NO_VALUES:
            return prelude.NO_VALUES[name]
        if name in prelude.PRELUDE_NAMES:
            return f"`{name}` of the Prelude is no part of the language: define it, and hide it by `import Prelude hiding ({written(name)})`"
        return f"`{name}` is not in scope" + meant(name, set(env) | set(self.scope.values))

    def constructor(self, node):
        """The constructor of a node, or None behind a message."""
        if node.info is None:
            fixed = {"[]": LIST.constructors[0], ":": LIST.constructors[1], "()": UNIT.constructors[0]}
            fixed.update((name, data.constructors[0]) for name, data in TUPLES.items())
            node.info = fixed.get(node.name) or self.scope.constructors.get(node.name)
        if node.info is None:
            hint = meant(node.name, self.scope.constructors)
            if node.name in ("Zero", "Succ") and not hint:
                hint = ": write `import Nat`"
            self.complain(node.at, f"the constructor `{node.name}` is not in scope{hint}", once=False)
        return node.info

    def natural(self, at):
        """The type of numerals."""
        data = self.scope.types.get("Nat")
        if data is None or not data.known:
            self.complain(at, "numerals are numbers of `Nat`: write `import Nat`")
            return self.fresh()
        return TCon(data)

    def infer(self, node, env):
        """The type of an expression."""
        if isinstance(node, s.Var):
            return self.variable(node, env)
        if isinstance(node, s.Con):
            info = self.constructor(node)
            if info is None:
                return self.fresh()
            node.types = [self.fresh() for _ in info.data.parameters]
            table = dict(zip(info.data.parameters, node.types))
            return arrows([replaced(one, table) for one in info.fields], TCon(info.data, tuple(node.types)))
        if isinstance(node, s.Lit):
            return self.natural(node.at)
        if isinstance(node, s.App):
            return self.application(node, env)
        if isinstance(node, s.Annotated):
            return self.annotated(node, env)
        type_ = self.fresh()
        self.check(node, type_, env, None)
        return type_

    def annotated(self, node, env):
        """The type that an expression is given."""
        scheme = self.scheme_of(node.type)
        if scheme.variables:
            self.complain(node.at, "a type within an expression has no variables in the language: give a signature to a function")
            return self.fresh()
        self.check(node.expression, scheme.type, env, f"its type in line {node.at[0]}")
        return scheme.type

    def application(self, node, env):
        """The type of a function with arguments."""
        arguments = []
        while isinstance(node, s.App):
            arguments.append(node.argument)
            node = node.function
        arguments.reverse()
        type_ = pruned(self.infer(node, env))
        for number, argument in enumerate(arguments, 1):
            if isinstance(type_, Meta):
                parameter, result = self.fresh(), self.fresh()
                unify(type_, arrow(parameter, result))
            elif isinstance(type_, TCon) and type_.data is ARROW:
                parameter, result = type_.arguments
            else:
                got = "no argument" if number == 1 else f"{counted(number - 1, 'argument')} and no more"
                self.complain(argument.at, f"{described(node)} takes {got}: with that it is a `{shown(type_)}`")
                for rest in arguments[number - 1:]:
                    self.infer(rest, env)
                return self.fresh()
            self.check(argument, parameter, env, f"argument {number} of {described(node)}")
            type_ = pruned(result)
        return type_

    def check(self, node, wanted, env, why):
        """Checks an expression against a type; `why` says who wants it."""
        if isinstance(node, s.Lam):
            self.clause(node.clause, wanted, env, why, "the lambda")
        elif isinstance(node, s.Let):
            inner = self.declarations(node.declarations, env)
            self.check(node.body, wanted, inner, why)
        elif isinstance(node, s.If):
            self.check(node.condition, self.boolean(), env, "a condition")
            self.check(node.yes, wanted, env, why)
            self.check(node.no, wanted, env, why or f"the first branch in line {node.yes.at[0]}")
        elif isinstance(node, s.Case):
            type_ = self.infer(node.scrutinee, env)
            first = node.clauses[0]
            for clause in node.clauses:
                reason = why if clause is first or why else f"the first alternative in line {first.at[0]}"
                self.clause(clause, arrow(type_, wanted), env, reason, described(node.scrutinee))
        else:
            self.expect(node, self.infer(node, env), wanted, why)

    def expect(self, node, got, wanted, why):
        """Makes the type that an expression has and the one that it is to have equal."""
        try:
            unify(got, wanted)
        except Mismatch as mismatch:
            one, other = shown(got, wanted)
            if mismatch.endless:
                sentence = f"{described(node)} has the type `{one}`, and {why or 'its place'} wants `{other}`: no type is both"
            else:
                sentence = f"{described(node)} has the type `{one}`, and {why or 'its place'} wants `{other}`"
            self.complain(node.at, sentence)

    def boolean(self):
        """The type of conditions."""
        return TCon(KNOWN_TYPES["Bool"])

    def clause(self, clause, wanted, env, why, what):
        """Checks patterns and right side against a functional type."""
        env = dict(env)
        names = {}
        for number, pattern in enumerate(clause.patterns, 1):
            wanted = pruned(wanted)
            if isinstance(wanted, Meta):
                parameter, result = self.fresh(), self.fresh()
                unify(wanted, arrow(parameter, result))
            elif isinstance(wanted, TCon) and wanted.data is ARROW:
                parameter, result = wanted.arguments
            else:
                self.complain(pattern.at, f"pattern {number} is one too many: {why or 'its place'} wants `{shown(wanted)}`")
                parameter, result = self.fresh(), self.fresh()
            self.pattern(pattern, parameter, env, names, what if len(clause.patterns) == 1 else f"argument {number}")
            wanted = result
        self.right(clause.right, wanted, env, why)

    def pattern(self, pattern, wanted, env, names, what):
        """Checks a pattern against a type, and puts its variables into the scope."""
        pattern.type = wanted
        if isinstance(pattern, (s.PVar, s.PAs)):
            if pattern.name in names:
                self.complain(pattern.at, f"`{pattern.name}` stands twice in the patterns of one equation: compare by `==`",
                              once=False)
            names[pattern.name] = pattern
            env[pattern.name] = Binding("variable", pattern.name, pattern.at, Scheme([], wanted), pattern)
            if isinstance(pattern, s.PAs):
                self.pattern(pattern.pattern, wanted, env, names, what)
        elif isinstance(pattern, s.PLit):
            self.expect_pattern(pattern, self.natural(pattern.at), wanted, f"`{pattern.number}`", what)
        elif isinstance(pattern, s.PCon):
            self.constructor_pattern(pattern, wanted, env, names, what)

    def constructor_pattern(self, pattern, wanted, env, names, what):
        """Checks a constructor with its patterns."""
        info = self.constructor(pattern)
        if info is None:
            for one in pattern.arguments:
                self.pattern(one, self.fresh(), env, names, what)
            return
        if pattern.any_fields:
            pattern.arguments = [s.PWild(pattern.at) for _ in info.fields]
        if info.arity != len(pattern.arguments):
            self.complain(pattern.at, f"`{info.name}` has {counted(info.arity, 'field')}, and "
                          f"{len(pattern.arguments)} stand{'s' if len(pattern.arguments) == 1 else ''} in this pattern")
        pattern.types = [self.fresh() for _ in info.data.parameters]
        table = dict(zip(info.data.parameters, pattern.types))
        self.expect_pattern(pattern, TCon(info.data, tuple(pattern.types)), wanted, f"`{info.name}`", what)
        for number, one in enumerate(pattern.arguments):
            type_ = replaced(info.fields[number], table) if number < info.arity else self.fresh()
            self.pattern(one, type_, env, names, f"field {number + 1} of `{info.name}`")

    def expect_pattern(self, pattern, got, wanted, name, what):
        """Makes the type of a pattern and the one of what it matches equal."""
        try:
            unify(got, wanted)
        except Mismatch:
            one, other = shown(got, wanted)
            self.complain(pattern.at, f"the pattern {name} has the type `{one}`, and {what} has the type `{other}`")

    def right(self, right, wanted, env, why):
        """Checks a right side with its guards and `where`."""
        env = self.declarations(right.where, env) if right.where else env
        for guards, expression in right.alternatives:
            inner = env
            for guard in guards:
                inner = self.guard(guard, inner)
            self.check(expression, wanted, inner, why)

    def guard(self, guard, env):
        """Checks a guard; returns the scope behind it."""
        if isinstance(guard, s.LetGuard):
            return self.declarations(guard.declarations, env)
        if guard.pattern is None:
            self.check(guard.expression, self.boolean(), env, "a guard")
            return env
        type_ = self.infer(guard.expression, env)
        env = dict(env)
        self.pattern(guard.pattern, type_, env, {}, described(guard.expression))
        return env

    # Declarations

    def declarations(self, declarations, env):
        """Checks declarations and puts them in the order in which they use one another; returns the scope with them."""
        env = dict(env)
        names = {}
        for number, one in enumerate(declarations):
            for name in s.scope_of([one]):
                names[name] = number
        for one in declarations:
            self.declare(one, env, "local")
        edges = [{names[name] for name in s.free_names(one) if name in names} for one in declarations]
        order = s.components(range(len(declarations)), edges)
        for component in order:
            for number in component:
                self.mark_recursion(declarations[number], number in edges[number] or len(component) > 1)
        self.check_groups(declarations, edges, env)
        declarations[:] = [declarations[number] for component in order for number in component]
        return env

    def mark_recursion(self, one, recursive):
        """Notes whether a declaration uses itself."""
        if isinstance(one, s.Function):
            one.recursive = recursive
        elif recursive:
            self.complain(one.at, "a pattern binding that uses its own variables is no part of the language: write a function",
                          once=False)

    def declare(self, one, env, kind):
        """Puts the names of a declaration into a scope, with their types where signatures say them."""
        if isinstance(one, s.Function):
            binding = Binding(kind, one.name, one.at, None, one, self.known)
            one.binding = binding
            if one.signature is not None:
                one.scheme = binding.scheme = self.scheme_of(one.signature)
            env[one.name] = binding
        else:
            for node in s.pattern_variables(one.pattern):
                env[node.name] = Binding("pattern", node.name, node.at, None, node)

    def check_groups(self, declarations, edges, env):
        """Checks functions without signatures in the order of their use, and then those with signatures."""
        signed = {n for n, one in enumerate(declarations) if isinstance(one, s.Function) and one.signature is not None}
        free = [n for n in range(len(declarations)) if n not in signed]
        inner = [set() if n in signed else edges[n] - signed for n in range(len(declarations))]
        for component in s.components(free, inner):
            self.group([declarations[number] for number in component], env)
        for number in sorted(signed):
            self.signed(declarations[number], env)

    def top_level(self, one):
        """Begins a top-level declaration: it may have a message of its own."""
        if self.level == 0:
            self.complained = False

    def signed(self, one, env):
        """Checks a function against its signature."""
        self.top_level(one)
        self.level += 1
        saved, self.wanted = self.wanted, []
        for variable in one.scheme.variables:
            variable.level = self.level
        for clause in one.clauses:
            self.clause(clause, one.scheme.type, env, f"the signature of `{one.name}`", f"an argument of `{one.name}`")
        self.level -= 1
        found, self.wanted = self.wanted, saved
        unknown = []
        self.close(found, unknown)
        for class_, _, at, words in unknown:
            self.complain(at, f"{words} wants a type in `{class_}` that nothing tells: give a type by `::`")

    def close(self, constraints, general):
        """Solves constraints: those on metas that become general are put there, others wait outside."""
        for constraint in constraints:
            for class_, meta, at, words in self.solved(constraint):
                if meta.level > self.level:
                    general.append((class_, meta, at, words))
                else:
                    self.wanted.append((class_, meta, at, words))

    def group(self, members, env):
        """Checks functions that use one another, and makes their types general."""
        self.top_level(members[0])
        self.level += 1
        saved, self.wanted = self.wanted, []
        uses = []
        for one in members:
            for name in s.scope_of([one]):
                binding = env[name]
                binding.scheme = Scheme([], self.fresh())
                binding.group = uses
        for one in members:
            if isinstance(one, s.Function):
                for clause in one.clauses:
                    self.clause(clause, one.binding.scheme.type, env, self.reason(one, clause), f"an argument of `{one.name}`")
            else:
                self.pattern_binding(one, env)
        self.level -= 1
        found, self.wanted = self.wanted, saved
        general = []
        self.close(found, general)
        self.generalise(members, env, general, uses)

    def reason(self, one, clause):
        """Who wants the type of a clause of a function without a signature."""
        return None if clause is one.clauses[0] else f"the first equation of `{one.name}` in line {one.at[0]}"

    def pattern_binding(self, one, env):
        """Checks a pattern binding: its variables have the types of the pattern."""
        self.level -= 1
        inner = dict(env)
        type_ = self.fresh()
        self.pattern(one.pattern, type_, inner, {}, "the right side")
        for node in s.pattern_variables(one.pattern):
            unify(env[node.name].scheme.type, node.type)
        self.right(one.right, type_, env, f"the pattern in line {one.at[0]}")
        self.level += 1

    def generalise(self, members, env, general, uses):
        """Makes the types of a group general; those of pattern bindings, and constrained ones of variables, stay."""
        functions = [one for one in members if isinstance(one, s.Function)]
        if len(functions) < len(members) or any(one.arity == 0 for one in functions):
            for constraint in general:
                self.lower(constraint[1])
                self.wanted.append(constraint)
            general = []
        if len(functions) < len(members):
            variables = []
        else:
            variables = []
            for one in functions:
                self.rigidify(one.binding.scheme.type, variables)
        for class_, meta, at, words in general:
            target = pruned(meta)
            if isinstance(target, Rigid):
                target.classes.add(class_)
            else:
                self.complain(at, f"{words} wants a type in `{class_}` that nothing tells: give a type by `::`")
        for one in functions:
            one.binding.scheme.variables = variables
            one.scheme = one.binding.scheme
            one.binding.group = None
        for one in members:
            for name in s.scope_of([one]):
                env[name].group = None
        for node in uses:
            node.types = list(node.binding.scheme.variables)

    def lower(self, meta):
        """Keeps a meta from being made general."""
        meta.level = min(meta.level, self.level)

    def rigidify(self, type_, variables):
        """Makes the metas of this binding in a type rigid, with names a, b, .."""
        type_ = pruned(type_)
        if isinstance(type_, Meta):
            if type_.level > self.level:
                count = len(variables)
                type_.ref = Rigid(chr(97 + count) if count < 26 else f"t{count}")
                variables.append(type_.ref)
        elif isinstance(type_, TCon):
            for one in type_.arguments:
                self.rigidify(one, variables)

    def finish(self):
        """Refuses constraints on types that nothing tells."""
        for constraint in self.wanted:
            for class_, _, at, words in self.solved(constraint):
                self.complain(at, f"{words} wants a type in `{class_}` that nothing tells: give a type by `::`", once=False)
        self.wanted = []


@dataclass
class Problem:
    """A name that can't be used, with the reason; it stands in scopes where a binding does."""

    sentence: str


@dataclass
class Expansion:
    """A type synonym. The last `added` parameters are not written: its right side lacks these arguments."""

    name: str
    parameters: list
    type: object
    added: int = 0


def counted(number, what):
    """`1 field`, `2 fields`, `no field`."""
    return f"{number or 'no'} {what}" + ("s" if number > 1 else "")


def meant(name, names):
    """A question for the nearest name."""
    near = nearest(name, names)
    return f": is `{near}` meant?" if near else ""


def written(name):
    """A name as it stands in an import list."""
    return name if name[0].isalpha() or name[0] == "_" else f"({name})"


def described(node):
    """An expression in few words, with the line of what it names."""
    while isinstance(node, s.App):
        node = node.function
        inner = described(node)
        return inner + " with its arguments" if not inner.endswith("arguments") else inner
    if isinstance(node, s.Var):
        binding = node.binding
        if isinstance(binding, Binding) and not binding.known and binding.kind != "method":
            what = "bound" if binding.kind in ("variable", "pattern") else "defined"
            return f"`{node.name}` ({what} in line {binding.at[0]})"
        return f"`{node.name}`"
    if isinstance(node, s.Con):
        return f"`{node.name}`"
    if isinstance(node, s.Lit):
        return f"`{node.number}`"
    return "this expression"


KNOWN_TYPES = {}


# Data types


def declare_data(checker, datas, synonyms, known):
    """Puts data types and synonyms with their constructors into the scope."""
    scope, pairs = checker.scope, []
    for one in datas:
        data = Data(one.name, [Rigid(name) for name in one.parameters], one.at, known)
        declare_type(checker, one, data)
        pairs.append((one, data))
    expand_synonyms(checker, synonyms)
    for one, data in pairs:
        variables = {rigid.name: rigid for rigid in data.parameters}
        for number, constructor in enumerate(one.constructors):
            checker.complained = False
            fields = [checker.type_of(written_, variables) for written_ in constructor.fields]
            info = ConInfo(constructor.name, data, number, fields)
            data.constructors.append(info)
            before = scope.constructors.get(info.name)
            if before is not None and (before.data.known == known or isinstance(before, Problem)):
                checker.complain(constructor.at, f"the constructor `{info.name}` is declared twice: in line {before.data.at[0]}, too",
                                 once=False)
            elif before is not None:
                checker.complain(constructor.at, ambiguous(info.name, "Prelude" if info.name not in ("Zero", "Succ") else "Nat",
                                                           f"{before.data.name}(..)"), once=False)
            scope.constructors[info.name] = info
    find_instances(checker, pairs)


def declare_type(checker, one, what):
    """Puts a type's name into the scope, if it is free."""
    before = checker.scope.types.get(one.name)
    if before is not None:
        if getattr(before, "known", False):
            sentence = ambiguous(one.name, "Nat" if one.name == "Nat" else "Prelude", one.name + "(..)")
        else:
            sentence = f"the type `{one.name}` is declared twice"
        checker.complain(one.at, sentence, once=False)
    checker.scope.types[one.name] = what


def ambiguous(name, module, hidden):
    """What to say of a name that is defined and imported."""
    return f"`{name}` is also a name of {module}, so its uses are ambiguous: write `import {module} hiding ({hidden})`"


def expand_synonyms(checker, synonyms):
    """Puts synonyms into the scope, each behind those that it uses."""
    names = {one.name: number for number, one in enumerate(synonyms)}
    edges = [{names[name] for name in type_names(one.type) if name in names} for one in synonyms]
    for component in s.components(range(len(synonyms)), edges):
        for number in component:
            one = synonyms[number]
            checker.complained = False
            if len(component) > 1 or number in edges[number]:
                checker.complain(one.at, f"the type `{one.name}` stands for itself: declare it by `data`", once=False)
                checker.scope.types[one.name] = Expansion(one.name, [Rigid(name) for name in one.parameters], Meta(0))
                continue
            added = missing_arguments(checker.scope, one.type)
            variables = {name: Rigid(name) for name in [*one.parameters, *added]}
            whole = s.Type(one.type.head, one.type.arguments + [s.Type(name, [], one.at) for name in added], one.type.at)
            type_ = checker.type_of(whole, variables)
            declare_type(checker, one, Expansion(one.name, list(variables.values()), type_, len(added)))


def missing_arguments(scope, written_):
    """Names for the arguments that the right side of a synonym lacks, as in `type Result = Either Error`.

    A synonym on the right side is to have the arguments that it was declared with.
    """
    found = LIST if written_.head == "[]" else scope.types.get(written_.head)
    if isinstance(found, Expansion):
        most = found.added
    else:
        most = len(found.parameters) if isinstance(found, Data) else 0
    missing = len(found.parameters) - len(written_.arguments) if most else 0
    return [f"argument{at}" for at in range(missing)] if 0 < missing <= most else []


def type_names(written_):
    """The names in a written type."""
    names = {written_.head}
    for one in written_.arguments:
        names |= type_names(one)
    return names


def find_instances(checker, pairs):
    """Finds which parameters are to be in a class for a data type to be: from none on, until nothing is added."""
    for one, data in pairs:
        for class_, at in one.deriving:
            if class_ in data.deriving:
                checker.complain(at, f"`{class_}` stands twice behind `deriving`", once=False)
            data.deriving[class_] = at
            if class_ != "Show":
                data.needs[class_] = set()
    changed = True
    while changed:
        changed = False
        for _, data in pairs:
            for class_ in data.needs:
                found = set()
                for constructor in data.constructors:
                    for type_ in constructor.fields:
                        found |= needed(data, class_, type_)
                if not found <= data.needs[class_]:
                    data.needs[class_] |= found
                    changed = True
    for one, data in pairs:
        check_instances(checker, one, data)


def needed(data, class_, type_):
    """The parameters of a data type that are to be in a class for the type of a field to be."""
    type_ = pruned(type_)
    if isinstance(type_, Rigid):
        return {data.parameters.index(type_)} if type_ in data.parameters else set()
    found = set()
    if isinstance(type_, TCon) and type_.data is not ARROW:
        for number in type_.data.needs.get(class_, ()):
            found |= needed(data, class_, type_.arguments[number])
    return found


def check_instances(checker, one, data):
    """Refuses a `deriving` that a field does not allow, or that wants another."""
    for class_, at in one.deriving:
        checker.complained = False
        if class_ == "Ord" and "Eq" not in data.deriving:
            checker.complain(at, f"`Ord` is derived for `{data.name}` without `Eq`: write `deriving (Eq, Ord)`")
        for constructor in data.constructors:
            for type_ in constructor.fields:
                trouble = obstacle(class_, type_)
                if trouble is not None:
                    words = "functions can't be compared" if trouble.data is ARROW else f"`{shown(trouble)}` is not in `{class_}`"
                    if class_ == "Show":
                        words = "functions can't be shown" if trouble.data is ARROW else f"`{shown(trouble)}` is not in `Show`"
                    checker.complain(at, f"`{class_}` can't be derived for `{data.name}`: a field of `{constructor.name}` has "
                                     f"the type `{shown(type_)}`, and {words}")


def obstacle(class_, type_):
    """The part of a type for which there is no instance of a class, or None."""
    type_ = pruned(type_)
    if not isinstance(type_, TCon):
        return None
    if type_.data is ARROW:
        return type_
    if class_ == "Show":
        if not type_.data.known and "Show" not in type_.data.deriving:
            return type_
        return next((found for one in type_.arguments for found in [obstacle(class_, one)] if found), None)
    if class_ not in type_.data.needs:
        return type_
    for number in type_.data.needs[class_]:
        found = obstacle(class_, type_.arguments[number])
        if found is not None:
            return found
    return None


# The derived functions


def derive(data, class_):
    """The function `==` or `compare` of a data type, typed; it is made when it is wanted first."""
    if class_ in data.derived:
        return data.derived[class_]
    at = data.at if not data.known else (0, 0)
    clauses = equations_of_eq(data, at) if class_ == "Eq" else equations_of_ord(data, at)
    function = s.Function("==" if class_ == "Eq" else "compare", clauses, at)
    table = {}
    for number, rigid in enumerate(data.parameters):
        table[rigid] = Rigid(rigid.name, [class_] if number in data.needs[class_] else [])
    itself = TCon(data, tuple(table.values()))
    result = TCon(KNOWN_TYPES["Bool" if class_ == "Eq" else "Ordering"])
    function.scheme = Scheme(list(table.values()), arrows([itself, itself], result))
    function.binding = Binding("global", function.name, at, function.scheme, function, data.known)
    data.derived[class_] = function
    checker = Checker(known_scope(), known=True)
    checker.signed(function, {})
    checker.finish()
    assert not checker.messages, checker.messages
    return function


def fields_of(info, letter, at):
    """Variables for the fields of a constructor: patterns and expressions of their names."""
    names = [f"{letter}{number + 1}" if info.arity > 1 else letter for number in range(info.arity)]
    return s.PCon(info.name, [s.PVar(name, at) for name in names], at, info), [s.Var(name, at) for name in names]


def call(name, arguments, at):
    """A call of a known function."""
    result = s.Var(name, at)
    for argument in arguments:
        result = s.App(result, argument, at)
    return result


def equation(patterns, expression, at):
    """A clause."""
    return s.Clause(patterns, s.Right([([], expression)], [], at), at)


def equations_of_eq(data, at):
    """`==`: equal constructors with equal fields; else not."""
    clauses = []
    for info in data.constructors:
        left, xs = fields_of(info, "x", at)
        right, ys = fields_of(info, "y", at)
        pairs = [call("==", [x, y], at) for x, y in zip(xs, ys)]
        result = pairs.pop() if pairs else s.Con("True", at)
        while pairs:
            result = call("&&", [pairs.pop(), result], at)
        clauses.append(equation([left, right], result, at))
    if len(data.constructors) != 1:
        clauses.append(equation([s.PWild(at), s.PWild(at)], s.Con("False" if data.constructors else "True", at), at))
    return clauses


def equations_of_ord(data, at):
    """`compare`: by the numbers of the constructors, and then by the fields from the left."""
    clauses = []
    for info in data.constructors:
        left, xs = fields_of(info, "x", at)
        right, ys = fields_of(info, "y", at)
        pairs = [call("compare", [x, y], at) for x, y in zip(xs, ys)]
        result = pairs.pop() if pairs else s.Con("EQ", at)
        while pairs:
            branches = [equation([s.PCon("LT", [], at)], s.Con("LT", at), at), equation([s.PCon("EQ", [], at)], result, at),
                        equation([s.PCon("GT", [], at)], s.Con("GT", at), at)]
            result = s.Case(pairs.pop(), branches, at)
        clauses.append(equation([left, right], result, at))
        if info is not data.constructors[-1]:
            any_field = [s.PCon(info.name, [s.PWild(at) for _ in info.fields], at, info), s.PWild(at)]
            clauses.append(equation(any_field, s.Con("LT", at), at))
            clauses.append(equation(any_field[::-1], s.Con("GT", at), at))
    if not data.constructors:
        clauses.append(equation([s.PWild(at), s.PWild(at)], s.Con("EQ", at), at))
    return clauses


# The known scope


_KNOWN = []


def known_scope():
    """All that the Prelude and Nat have, typed; made once."""
    if _KNOWN:
        return _KNOWN[0]
    from fun.parse import parse_module

    scope = Scope()
    checker = Checker(scope, known=True)
    module = parse_module(prelude.DATA + prelude.SOURCE + prelude.NAT_SOURCE)
    declare_data(checker, module.datas, [], True)
    KNOWN_TYPES.update(scope.types)
    _KNOWN.append(scope)
    for name, (class_, _, type_) in prelude.METHODS.items():
        variable = Rigid("a", [class_])
        result = {"Bool": TCon(scope.types["Bool"]), "Ordering": TCon(scope.types["Ordering"]), "a": variable}
        scheme = Scheme([variable], arrows([variable, variable], result[type_.rsplit(" ", 1)[-1]]))
        scope.values[name] = Binding("method", name, (0, 0), scheme, None, True)
    for one in module.declarations:
        checker.declare(one, scope.values, "global")
    for one in module.declarations:
        one.at = (0, 0)
        one.recursive = one.name in s.free_names(one)
        checker.signed(one, {})
    checker.finish()
    assert not checker.messages, checker.messages
    return scope


# Modules


@dataclass
class Typed:
    """A module with its types: its functions in order, and which of them are exported."""

    name: str
    functions: list
    exports: list
    scope: Scope
    natural: bool  # whether it imports Nat
    fixities: dict = field(default_factory=dict)


def imported(module, checker):
    """Brings what the imports give into the scope; returns whether Nat is among them."""
    known, scope = known_scope(), checker.scope
    natural = any(one.module == "Nat" for one in module.imports)
    own_prelude = [one for one in module.imports if one.module == "Prelude"]
    for one in own_prelude or [s.Import("Prelude", False, None, (0, 0))]:
        bring(one, known, checker, lambda name: name not in prelude.NAT_NAMES and name not in ("Nat", "Zero", "Succ"))
    for one in module.imports:
        if one.module == "Nat":
            bring(one, known, checker, lambda name: name in prelude.NAT_NAMES or name in ("Nat", "Zero", "Succ"))
    for name in prelude.NAT_ARITHMETIC:
        if name in scope.values and not natural:
            scope.values[name] = Problem(f"`{name}` is for numbers of `Nat`: write `import Nat`")
    ambiguous_names(module, checker, natural)
    return natural


def bring(one, known, checker, belongs):
    """Brings the names of one import."""
    listed = None if one.names is None else {name for name, _ in one.names}
    scope = checker.scope

    def seen(name, whole=None):
        named = listed is not None and (name in listed or whole is not None and whole + "(..)" in listed)
        return belongs(name) and (listed is None or named != one.hides)

    for name, data in known.types.items():
        if seen(name):
            scope.types[name] = data
    for name, info in known.constructors.items():
        if seen(name, info.data.name):
            scope.constructors[name] = info
    for name, binding in known.values.items():
        if not name[-1] == "'" and seen(name):
            scope.values[name] = binding
    if one.module == "Nat" and listed is not None and not one.hides:
        offered = set(prelude.NAT_NAMES) | {"Nat", "Zero", "Succ", "Nat(..)"}
        for name, at in one.names:
            if name not in offered:
                checker.complain(at, f"`{name}` is no name of Nat" + meant(name, offered), once=False)
    if one.module == "Prelude" and listed is not None:
        for name, at in one.names:
            bare = name[:-4] if name.endswith("(..)") else name
            if bare not in prelude.PRELUDE_NAMES | prelude.PRELUDE_TYPES | prelude.PRELUDE_CONSTRUCTORS and not one.hides:
                checker.complain(at, f"`{bare}` is no name of the Prelude" + meant(bare, prelude.PRELUDE_NAMES), once=False)


def prelude_names(module):
    """The names of the whole Prelude that the module sees."""
    seen = set()
    own = [one for one in module.imports if one.module == "Prelude"]
    for one in own or [s.Import("Prelude", False, None, (0, 0))]:
        listed = None if one.names is None else {name for name, _ in one.names}
        for name in prelude.PRELUDE_NAMES:
            if listed is None or (name in listed) != one.hides:
                seen.add(name)
    return seen


def ambiguous_names(module, checker, natural):
    """Puts problems where Nat and the Prelude both give a name, and where a number of the Prelude is meant."""
    seen = prelude_names(module)
    for name in prelude.NAT_NAMES:
        if name in checker.scope.values and name in seen:
            checker.scope.values[name] = Problem(f"`{name}` is a name of Nat and of the Prelude: write `import Prelude hiding ({name})`")
        elif name not in checker.scope.values and name in seen:
            sentence = f"`{name}` of the Prelude counts by `Int`: write `import Nat`, and `import Prelude hiding ({name})`"
            checker.unknown[name] = sentence if not natural else sentence.replace("write `import Nat`, and", "import it from Nat, and")
        elif name not in checker.scope.values and not natural:
            checker.unknown[name] = f"`{name}` is not in scope: define it, or write `import Nat`"
    checker.visible = seen | (set(prelude.NAT_NAMES) & set(checker.scope.values))


def check_module(module):
    """The module with its types, or `Refused` with all messages."""
    checker = Checker(Scope())
    natural = imported(module, checker)
    declare_data(checker, module.datas, module.synonyms, False)
    functions = []
    for one in module.declarations:
        if isinstance(one, s.PatternBinding):
            checker.complain(one.at, "a pattern binding at the top is no part of the language: write a function for each variable",
                             once=False)
        else:
            check_name(checker, one, natural)
            functions.append(one)
    checker.complained = False
    values = checker.scope.values
    for one in functions:
        checker.complained = False
        checker.declare(one, values, "global")
    names = {one.name: number for number, one in enumerate(functions)}
    edges = [{names[name] for name in s.free_names(one) if name in names} for one in functions]
    for component in s.components(range(len(functions)), edges):
        for number in component:
            functions[number].recursive = number in edges[number] or len(component) > 1
    checker.check_groups(functions, edges, values)
    checker.finish()
    exports = exported(module, checker, functions)
    if checker.messages:
        raise Refused(checker.messages)
    return Typed(module.name, functions, exports, checker.scope, natural, module.fixities)


def check_name(checker, one, natural):
    """Refuses a name that the Prelude has, too."""
    if one.name in checker.visible:
        module = "Nat" if natural and one.name in prelude.NAT_NAMES and one.name in checker.scope.values else "Prelude"
        checker.complain(one.at, ambiguous(one.name, module, written(one.name)), once=False)


def exported(module, checker, functions):
    """The functions that the module exports."""
    if module.exports is None:
        return list(functions)
    names, found = {one.name: one for one in functions}, []
    for name, at in module.exports:
        if name == f"module {module.name}":
            found.extend(one for one in functions if one not in found)
        elif name.startswith("module "):
            checker.complain(at, "only the module itself can be exported as a whole in the language", once=False)
        elif name[0].isupper():
            if name not in checker.scope.types:
                checker.complain(at, f"the type `{name}` is exported and not in scope" + meant(name, checker.scope.types), once=False)
        elif name in names:
            if names[name] not in found:
                found.append(names[name])
        elif name not in checker.scope.values:
            checker.complain(at, f"`{name}` is exported and not in scope" + meant(name, names), once=False)
    return found
