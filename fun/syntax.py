"""The syntax tree of a module. `at` is the place of a node, (line, column); `types` writes what it finds into nodes."""

from dataclasses import dataclass, field

Place = tuple  # of a line and a column


@dataclass
class Type:
    """A type as it is written: a head with arguments. The head is a name, a variable, "->", "[]", "()", "(,)", .."""

    head: str
    arguments: list
    at: Place

    @property
    def is_variable(self):
        """Whether it is a type variable."""
        return self.head[0].islower() or self.head[0] == "_"


@dataclass
class Qualified:
    """A type with its context, a list of pairs of a class and a type."""

    context: list
    type: Type
    at: Place


# Expressions


@dataclass
class Var:
    """A name that stands for a value. `binding` and `types` say which and at which instance, once it is typed."""

    name: str
    at: Place
    binding: object = None
    types: list = None


@dataclass
class Con:
    """A constructor; `info` says which, and `types` are the arguments of its data type, once it is typed."""

    name: str
    at: Place
    info: object = None
    types: list = None


@dataclass
class Lit:
    """A numeral."""

    number: int
    at: Place


@dataclass
class App:
    """A function with one argument."""

    function: object
    argument: object
    at: Place


@dataclass
class Lam:
    """A lambda over patterns, as a clause."""

    clause: object
    at: Place


@dataclass
class Let:
    """Declarations around an expression; in the order in which they use one another, once they are typed."""

    declarations: list
    body: object
    at: Place


@dataclass
class If:
    """A condition with two branches."""

    condition: object
    yes: object
    no: object
    at: Place


@dataclass
class Case:
    """A choice by patterns; each alternative is a clause with one pattern."""

    scrutinee: object
    clauses: list
    at: Place


@dataclass
class Annotated:
    """An expression with its type."""

    expression: object
    type: Qualified
    at: Place


# Patterns


@dataclass
class PVar:
    """A variable."""

    name: str
    at: Place
    type: object = None


@dataclass
class PWild:
    """The pattern `_`; each pattern's `type` is there once it is typed."""

    at: Place
    type: object = None


@dataclass
class PCon:
    """A constructor with patterns; `info` and `types` as for `Con`. For `C {}` its fields get a `_` each."""

    name: str
    arguments: list
    at: Place
    info: object = None
    types: list = None
    type: object = None
    any_fields: bool = False


@dataclass
class PLit:
    """A numeral as a pattern."""

    number: int
    at: Place
    type: object = None


@dataclass
class PAs:
    """A name for what a pattern matches."""

    name: str
    pattern: object
    at: Place
    type: object = None


# Guards and declarations


@dataclass
class Guard:
    """A guard: a condition, where `pattern` is None; else a pattern guard `pattern <- expression`."""

    pattern: object
    expression: object
    at: Place


@dataclass
class LetGuard:
    """Declarations among guards."""

    declarations: list
    at: Place


@dataclass
class Right:
    """A right side: alternatives, each a list of guards and an expression, and the declarations behind `where`."""

    alternatives: list
    where: list
    at: Place


@dataclass
class Clause:
    """Patterns and a right side: an equation, an alternative of a `case`, or a lambda."""

    patterns: list
    right: Right
    at: Place


@dataclass
class Function:
    """A name with its clauses; a variable has one without patterns.

    Once it is typed, `scheme` is its type, and `recursive` says whether it calls itself, maybe through others.
    """

    name: str
    clauses: list
    at: Place
    signature: Qualified = None
    scheme: object = None
    recursive: bool = False
    free: set = None  # the names that it uses, once they are wanted

    @property
    def arity(self):
        """How many patterns each clause has."""
        return len(self.clauses[0].patterns)


@dataclass
class PatternBinding:
    """A pattern with a right side; binds the pattern's variables."""

    pattern: object
    right: Right
    at: Place


@dataclass
class Signature:
    """Names with their type."""

    names: list  # of pairs of a name and a place
    type: Qualified
    at: Place


@dataclass
class Constructor:
    """A constructor with the types of its fields."""

    name: str
    fields: list
    at: Place


@dataclass
class Data:
    """A data type."""

    name: str
    parameters: list
    constructors: list
    deriving: list  # of pairs of a class and a place
    at: Place


@dataclass
class Synonym:
    """A type synonym."""

    name: str
    parameters: list
    type: Type
    at: Place


@dataclass
class Import:
    """An import: the module, `hides`, and the names in its list, or None where it has no list."""

    module: str
    hides: bool
    names: list
    at: Place


@dataclass
class Module:
    """A module. `exports` is None where all is exported, else a list of pairs of a name and a place."""

    name: str
    exports: list
    imports: list
    datas: list = field(default_factory=list)
    synonyms: list = field(default_factory=list)
    declarations: list = field(default_factory=list)
    fixities: dict = field(default_factory=dict)


def pattern_variables(pattern):
    """The nodes of a pattern that bind a name, from the left."""
    if isinstance(pattern, PVar):
        return [pattern]
    if isinstance(pattern, PAs):
        return [pattern] + pattern_variables(pattern.pattern)
    if isinstance(pattern, PCon):
        return [node for argument in pattern.arguments for node in pattern_variables(argument)]
    return []


def tuple_name(count):
    """The constructor, and type, of tuples with so many parts."""
    return "(" + "," * (count - 1) + ")"


def scope_of(declarations):
    """The names that declarations bind, each with its place."""
    names = {}
    for one in declarations:
        if isinstance(one, Function):
            names[one.name] = one.at
        else:
            names.update((node.name, node.at) for node in pattern_variables(one.pattern))
    return names


def free_names(node):
    """The names of variables that a node uses and does not bind."""
    find = FREE.get(type(node))
    return find(node) if find else set()


def free_of_application(node):
    """Those of a function with arguments."""
    names = free_names(node.argument)
    while isinstance(node.function, App):
        node = node.function
        names |= free_names(node.argument)
    return names | free_names(node.function)


def free_of_let(node):
    """Those of an expression with declarations."""
    return (free_in(node.declarations) | free_names(node.body)) - set(scope_of(node.declarations))


def free_of_clause(node):
    """Those of a right side without the variables of the patterns."""
    bound = {one.name for pattern in node.patterns for one in pattern_variables(pattern)}
    return free_names(node.right) - bound


def free_of_right(node):
    """Those of a right side with its guards and `where`."""
    names = free_in(node.where)
    for guards, expression in node.alternatives:
        names |= free_guarded(guards, free_names(expression))
    return names - set(scope_of(node.where))


def free_of_function(node):
    """Those of a function's clauses, found once: nothing changes them."""
    if node.free is None:
        node.free = free_in(node.clauses)
    return set(node.free)


FREE = {
    Var: lambda node: {node.name},
    App: free_of_application,
    Lam: lambda node: free_names(node.clause),
    Let: free_of_let,
    If: lambda node: free_names(node.condition) | free_names(node.yes) | free_names(node.no),
    Case: lambda node: free_names(node.scrutinee) | free_in(node.clauses),
    Annotated: lambda node: free_names(node.expression),
    Clause: free_of_clause,
    Right: free_of_right,
    Function: free_of_function,
    PatternBinding: lambda node: free_names(node.right),
}


def free_in(nodes):
    """The free names of several nodes together."""
    names = set()
    for node in nodes:
        names |= free_names(node)
    return names


def free_guarded(guards, names):
    """The free names of guards around an expression with these."""
    for guard in reversed(guards):
        if isinstance(guard, LetGuard):
            names = (names | free_in(guard.declarations)) - set(scope_of(guard.declarations))
        else:
            if guard.pattern is not None:
                names = names - {node.name for node in pattern_variables(guard.pattern)}
            names = names | free_names(guard.expression)
    return names


def components(nodes, edges):
    """The strongly connected components of a graph, each behind those that it leads to (Tarjan 1972)."""
    numbers, lows, stack, on_stack, found = {}, {}, [], set(), []
    for root in nodes:
        if root in numbers:
            continue
        work = [(root, iter(edges[root]))]
        numbers[root] = lows[root] = len(numbers)
        stack.append(root)
        on_stack.add(root)
        while work:
            node, rest = work[-1]
            for other in rest:
                if other not in numbers:
                    numbers[other] = lows[other] = len(numbers)
                    stack.append(other)
                    on_stack.add(other)
                    work.append((other, iter(edges[other])))
                    break
                if other in on_stack:
                    lows[node] = min(lows[node], numbers[other])
            else:
                work.pop()
                if work:
                    lows[work[-1][0]] = min(lows[work[-1][0]], lows[node])
                if lows[node] == numbers[node]:
                    component = []
                    while not component or component[-1] != node:
                        component.append(stack.pop())
                        on_stack.discard(component[-1])
                    found.append(component[::-1])
    return found
