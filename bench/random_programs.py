"""Random modules for `wanda-fun`: well-typed ones, and ones with overlapping patterns whose values are known.

`well_typed(seed)` is a module in which all that the language has may stand: data types, polymorphic functions with `Eq`
and `Ord`, patterns, guards, `where`, `let`, `case`, `if`, lambdas, sections and partial applications. It is made along
its types, so that GHC takes it. What it computes is not known, and it may run for ever.

`overlapping(seed)` is a module of functions that do not call themselves, with patterns that overlap, guards, pattern
guards and cases, and expressions with the values that come out where equations are read from the top.
"""

import random
import re
from dataclasses import dataclass

# types: a name and its arguments; a name with a small letter is a variable, "->" is the type of functions

NAT, BOOL = ("Nat",), ("Bool",)


def read_type(text):
    """A type as Haskell writes it."""
    tokens = re.findall(r"->|[A-Za-z]\w*|[\[\](),]", text)

    def arrow():
        left = applied()
        if tokens and tokens[0] == "->":
            tokens.pop(0)
            return ("->", left, arrow())
        return left

    def applied():
        head = atom()
        while tokens and (tokens[0] in "[(" or tokens[0][0].isalpha()):
            head = (*head, atom())
        return head

    def atom():
        token = tokens.pop(0)
        if token == "[":
            inside = ("[]", arrow())
        elif token == "(":
            parts = [arrow()]
            while tokens[0] == ",":
                tokens.pop(0)
                parts.append(arrow())
            inside = parts[0] if len(parts) == 1 else ("(,)", *parts)
        else:
            return (token,)
        tokens.pop(0)
        return inside

    return arrow()


def type_text(kind, inside=False):
    """A type as Haskell writes it, in parentheses where it stands in another one."""
    head, parts = kind[0], kind[1:]
    if head == "[]":
        return f"[{type_text(parts[0])}]"
    if head == "(,)":
        return "(" + ", ".join(map(type_text, parts)) + ")"
    if not parts:
        return head
    if head == "->":
        text = f"{type_text(parts[0], parts[0][0] == '->')} -> {type_text(parts[1])}"
    else:
        text = " ".join([head, *(type_text(it, True) for it in parts)])
    return f"({text})" if inside else text


def put(kind, found):
    """The type with types for its variables."""
    if kind[0] in found and len(kind) == 1:
        return found[kind[0]]
    return (kind[0], *(put(it, found) for it in kind[1:]))


def is_variable(kind):
    return kind[0][0].islower()


def variables(kind):
    if is_variable(kind):
        return {kind[0]}
    return set().union(*map(variables, kind[1:])) if kind[1:] else set()


def fit(pattern, kind, found):
    """Whether types for the variables of `pattern` make it `kind`; they are added to `found`."""
    if is_variable(pattern):
        return found.setdefault(pattern[0], kind) == kind
    same = pattern[0] == kind[0] and len(pattern) == len(kind)
    return same and all(fit(it, other, found) for it, other in zip(pattern[1:], kind[1:]))


def arguments(kind):
    """The arguments of a functional type, and its result."""
    found = []
    while kind[0] == "->":
        found.append(kind[1])
        kind = kind[2]
    return found, kind


@dataclass(frozen=True)
class Known:
    """A function with its type; of the variables in `compared` values are compared."""

    name: str
    kind: tuple
    compared: tuple = ()


PRELUDE = """
map (a -> b) -> [a] -> [b]
filter (a -> Bool) -> [a] -> [a]
foldr (a -> b -> b) -> b -> [a] -> b
foldl (b -> a -> b) -> b -> [a] -> b
reverse [a] -> [a]
concat [[a]] -> [a]
concatMap (a -> [b]) -> [a] -> [b]
zip [a] -> [b] -> [(a, b)]
zipWith (a -> b -> c) -> [a] -> [b] -> [c]
takeWhile (a -> Bool) -> [a] -> [a]
dropWhile (a -> Bool) -> [a] -> [a]
all (a -> Bool) -> [a] -> Bool
any (a -> Bool) -> [a] -> Bool
and [Bool] -> Bool
or [Bool] -> Bool
not Bool -> Bool
fst (a, b) -> a
snd (a, b) -> b
id a -> a
const a -> b -> a
flip (a -> b -> c) -> b -> a -> c
curry ((a, b) -> c) -> a -> b -> c
uncurry (a -> b -> c) -> (a, b) -> c
maybe b -> (a -> b) -> Maybe a -> b
either (a -> c) -> (b -> c) -> Either a b -> c
null [a] -> Bool
length [a] -> Nat
take Nat -> [a] -> [a]
drop Nat -> [a] -> [a]
replicate Nat -> a -> [a]
"""
COMPARING = """
elem a -> [a] -> Bool
notElem a -> [a] -> Bool
max a -> a -> a
min a -> a -> a
compare a -> a -> Ordering
"""
OPERATORS = """
+ Nat -> Nat -> Nat
* Nat -> Nat -> Nat
- Nat -> Nat -> Nat
&& Bool -> Bool -> Bool
|| Bool -> Bool -> Bool
++ [a] -> [a] -> [a]
. (b -> c) -> (a -> b) -> a -> c
$ (a -> b) -> a -> b
"""
EFFORT = 200  # so many expressions are tried for an equation
TRIES = 100  # so often an equation is tried
COMPARISONS = "== /= < <= > >=".split()


def known(text, compared=()):
    return [Known(line.split(" ", 1)[0], read_type(line.split(" ", 1)[1]), compared) for line in text.split("\n") if line]


CONSTRUCTORS = {
    "Nat": [("Zero", []), ("Succ", [NAT])],
    "Bool": [("False", []), ("True", [])],
    "Ordering": [("LT", []), ("EQ", []), ("GT", [])],
    "[]": [("[]", []), (":", [("a",), ("[]", ("a",))])],
    "Maybe": [("Nothing", []), ("Just", [("a",)])],
    "Either": [("Left", [("a",)]), ("Right", [("b",)])],
}
PARAMETERS = {"[]": "a", "Maybe": "a", "Either": "ab"}


def under(lines, indent):
    """Lines that stand two columns further to the right, each behind a line's end."""
    return "".join("\n" + " " * (indent + 2) + it for it in lines)


class Fails(Exception):
    """There is no expression of a type here."""


class TooLarge(Exception):
    """An equation has become too large, or too much was tried for it."""


class Maker:
    """Makes a module along its types."""

    def __init__(self, seed):
        self.random = random.Random(seed)
        self.count = 0
        self.constructors, self.parameters, self.data = dict(CONSTRUCTORS), dict(PARAMETERS), []
        self.functions = known(PRELUDE) + known(COMPARING, ("a",))
        self.operators = known(OPERATORS) + [Known(it, read_type("a -> a -> Bool"), ("a",)) for it in COMPARISONS]
        self.own = []  # the functions of the module; at ever larger types of their variables they may not call one another
        self.compared = ()  # the type variables here that have an order
        self.left = 0  # how many expressions an equation may try yet

    def new(self, letter):
        self.count += 1
        return f"{letter}{self.count}"

    def chance(self, part):
        return self.random.random() < part

    # types

    def some_type(self, depth, free=()):
        """A type of values; `free` are the variables that may stand in it."""
        choice = self.random.random()
        if free and choice < 0.35:
            return (self.random.choice(free),)
        if depth == 0 or choice < 0.55:
            return self.random.choice([NAT, NAT, BOOL, *((it,) for it in self.data if not self.parameters.get(it))])
        head = self.random.choice(["[]", "[]", "Maybe", "(,)", "Either", *self.data])
        size = 2 if head == "(,)" else len(self.parameters.get(head, ""))
        return (head, *(self.some_type(depth - 1, free) for _ in range(size)))

    def argument_type(self, free):
        if self.chance(0.2):
            return ("->", self.some_type(1, free), self.some_type(1, free))
        return self.some_type(2, free)

    def make_data(self):
        name, parameter = self.new("T"), self.random.choice(["", "a"])
        this = (name, *((it,) for it in parameter))
        found = [(self.new("C"), [self.some_type(1, tuple(parameter)) for _ in range(self.random.randrange(3))])]
        for _ in range(self.random.randrange(1, 4)):
            parts = [self.random.choice([this, self.some_type(1, tuple(parameter))]) for _ in range(self.random.randrange(3))]
            found.append((self.new("C"), parts))
        self.data.append(name)
        self.constructors[name], self.parameters[name] = found, parameter
        texts = [" ".join([it, *(type_text(part, True) for part in parts)]) for it, parts in found]
        return f"data {type_text(this)} = {' | '.join(texts)}\n  deriving (Eq, Ord, Show)\n"

    def has_order(self, kind):
        """Whether values of a type can be compared here."""
        return kind[0] != "->" and (not is_variable(kind) or kind[0] in self.compared) and all(map(self.has_order, kind[1:]))

    def choices(self, kind):
        """The constructors of a type, with the types of their parts."""
        if kind[0] == "(,)":
            return [("(,)", list(kind[1:]))]
        found = dict(zip(self.parameters.get(kind[0], ""), kind[1:]))
        return [(name, [put(it, found) for it in parts]) for name, parts in self.constructors[kind[0]]]

    # patterns

    def pattern(self, kind, depth, names):
        """A pattern of a type; the variables that it binds are added to `names`."""
        choice = self.random.random()
        if choice < 0.15:
            return "_"
        if depth == 0 or choice < 0.45 or is_variable(kind) or kind[0] == "->":
            name = self.new("x")
            names[name] = kind
            return name
        if kind == NAT and choice < 0.6:
            return str(self.random.randrange(3))
        if choice > 0.9:
            name = self.new("x")
            names[name] = kind
            return f"{name}@{self.constructed(kind, depth, names)}"
        return self.constructed(kind, depth, names)

    def constructed(self, kind, depth, names):
        name, parts = self.random.choice(self.choices(kind))
        return self.joined(name, [self.pattern(it, depth - 1, names) for it in parts])

    @staticmethod
    def joined(name, parts):
        """A constructor with its parts."""
        if name == "(,)":
            return "(" + ", ".join(parts) + ")"
        if name == ":":
            return f"({parts[0]} : {parts[1]})"
        return f"({' '.join([name, *parts])})" if parts else name

    # expressions

    def expression(self, kind, names, depth, indent):
        """An expression of a type over these variables, each compound one in parentheses."""
        here = [it for it, other in names.items() if other == kind]
        self.left -= 1
        if self.left < 0:
            raise TooLarge
        if not variables(kind) <= set().union(*map(variables, names.values())):
            raise Fails
        if here and (depth <= 0 or self.chance(0.35)):
            return self.random.choice(here)
        ways = [self.built, self.built, self.called, self.called, self.applied, self.operated, self.chosen, self.cased, self.bound]
        self.random.shuffle(ways)
        for way in ([self.built] if depth <= 0 else [*ways[:4], self.built]):
            try:
                return way(kind, names, depth - 1, indent)
            except Fails:
                pass
        if here:
            return self.random.choice(here)
        raise Fails

    def built(self, kind, names, depth, indent):
        """A constructor, a literal or an abstraction."""
        if is_variable(kind):
            raise Fails
        if kind[0] == "->":
            inner = dict(names)
            binder = self.pattern(kind[1], 1, inner) if kind[1][0] == "(,)" else self.new("x")
            inner.update({} if kind[1][0] == "(,)" else {binder: kind[1]})
            return f"(\\{binder} -> {self.expression(kind[2], inner, depth, indent)})"
        if kind == NAT and self.chance(0.7):
            return str(self.random.randrange(4))
        choices = self.choices(kind)
        name, parts = choices[0] if depth <= 0 else self.random.choice(choices)
        if depth < -4 and parts:
            raise Fails
        return self.joined(name, [self.expression(it, names, depth, indent) for it in parts])

    def filled(self, function, found):
        """Types for the variables of a function that its result leaves open; fails where they can't be compared."""
        for variable in sorted(variables(function.kind) - found.keys()):
            found[variable] = self.some_type(1)
        if not all(self.has_order(found[it]) for it in function.compared):
            raise Fails
        return found

    def argument(self, function, kind, found, names, depth, indent):
        """An argument of a function. Where values of its type are compared, nothing else may say what that is.

        A name has a type with variables from the patterns of the equation alone; one that is bound to `[]` does not tell.
        """
        text, here = self.expression(put(kind, found), names, depth, indent), put(kind, found)
        if not variables(kind) & set(function.compared) or variables(here) and text in names:
            return text
        if variables(here):
            raise Fails
        return f"({text} :: {type_text(here)})"

    def called(self, kind, names, depth, indent):
        """A call of a known function, perhaps with less than all its arguments."""
        for function in self.random.sample(self.functions, 12):
            left = function.kind
            taken = []
            while True:
                found = {}
                if taken and fit(left, kind, found):
                    found = self.filled(function, found)
                    if function in self.own and not all(is_variable(it) or not variables(it) for it in found.values()):
                        raise Fails
                    parts = [self.argument(function, it, found, names, depth, indent) for it in taken]
                    return f"({' '.join([function.name, *parts])})"
                if left[0] != "->":
                    break
                taken.append(left[1])
                left = left[2]
        raise Fails

    def applied(self, kind, names, depth, indent):
        """A variable of a functional type with its argument."""
        here = [it for it, other in names.items() if other[0] == "->" and other[2] == kind]
        if not here:
            raise Fails
        name = self.random.choice(here)
        return f"({name} {self.expression(names[name][1], names, depth, indent)})"

    def operated(self, kind, names, depth, indent):
        """An operator with both sides, or a section."""
        for operator in self.random.sample(self.operators, len(self.operators)):
            (left, right), found = (operator.kind[1], operator.kind[2][1]), {}
            if fit(operator.kind[2][2], kind, found):
                found = self.filled(operator, found)
                sides = [self.argument(operator, it, found, names, depth, indent) for it in (left, right)]
                return f"({sides[0]} {operator.name} {sides[1]})"
            found = {}
            if kind[0] == "->" and operator.name != "-" and fit(operator.kind[2], kind, found):
                found = self.filled(operator, found)
                return f"({self.argument(operator, left, found, names, depth, indent)} {operator.name})"
        raise Fails

    def chosen(self, kind, names, depth, indent):
        parts = [self.expression(it, names, depth, indent) for it in (BOOL, kind, kind)]
        return "(if {} then {} else {})".format(*parts)

    def cased(self, kind, names, depth, indent):
        subject = self.some_type(1)
        lines = [f"(case {self.expression(subject, names, depth, indent)} of"]
        for _ in range(self.random.randrange(1, 4)):
            lines.append(" " * (indent + 2) + self.branch(subject, kind, names, depth, indent + 2, "->"))
        return "\n".join(lines) + ")"

    def branch(self, subject, kind, names, depth, indent, sign):
        inner = dict(names)
        pattern = self.pattern(subject, 2, inner)
        return f"{pattern} {self.sides(kind, inner, depth, indent, sign)}"

    def sides(self, kind, names, depth, indent, sign):
        """What stands behind a pattern: an expression, or guards with one each."""
        if self.chance(0.7):
            return f"{sign} {self.expression(kind, names, depth, indent)}"
        lines = []
        for _ in range(self.random.randrange(1, 3)):
            guard, inner = self.guard(names, depth, indent + 2)
            lines.append(f"| {guard} {sign} {self.expression(kind, inner, depth, indent + 2)}")
        lines.append(f"| otherwise {sign} {self.expression(kind, names, depth, indent + 2)}")
        return under(lines, indent)

    def guard(self, names, depth, indent):
        """A guard, and the variables behind it."""
        if self.chance(0.6):
            return self.expression(BOOL, names, min(depth, 1), indent), names
        subject, inner = self.some_type(1), dict(names)
        pattern = self.pattern(subject, 1, inner)
        return f"{pattern} <- {self.expression(subject, names, min(depth, 1), indent)}", inner

    def bound(self, kind, names, depth, indent):
        """A binding by `let`: of a value, of the parts of a pair, or of a local function."""
        lines, inner = self.bindings(names, depth, indent + 2)
        return f"(let{under(lines, indent)}\n{' ' * (indent + 1)}in {self.expression(kind, inner, depth, indent)})"

    def bindings(self, names, depth, indent):
        lines, inner = [], dict(names)
        for _ in range(self.random.randrange(1, 3)):
            line, new = self.binding(inner, depth, indent)
            lines.append(line)
            inner.update(new)
        return lines, inner

    def binding(self, names, depth, indent):
        choice, kind = self.random.random(), self.some_type(1)
        if choice < 0.5:
            name = self.new("v")
            return f"{name} = {self.expression(kind, names, depth, indent)}", {name: kind}
        if choice < 0.7:
            new, other = {}, self.some_type(1)
            left = [self.new("v"), self.new("v")]
            new = dict(zip(left, (kind, other)))
            return f"({', '.join(left)}) = {self.expression(('(,)', kind, other), names, depth, indent)}", new
        name, argument = self.new("g"), self.some_type(1)
        inner = dict(names)
        pattern = self.pattern(argument, 1, inner)
        return f"{name} {pattern} = {self.expression(kind, inner, depth, indent)}", {name: ("->", argument, kind)}

    # functions

    def signature(self):
        free = self.random.choice([(), (), ("a",), ("a", "b")])
        parts = [self.argument_type(free) for _ in range(self.random.randrange(1, 4))]
        named = set().union(*map(variables, parts))
        result = self.some_type(2, tuple(sorted(named)))
        compared = tuple(sorted(it for it in named if self.chance(0.5)))
        kind = result
        for part in reversed(parts):
            kind = ("->", part, kind)
        return Known(self.new("f"), kind, compared)

    def equation(self, function):
        """The lines of an equation. Where none is found, as often for `(a -> b) -> a`, the function calls itself as it is."""
        parts, result = arguments(function.kind)
        for _ in range(TRIES):
            self.left, names = EFFORT, {}
            try:
                patterns = [self.pattern(it, 2, names) for it in parts]
                where, inner = self.bindings(names, 1, 4) if self.chance(0.3) else ([], names)
                lines = [" ".join([function.name, *patterns]) + " " + self.sides(result, inner, 3, 0, "=")]
                return lines + (["  where", *(f"    {it}" for it in where)] if where else [])
            except (Fails, TooLarge):
                pass
        call = " ".join([function.name, *(self.new("x") for _ in parts)])
        return [f"{call} = {call}"]

    def definition(self, function):
        """A signature and its equations."""
        self.compared = function.compared
        context = ", ".join(f"Ord {it}" for it in function.compared)
        lines = [f"{function.name} :: {f'({context}) => ' if context else ''}{type_text(function.kind)}"]
        for _ in range(self.random.randrange(1, 4)):
            lines += self.equation(function)
        return "\n".join(lines) + "\n"


def well_typed(seed):
    """A module that is well typed."""
    maker = Maker(seed)
    head = "module M where\n\nimport Prelude hiding (length, take, drop, replicate)\nimport Nat\n"
    texts = [head, *(maker.make_data() for _ in range(maker.random.randrange(1, 4)))]
    maker.own = [maker.signature() for _ in range(maker.random.randrange(2, 7))]
    maker.functions += maker.own
    return "\n".join([*texts, *(maker.definition(it) for it in maker.own)])


# patterns that overlap, and what comes out where equations are read from the top

OVERLAP_DATA = """data P = P0 | P1 | P2
  deriving (Eq, Ord, Show)

data Q = Q0 | Q1 P | Q2 P Q
  deriving (Eq, Ord, Show)
"""
SHAPES = {
    "P": [("P0", ()), ("P1", ()), ("P2", ())],
    "Q": [("Q0", ()), ("Q1", ("P",)), ("Q2", ("P", "Q"))],
    "Bool": [("False", ()), ("True", ())],
    "[P]": [("[]", ()), (":", ("P", "[P]"))],
    "Maybe Q": [("Nothing", ()), ("Just", ("Q",))],
    "Nat": [("Zero", ()), ("Succ", ("Nat",))],
    "(P, Q)": [("(,)", ("P", "Q"))],
}
FEW = 30  # so many calls of the last function are tried


class Uncovered(Exception):
    """No equation or no alternative is for these values."""


def value_text(value):
    """A value as an expression."""
    name, parts = value[0], value[1:]
    if name in ("Zero", "Succ"):
        count = 0
        while value[0] == "Succ":
            count, value = count + 1, value[1]
        return str(count)
    return Maker.joined(name, [value_text(it) for it in parts])


def number(value):
    """The number that a value of Nat is."""
    return 1 + number(value[1]) if value[0] == "Succ" else 0


def of_number(count):
    return ("Succ", of_number(count - 1)) if count else ("Zero",)


def matches(pattern, value, found):
    """Whether a pattern is for a value; what its variables stand for is added to `found`."""
    kind = pattern[0]
    if kind == "any":
        return True
    if kind == "as":
        found[pattern[1]] = value
        return pattern[2] is None or matches(pattern[2], value, found)
    if kind == "number":
        return number(value) == pattern[1]
    return value[0] == pattern[1] and all(matches(it, part, found) for it, part in zip(pattern[2], value[1:]))


def pattern_text(pattern):
    kind = pattern[0]
    if kind == "any":
        return "_"
    if kind == "as":
        return pattern[1] if pattern[2] is None else f"{pattern[1]}@{pattern_text(pattern[2])}"
    if kind == "number":
        return str(pattern[1])
    return Maker.joined(pattern[1], [pattern_text(it) for it in pattern[2]])


def rank(value):
    """What values are ordered by."""
    names = [name for shapes in SHAPES.values() for name, _ in shapes]
    return (names.index(value[0]), *map(rank, value[1:]))


TESTS = {
    "==": lambda left, right: left == right,
    "/=": lambda left, right: left != right,
    "<": lambda left, right: rank(left) < rank(right),
    ">=": lambda left, right: rank(left) >= rank(right),
}


class Overlaps:
    """Makes functions whose equations overlap, and evaluates them."""

    def __init__(self, seed):
        self.random = random.Random(seed)
        self.functions = []  # name, types of the arguments, type of the result, equations
        self.count = 0

    def new(self):
        self.count += 1
        return f"x{self.count}"

    def some_value(self, kind, depth=3):
        shapes = SHAPES[kind] if depth else SHAPES[kind][:1]
        name, parts = self.random.choice(shapes)
        return (name, *(self.some_value(it, depth - 1) for it in parts))

    def pattern(self, kind, depth, names):
        """A pattern, with its variables and their types in `names`."""
        choice = self.random.random()
        if choice < 0.2 or depth == 0:
            return ("any",)
        if choice < 0.35:
            names[self.new()] = kind
            return ("as", f"x{self.count}", None)
        if kind == "Nat" and choice < 0.6:
            return ("number", self.random.randrange(3))
        name, parts = self.random.choice(SHAPES[kind])
        built = ("built", name, [self.pattern(it, depth - 1, names) for it in parts])
        if choice > 0.9:
            names[self.new()] = kind
            return ("as", f"x{self.count}", built)
        return built

    # expressions: each is a text and a function from the values of the variables to a value

    def expression(self, kind, names, depth=2):
        here = [it for it, other in names.items() if other == kind]
        choice = self.random.random()
        if here and choice < 0.4:
            name = self.random.choice(here)
            return name, lambda values: values[name]
        fitting = [it for it in self.functions if it[2] == kind]
        if fitting and depth and choice < 0.6:
            return self.call(self.random.choice(fitting), names, depth - 1)
        if depth and choice < 0.75:
            return self.conditional(kind, names, depth - 1)
        value = self.some_value(kind, 2)
        return value_text(value), lambda values: value

    def call(self, function, names, depth):
        parts = [self.expression(it, names, depth) for it in function[1]]
        text = " ".join([function[0], *(it for it, _ in parts)])
        return f"({text})", lambda values: self.value(function, [it(values) for _, it in parts])

    def conditional(self, kind, names, depth):
        test, then, other = self.condition(names, depth), self.expression(kind, names, depth), self.expression(kind, names, depth)
        text = f"(if {test[0]} then {then[0]} else {other[0]})"
        return text, lambda values: then[1](values) if test[1](values) else other[1](values)

    def condition(self, names, depth=1):
        """A condition, whose value is a truth value of Python."""
        choice = self.random.random()
        if depth and choice < 0.15:
            inner = self.condition(names, depth - 1)
            return f"not {inner[0]}" if inner[0][0] == "(" else f"(not {inner[0]})", lambda values: not inner[1](values)
        if depth and choice < 0.45:
            left, right = self.condition(names, depth - 1), self.condition(names, depth - 1)
            if choice < 0.3:
                return f"({left[0]} && {right[0]})", lambda values: left[1](values) and right[1](values)
            return f"({left[0]} || {right[0]})", lambda values: left[1](values) or right[1](values)
        lists = [it for it, kind in names.items() if kind == "[P]"]
        if lists and choice < 0.6:
            name = self.random.choice(lists)
            return f"(null {name})", lambda values: values[name] == ("[]",)
        kind, sign = self.random.choice([*names.values(), "P"]), self.random.choice(list(TESTS))
        left, right = self.expression(kind, names, 0), self.expression(kind, names, 0)
        text = f"({left[0]} {sign} ({right[0]} :: {kind}))"
        return text, lambda values: TESTS[sign](left[1](values), right[1](values))

    # right sides: texts, and functions that give a value or None where all guards fail

    def side(self, kind, names, sign, indent, depth):
        choice = self.random.random()
        if choice < 0.45:
            return self.guarded(kind, names, sign, indent)
        if depth and choice < 0.65:
            return self.case(kind, names, sign, indent, depth - 1)
        text, value = self.expression(kind, names)
        return f" {sign} {text}", value

    def guarded(self, kind, names, sign, indent):
        lines, branches = [], []
        for _ in range(self.random.randrange(1, 4)):
            guards, inner = [], dict(names)
            for _ in range(self.random.randrange(1, 3)):
                guards.append(self.guard(inner))
            text, value = self.expression(kind, inner)
            lines.append(f"| {', '.join(it for it, _ in guards)} {sign} {text}")
            branches.append(([it for _, it in guards], value))

        def first(values):
            for guards, value in branches:
                here = dict(values)
                if all(it(here) for it in guards):
                    return value(here)
            return None

        return under(lines, indent), first

    def guard(self, names):
        """A guard; one with a pattern adds its variables to `names`, and their values to those that it is given."""
        if self.random.random() < 0.6:
            return self.condition(names)
        kind = self.random.choice(sorted(SHAPES))
        text, value = self.expression(kind, dict(names))
        pattern = self.pattern(kind, 2, names)
        return f"{pattern_text(pattern)} <- ({text} :: {kind})", lambda values: matches(pattern, value(values), values)

    def case(self, kind, names, sign, indent, depth):
        subject = self.random.choice(sorted(SHAPES))
        text, value = self.expression(subject, names)
        lines, branches = [], []
        for _ in range(self.random.randrange(1, 4)):
            inner = dict(names)
            pattern = self.pattern(subject, 2, inner)
            side, result = self.side(kind, inner, "->", indent + 2, depth)
            lines.append(f"{pattern_text(pattern)}{side}")
            branches.append((pattern, result))

        def first(values):
            chosen = first_of([([pattern], result) for pattern, result in branches], [value(values)], values)
            if chosen is None:
                raise Uncovered
            return chosen

        return f" {sign} case ({text} :: {subject}) of{under(lines, indent)}", first

    # functions

    def function(self, last):
        """A function; all but the last one have an equation for all that is left."""
        kinds = [self.random.choice(sorted(SHAPES)) for _ in range(self.random.randrange(1, 4))]
        result, name = self.random.choice(["P", "Nat", "Q"]), f"f{len(self.functions)}"
        lines, equations = [f"{name} :: {' -> '.join([*kinds, result])}"], []
        for _ in range(self.random.randrange(1, 6)):
            names = {}
            patterns = [self.pattern(it, 3, names) for it in kinds]
            side, value = self.side(result, names, "=", 0, 1 if last else 0)
            lines.append(" ".join([name, *map(pattern_text, patterns)]) + side)
            equations.append((patterns, value))
        if not last:
            text, value = self.expression(result, {}, 0)
            lines.append(f"{' '.join([name, *('_' for _ in kinds)])} = {text}")
            equations.append(([("any",) for _ in kinds], value))
        self.functions.append((name, kinds, result, equations))
        return "\n".join(lines) + "\n"

    @staticmethod
    def value(function, arguments):
        """The value of a call."""
        found = first_of(function[3], arguments, {})
        if found is None:
            raise Uncovered
        return found


def first_of(equations, arguments, values):
    """The value of the first equation whose patterns and guards are for the arguments, or None."""
    for patterns, value in equations:
        here = dict(values)
        if all(matches(it, argument, here) for it, argument in zip(patterns, arguments)):
            found = value(here)
            if found is not None:
                return found
    return None


def overlapping(seed):
    """A module, and calls of its last function with their values; None where nothing is for the arguments."""
    maker = Overlaps(seed)
    head = "module M where\n\nimport Nat\n"
    count = maker.random.randrange(1, 4)
    texts = [head, OVERLAP_DATA, *(maker.function(at == count - 1) for at in range(count))]
    last = maker.functions[-1]
    calls = {}
    for _ in range(FEW):
        arguments = [maker.some_value(it) for it in last[1]]
        try:
            value = value_text(maker.value(last, arguments))
        except Uncovered:
            value = None
        calls[" ".join([last[0], *map(value_text, arguments)])] = value
    return "\n".join(texts), list(calls.items())
