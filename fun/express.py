"""Terms of a system or of a certificate, printed in the program's own names and syntax.

A term becomes a tree of constructors, functions, variables and lambdas. A copy of a function is printed as a call of
the function itself with what it was copied for; a choice as `case .. of {line 14: x : xs = [1]}`, where the names are
those of the program's line and stand for what the term has in their places; a local function has the outer variables
that it uses behind its name, `insert{le = (<=)} x ys`.
"""

import re

from fun import core
from fun.parse import PRELUDE_FIXITIES

TOKENS = re.compile(r"[A-Za-z_][\w']*#?|[$%?]\d+|\d+|->|=>|[\\:.()\[\],]", re.ASCII)
APPLIED = 10  # how strongly an application binds; operators bind by their fixities


class Tree:
    """A head with arguments: the head is a constructor, a symbol, a text (a variable) or a `Bound` body."""

    __slots__ = ("head", "arguments")

    def __init__(self, head, arguments=()):
        self.head = head
        self.arguments = list(arguments)


class Bound:
    """A lambda over names."""

    __slots__ = ("names", "body")

    def __init__(self, names, body):
        self.names = names
        self.body = body


class Reader:
    """Reads a term in the syntax of systems and certificates."""

    def __init__(self, text, table):
        self.tokens = TOKENS.findall(text)
        self.place = 0
        self.table = table  # name to constructor or symbol

    def peek(self):
        """The token here, or the empty text."""
        return self.tokens[self.place] if self.place < len(self.tokens) else ""

    def take(self):
        """The token here, and goes on."""
        token = self.peek()
        self.place += 1
        return token

    def term(self, bound=()):
        """A term; an abstraction reaches as far as it can."""
        if self.peek() == "\\":
            self.take()
            name = self.variable(self.take())
            self.take()
            self.skip_type()
            self.take()
            body = self.term(bound + (name,))
            if isinstance(body.head, Bound) and not body.arguments:
                return Tree(Bound([name] + body.head.names, body.head.body))
            return Tree(Bound([name], body))
        head = self.atom(bound)
        arguments = []
        while self.peek() not in ("", ")", "]", ",", "=>", ";"):
            arguments.append(self.atom(bound))
        return Tree(head.head, head.arguments + arguments)

    def skip_type(self):
        """Goes over the type of a binder."""
        if self.peek() != "(":
            self.take()
            return
        depth = 0
        while True:
            depth += {"(": 1, ")": -1}.get(self.take(), 0)
            if depth == 0:
                return

    def variable(self, token):
        """The name of a variable by its number."""
        if token[0] in "$%?":
            return {"$": "z", "%": "x", "?": "y"}[token[0]] + token[1:]
        return token

    def atom(self, bound):
        """A name, a variable, a meta-variable with arguments, or a term in parentheses."""
        token = self.take()
        if token == "(":
            inner = self.term(bound)
            self.take()
            return inner
        name = self.variable(token).rstrip("#")
        arguments = []
        if token.startswith("%") and self.peek() == ":":
            self.take()
            self.skip_type()
        elif self.peek() == "[":
            while self.take() in ("[", ",") and self.peek() != "]":
                arguments.append(self.term(bound))
        if name in bound or name not in self.table:
            return Tree(name, arguments)
        return Tree(self.table[name], arguments)


class Printer:
    """Prints trees in the syntax of the program."""

    def __init__(self, names, fixities):
        self.table = {name: symbol for symbol, name in names.symbol_names.items()}
        self.table.update({name: info for (info, _), name in names.con_names.items()})
        self.fixities = dict(PRELUDE_FIXITIES)
        self.fixities.update(fixities)

    def text(self, term):
        """A term, given as a text of a system or a certificate."""
        return self.show(Reader(term, self.table).term(), -1)

    def show(self, tree, strength):
        """A tree; `strength` is how strongly what stands around it binds."""
        head, arguments = tree.head, tree.arguments
        if isinstance(head, Bound):
            text = f"\\{' '.join(head.names)} -> {self.show(head.body, -1)}"
            if arguments:
                return self.applied(f"({text})", arguments, strength)
            return f"({text})" if strength >= 0 else text
        if isinstance(head, str):
            return self.applied(head, arguments, strength)
        if isinstance(head, core.Symbol):
            return self.symbol(head, arguments, strength)
        return self.constructor(head, arguments, strength)

    def applied(self, head, arguments, strength):
        """A head with arguments."""
        if not arguments:
            return head
        text = " ".join([head] + [self.show(one, APPLIED) for one in arguments])
        return f"({text})" if strength >= APPLIED else text

    def constructor(self, info, arguments, strength):
        """A constructor: numbers, lists and tuples as the program writes them."""
        if info.name in ("Zero", "Succ") and info.data.known:
            number = self.number(Tree(info, arguments))
            if number is not None:
                return str(number)
        if info.name == ":" and len(arguments) == 2:
            members = self.members(Tree(info, arguments))
            if members is not None:
                return "[" + ", ".join(self.show(one, -1) for one in members) + "]"
        if info.name.startswith("(,") and len(arguments) == info.arity:
            return "(" + ", ".join(self.show(one, -1) for one in arguments) + ")"
        return self.named(info.name, arguments, strength)

    def number(self, tree):
        """The number that a tree of `Zero` and `Succ` is, or None."""
        number = 0
        while getattr(tree.head, "name", "") == "Succ" and len(tree.arguments) == 1:
            tree, number = tree.arguments[0], number + 1
        return number if getattr(tree.head, "name", "") == "Zero" else None

    def members(self, tree):
        """The members of a list whose end is known, or None."""
        members = []
        while getattr(tree.head, "name", "") == ":" and len(tree.arguments) == 2:
            members.append(tree.arguments[0])
            tree = tree.arguments[1]
        return members if getattr(tree.head, "name", "") == "[]" else None

    def named(self, name, arguments, strength):
        """A name of the program, or an operator, with arguments."""
        if name[0].isalpha() or name[0] in "_[(":
            return self.applied(name, arguments, strength)
        if len(arguments) < 2:
            if not arguments:
                return f"({name})"
            return f"({self.show(arguments[0], APPLIED)} {name})"
        side, level = self.fixities.get(name, ("infixl", 9))
        left = self.show(arguments[0], level if side != "infixl" else level - 0.5)
        right = self.show(arguments[1], level if side != "infixr" else level - 0.5)
        text = f"{left} {name} {right}"
        if len(arguments) > 2:
            return self.applied(f"({text})", arguments[2:], strength)
        return f"({text})" if strength >= level else text

    def symbol(self, symbol, arguments, strength):
        """A symbol: a function by its name, others by what they come from."""
        if symbol.kind == "copy" and symbol.template:
            return self.copy(symbol, arguments, strength)
        if symbol.kind in ("case", "let"):
            return self.part(symbol, arguments, strength)
        if symbol.kind == "local":
            return self.local(symbol, arguments, strength)
        name = symbol.method[0] if symbol.method else symbol.base.rstrip("'") if symbol.kind == "known" else symbol.base
        return self.named(name, arguments, strength)

    def copy(self, symbol, arguments, strength):
        """A copy: the function itself with what it was copied for."""
        original, values, parameters = symbol.template
        free = {one for value in values.values() for one in core.free_variables(value)}
        given = dict(zip(parameters, arguments))
        table = {one: given.get(one, Tree(one.base)) for one in free}
        rest = iter(arguments[len(free):])
        found = []
        for number in range(original.arity):
            if number in values:
                found.append(self.tree(values[number], table))
            else:
                one = next(rest, None)
                if one is None:
                    break
                found.append(one)
        return self.show(Tree(original, found + list(rest)), strength)

    def local(self, symbol, arguments, strength):
        """A local function, with the outer variables that it uses behind its name."""
        extra = getattr(symbol, "extra", [])
        pairs = [f"{one.base} = {self.show(value, -1)}" for one, value in zip(extra, arguments)]
        pairs = [pair for pair in pairs if pair.split(" = ")[0] != pair.split(" = ", 1)[1]]
        name = symbol.base if symbol.base[0].isalpha() or symbol.base[0] == "_" else f"({symbol.base})"
        head = name + ("{" + ", ".join(pairs) + "}" if pairs else "")
        return self.applied(head, arguments[len(extra):], strength)

    def part(self, symbol, arguments, strength):
        """A choice or a binding, with what the names of its line stand for."""
        patterns, count = symbol.patterns, len(symbol.patterns)
        pairs = []
        for pattern, value in list(zip(patterns, arguments))[1 if symbol.looks else 0:]:
            left, right = self.show(self.tree(pattern, {}), -1), self.show(value, -1)
            if left != right:
                pairs.append(f"{left} = {right}")
        what = f"line {symbol.line}" if symbol.line else symbol.function
        notes = "{" + what + (": " + "; ".join(pairs) if pairs else "") + "}"
        if not symbol.looks:
            text = f".. {notes}"
        elif symbol.kind == "case":
            text = f"case {self.show(arguments[0], -1)} of {notes}"
        else:
            text = f"let {patterns[0].base} = {self.show(arguments[0], -1)} in {notes}"
        if len(arguments) > count:
            return self.applied(f"({text})", arguments[count:], strength)
        return f"({text})" if strength >= 0 else text

    def tree(self, node, table):
        """An expression of `core` as a tree; what the table has not is a variable by its name."""
        node = core.unmarked(node)
        if isinstance(node, core.Var):
            return table.get(node) or Tree(node.base)
        if isinstance(node, core.Ref):
            return Tree(node.symbol)
        if isinstance(node, core.Con):
            return Tree(node.info)
        if isinstance(node, core.App):
            head = self.tree(node.function, table)
            return Tree(head.head, head.arguments + [self.tree(one, table) for one in node.arguments])
        if isinstance(node, core.Lam):
            return Tree(Bound([one.base for one in node.parameters], self.tree(node.body, table)))
        if isinstance(node, core.Switch):
            return Tree("case", [self.tree(node.scrutinee, table), Tree("of"), Tree("..")])
        if isinstance(node, (core.Let, core.Unpack)):
            return Tree("let", [Tree(".."), Tree("in"), self.tree(node.body, table)])
        return Tree("error")

    def patterns(self, symbol, patterns):
        """The left side of a rule, for messages."""
        trees = [self.tree(one, {}) for one in patterns]
        if symbol.kind in ("case", "let"):
            return self.show(trees[0], -1) if trees else ".."
        return self.show(Tree(symbol, trees), -1)
