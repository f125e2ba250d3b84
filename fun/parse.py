"""The parser: from tokens to the syntax tree, by recursive descent. Operators are ordered by their fixities.

A fixity holds where the operator of its declaration is in scope: one in a `where` holds in the equation before it, and
an operator that is bound without one has the usual fixity, whatever another one of its name has. So an equation whose
`where` turns out to change a fixity is parsed a second time, with it.
"""

import contextlib

from fun import syntax as s
from fun.layout import Stream
from fun.messages import Message, Refused

PRELUDE_FIXITIES = {
    ".": ("infixr", 9), "*": ("infixl", 7), "`div`": ("infixl", 7), "`mod`": ("infixl", 7), "+": ("infixl", 6),
    "-": ("infixl", 6), ":": ("infixr", 5), "++": ("infixr", 5), "==": ("infix", 4), "/=": ("infix", 4),
    "<": ("infix", 4), "<=": ("infix", 4), ">": ("infix", 4), ">=": ("infix", 4), "`elem`": ("infix", 4),
    "`notElem`": ("infix", 4), "&&": ("infixr", 3), "||": ("infixr", 2), "$": ("infixr", 0), "^": ("infixr", 8),
    "/": ("infixl", 7), "`quot`": ("infixl", 7), "`rem`": ("infixl", 7), "<$>": ("infixl", 4), "<*>": ("infixl", 4),
    ">>=": ("infixl", 1), ">>": ("infixl", 1), "$!": ("infixr", 0), "`seq`": ("infixr", 0), "!!": ("infixl", 9),
    "<>": ("infixr", 6), "**": ("infixr", 8), "^^": ("infixr", 8), "<$": ("infixl", 4), "=<<": ("infixr", 1),
}
USUAL = ("infixl", 9)  # the fixity of an operator that has none of its own
MOST_PARTS = 7
NO_TEXTS = "characters and strings are no part of the language: use a data type with a constructor for each that occurs"
NO_NUMBER = "the only numbers are 0 to 20 of `Nat`, from `import Nat`: write others as sums or with `Succ`"


def refuse(at, sentence):
    """Ends the parse of this declaration with a message."""
    raise Refused([Message(at[0], at[1], sentence)])


def spelled(name):
    """A name as an operator, as fixities are kept by it: in backquotes where it is no sign."""
    return f"`{name}`" if name[0].isalpha() or name[0] == "_" else name


class Parser:
    """A parser over one module's text."""

    def __init__(self, text):
        self.stream = Stream(text)
        self.messages = []
        self.fixities = dict(PRELUDE_FIXITIES)  # those that hold here
        self.trials = 0  # how many equations are parsed whose `where` is yet to come
        self.doubted = False  # whether operators stood in such an equation that the fixities so far leave open
        self.module_fixities = {name: fixity for name, (fixity, _) in self.fixities_from(self.top_places()).items()}
        self.fixities.update(self.module_fixities)

    # Tokens

    def peek(self, ahead=0):
        """The token here, or further on in the item."""
        return self.stream.peek(ahead)

    def at(self, *texts):
        """Whether the token here is one of these words or signs."""
        token = self.peek()
        return token.text in texts and token.kind in ("word", "sign", "special", "name")

    def take(self):
        """The token here, and goes on."""
        return self.stream.take()

    def accept(self, text):
        """Takes the token here where it is this one."""
        if self.at(text):
            return self.take()
        return None

    def expect(self, text, what):
        """Takes this token, or refuses with what it is wanted for."""
        return self.accept(text) or self.wanted(f"`{text}` is wanted {what}")

    def wanted(self, sentence):
        """Refuses the token here, which the layout may have ended the item before."""
        raw = self.stream.raw()
        if self.peek().kind == "end" and raw.kind != "end":
            column = self.stream.columns[-1] if self.stream.columns else 1
            if raw.column == column:
                refuse(raw.at, f"{sentence}, before the line that begins with {raw}")
            refuse(raw.at, f"{raw} begins in column {raw.column}, where the lines of the block begin in column {column}: "
                   f"{sentence} before it")
        closed = self.stream.closed
        if raw.first and raw.kind != "end" and closed and closed > raw.column and raw.column not in self.stream.columns:
            refuse(raw.at, f"{raw} begins in column {raw.column}, where the lines of the block begin in column {closed}")
        place = raw.at if raw.kind != "end" else (raw.line, 1)
        refuse(place, f"{raw} can't stand here: {sentence}")
        return None

    # Fixities

    def top_places(self):
        """The places of the tokens at which the items of the module begin."""
        tokens, begin = self.stream.tokens, 0
        if tokens[0].text == "module":
            begin = next((i + 1 for i, token in enumerate(tokens) if token.text == "where"), len(tokens) - 1)
        return self.item_places(begin)

    def item_places(self, begin):
        """The places of the tokens at which the items of a block begin: of one with layout, or of one in braces."""
        tokens, depth = self.stream.tokens, 0
        column, braced, declares = tokens[begin].column, tokens[begin].text == "{", False
        for place in range(begin, len(tokens)):
            token = tokens[place]
            depth += {"{": 1, "}": -1}.get(token.text, 0) if token.kind == "special" else 0
            if depth < 0 or not depth and (braced or token.first and token.column < column):
                return
            before = tokens[place - 1].text if place else ""
            if braced:
                begins = depth == 1 and before in (";", "{")
            else:
                # a `;` behind an equation may be one of a block within it
                begins = place == begin or token.first and token.column == column or declares and before == ";"
                begins = begins and not depth
            if begins:
                declares = token.text in ("infixl", "infixr", "infix")
                yield place

    def fixities_from(self, places):
        """The fixities that the items at these places declare, each with its place."""
        tokens, found = self.stream.tokens, {}
        for i in places:
            if tokens[i].kind != "word" or tokens[i].text not in ("infixl", "infixr", "infix"):
                continue
            side, level, i = tokens[i].text, 9, i + 1
            if tokens[i].kind == "number":
                if tokens[i].text not in tuple("0123456789"):
                    refuse(tokens[i].at, "a fixity is a number from 0 to 9")
                level, i = int(tokens[i].text), i + 1
            for token in self.fixity_names(i):
                name = spelled(token.text)
                if name in found:
                    self.complain(token.at, f"`{token.text}` has two fixities: give one of the operators another name")
                found[name] = ((side, level), token.at)
        return found

    def fixity_names(self, i):
        """The tokens of the names that a fixity is given to, which begin at that place."""
        tokens = self.stream.tokens
        while i + 2 < len(tokens):
            quoted = tokens[i].text == "`"
            yield tokens[i + 1] if quoted else tokens[i]
            i += 3 if quoted else 1
            if tokens[i].text != ",":
                return
            i += 1

    def check_defined(self, declared, names):
        """Refuses the fixity of a name that is not defined beside it."""
        defined = {spelled(name) for name in names}
        for name, (_, at) in declared.items():
            if name not in defined:
                self.complain(at, f"`{name.strip('`')}` has a fixity and no equation here")

    @contextlib.contextmanager
    def scope(self):
        """What gets a fixity within has it within alone."""
        outer = self.fixities
        try:
            yield
        finally:
            self.fixities = outer

    def bind(self, name, fixity=USUAL):
        """From here on in this scope the name has that fixity."""
        if self.fixity(spelled(name)) != fixity:
            self.fixities = {**self.fixities, spelled(name): fixity}

    def state(self):
        """How far the parse is, for `go_back`."""
        stream = self.stream
        return stream.place, stream.begins, stream.closed, list(stream.columns), len(self.messages)

    def go_back(self, state):
        """Back to where the parse was."""
        stream = self.stream
        stream.place, stream.begins, stream.closed, stream.columns[:], count = state
        del self.messages[count:]

    def unordered(self, at, sentence):
        """Refuses operators that no fixity orders; where a `where` is yet to come it may have the fixity."""
        if not self.trials:
            refuse(at, sentence)
        self.doubted = True

    # The module

    def module(self):
        """The whole module."""
        name, exports, explicit = "Main", None, False
        if self.at("module"):
            self.take()
            name, explicit = self.type_name("the module's name"), True
            exports = self.exports() if self.at("(") else None
            self.expect("where", "behind the module's name")
        result = s.Module(name, exports, [])
        if not explicit and self.stream.raw().kind == "end":
            return result
        self.stream.block(lambda: self.guarded(result))
        if self.stream.raw().kind != "end":
            self.messages.append(self.stray())
        if self.messages:
            raise Refused(self.messages)
        result.fixities = self.module_fixities
        result.declarations = self.gather(result.declarations)
        names = [one.name for one in result.declarations if isinstance(one, s.Function)]
        names += [one.name for data in result.datas for one in data.constructors]
        self.check_defined(self.fixities_from(self.top_places()), names)
        if self.messages:
            raise Refused(self.messages)
        return result

    def stray(self):
        """The message for what stands behind the module."""
        token = self.stream.raw()
        return Message(*token.at, f"{token} can't stand here: no declaration begins with it in column {token.column}")

    def drop_fixities(self, one):
        """After an import of the Prelude: what it leaves out and the module defines anew has no fixity from there."""
        listed = {name for name, _ in one.names}
        for name in PRELUDE_FIXITIES:
            hidden = (name.strip("`") in listed) == one.hides and name != ":"
            if hidden and name not in self.module_fixities:
                self.fixities.pop(name, None)

    def guarded(self, result):
        """A top-level item; after an error the parse goes on where the next one begins."""
        columns, begin = list(self.stream.columns), self.stream.place
        self.trials, self.doubted = 0, False
        try:
            self.top(result)
            if not self.ended():
                self.wanted("the declaration before it is at its end")
        except Refused as refused:
            self.messages.extend(refused.messages)
            self.stream.columns[:] = columns
            self.stream.begins = -1
            self.stream.place = max(self.stream.place, begin + 1)
            while self.stream.raw().kind != "end" and not self.stream.hidden(self.stream.place):
                self.stream.place += 1

    def ended(self):
        """Whether the current item of the innermost block is at its end."""
        return self.peek().kind == "end" or self.at(";")

    def exports(self):
        """An export list: names with their places; `T(..)` is the type alone."""
        self.expect("(", "around what is exported")
        names = []
        while not self.at(")"):
            token = self.peek()
            if self.accept("module"):
                names.append(("module " + self.type_name("a module's name"), token.at))
            elif token.kind == "type":
                names.append((self.type_name("a type"), token.at))
                self.sub_names()
            else:
                names.append((self.variable("a name that is exported"), token.at))
            if not self.accept(","):
                break
        self.expect(")", "behind what is exported")
        return names

    def sub_names(self):
        """What stands behind a type in an export or import list: `(..)` or constructors; returns them, or None."""
        if not self.accept("("):
            return []
        names = []
        if self.accept(".."):
            names = None
        else:
            while not self.at(")"):
                names.append(self.take().text)
                if not self.accept(","):
                    break
        self.expect(")", "behind the constructors")
        return names

    def top(self, result):
        """One top-level declaration, put into the module."""
        token = self.peek()
        known = {
            "class": "classes are no part of the language: give the functions of the class as arguments",
            "instance": "instances are no part of the language: write `deriving (Eq, Ord)`, or a function of its own",
            "default": "`default` is no part of the language",
            "foreign": "`foreign` is no part of the language",
        }
        if token.kind == "word" and token.text in known:
            refuse(token.at, known[token.text])
        if token.text == "deriving" and token.kind == "word":
            refuse(token.at, "a `deriving` of its own is no part of the language: write it behind the data type")
        if self.at("import"):
            result.imports.append(self.import_())
        elif self.at("data", "newtype"):
            result.datas.append(self.data())
        elif self.at("type"):
            result.synonyms.append(self.synonym())
        else:
            result.declarations.extend(self.declaration())

    def import_(self):
        """An import."""
        at = self.take().at
        token = self.peek()
        if token.text == "qualified":
            refuse(token.at, "qualified names are no part of the language: import the module and hide what is in the way")
        name = self.take().text if token.kind == "type" else self.type_name("the module that is imported")
        if self.at("qualified", "as"):
            refuse(self.peek().at, "qualified names are no part of the language: import the module and hide what is in the way")
        hides = bool(self.accept("hiding"))
        names = self.import_names() if self.at("(") else None
        if name not in ("Prelude", "Nat"):
            refuse(at, f"`{name}` can't be imported: the modules that are known are Prelude and Nat; define what you need of it")
        found = s.Import(name, hides, names, at)
        if name == "Prelude" and names is not None:
            self.drop_fixities(found)
        return found

    def import_names(self):
        """The names in an import list; a type with (..) brings its constructors as `T(..)`."""
        self.expect("(", "around the names")
        names = []
        while not self.at(")"):
            token = self.peek()
            if token.kind == "type":
                name = self.type_name("a type")
                inner = self.sub_names()
                names.append((name, token.at))
                names.extend((one, token.at) for one in (inner or ()))
                if inner is None:
                    names.append((name + "(..)", token.at))
            else:
                names.append((self.variable("a name"), token.at))
            if not self.accept(","):
                break
        self.expect(")", "behind the names")
        return names

    def data(self):
        """A data type."""
        self.take()
        at = self.peek().at
        name = self.type_name("the name of the data type")
        if self.at("=>"):
            refuse(at, "a data type has no context in the language")
        parameters = self.parameters()
        if self.at("where", "::"):
            refuse(self.peek().at, "types of constructors (GADTs) are no part of the language: write the constructors behind `=`")
        constructors = []
        if self.accept("="):
            constructors.append(self.constructor())
            while self.accept("|"):
                constructors.append(self.constructor())
        deriving = self.deriving() if self.at("deriving") else []
        return s.Data(name, parameters, constructors, deriving, at)

    def parameters(self):
        """The variables of a type declaration."""
        names = []
        while self.peek().kind == "name":
            token = self.take()
            if token.text in names:
                refuse(token.at, f"the type variable `{token.text}` stands twice")
            names.append(token.text)
        return names

    def constructor(self):
        """A constructor with its fields, or an infix one."""
        at = self.peek().at
        if self.at("!"):
            refuse(at, "strict fields are no part of the language: leave out the `!`")
        if self.at("forall"):
            refuse(at, "`forall` is no part of the language")
        if self.peek().kind == "type" and not self.infix_constructor():
            name = self.type_name("a constructor")
            if self.at("{"):
                refuse(self.peek().at, "records are no part of the language: give the fields by their places")
            fields = []
            while self.begins_type():
                fields.append(self.atype())
            if self.at("!"):
                refuse(self.peek().at, "strict fields are no part of the language: leave out the `!`")
            return s.Constructor(name, fields, at)
        if self.at("(") and self.peek(1).text.startswith(":"):
            self.take()
            name = self.take().text
            self.expect(")", "behind the constructor")
            fields = []
            while self.begins_type():
                fields.append(self.atype())
            return s.Constructor(name, fields, at)
        left = self.btype()
        token = self.peek()
        if token.kind == "sign" and token.text.startswith(":"):
            self.take()
            return s.Constructor(token.text, [left, self.btype()], token.at)
        if self.accept("`"):
            name = self.type_name("a constructor")
            self.expect("`", "behind the constructor")
            return s.Constructor(name, [left, self.btype()], token.at)
        return self.wanted("a constructor is wanted, whose name begins with a capital")

    def infix_constructor(self):
        """Whether a constructor operator stands in this alternative, outside of parentheses."""
        ahead, depth = 0, 0
        while True:
            token = self.peek(ahead)
            if token.kind == "end" or (depth == 0 and token.text in ("|", "deriving", ";")):
                return False
            depth += {"(": 1, "[": 1, ")": -1, "]": -1}.get(token.text, 0)
            if depth == 0 and (token.kind == "sign" and token.text.startswith(":") or token.text == "`"):
                return True
            ahead += 1

    def deriving(self):
        """The classes behind `deriving`."""
        self.take()
        many, classes = bool(self.accept("(")), []
        while not self.at(")"):
            token = self.peek()
            name = self.type_name("a class")
            if name not in ("Eq", "Ord", "Show"):
                refuse(token.at, f"`{name}` can't be derived: `Eq`, `Ord` and `Show` can")
            classes.append((name, token.at))
            if not many or not self.accept(","):
                break
        if many:
            self.expect(")", "behind the classes")
        if self.at("deriving"):
            refuse(self.peek().at, "one `deriving` with all classes is wanted")
        return classes

    def synonym(self):
        """A type synonym."""
        self.take()
        at = self.peek().at
        name = self.type_name("the name of the type")
        parameters = self.parameters()
        self.expect("=", "behind the name of the type")
        return s.Synonym(name, parameters, self.type(), at)

    # Types

    def type_name(self, what):
        """A name with a capital."""
        token = self.peek()
        if token.kind != "type":
            self.wanted(f"{what} is wanted")
        if "." in token.text:
            refuse(token.at, f"qualified names are no part of the language: write `{token.text.rsplit('.', 1)[1]}`")
        return self.take().text

    def begins_type(self):
        """Whether an argument type begins here."""
        return self.peek().kind in ("type", "name") or self.at("(", "[")

    def qualified(self):
        """A type with a context, where one stands before it."""
        at = self.peek().at
        if self.at("forall"):
            refuse(at, "`forall` is no part of the language: leave it out")
        left = self.type()
        if not self.accept("=>"):
            return s.Qualified([], left, at)
        parts = left.arguments if left.head.startswith("(") and left.head != "()" else [left]
        if left.head == "()":
            parts = []
        context = []
        for part in parts:
            if part.head not in ("Eq", "Ord", "Show", "Num") or len(part.arguments) != 1:
                refuse(part.at, f"`{part.head}` is no class of the language: `Eq` and `Ord` are")
            if part.head in ("Num", "Show"):
                refuse(part.at, f"`{part.head}` can't stand in a context of the language: `Eq` and `Ord` can")
            if not part.arguments[0].is_variable:
                refuse(part.at, "a context speaks of type variables alone")
            context.append((part.head, part.arguments[0]))
        return s.Qualified(context, self.type(), at)

    def type(self):
        """A type; the arrow groups to the right."""
        left = self.btype()
        token = self.accept("->")
        if token:
            return s.Type("->", [left, self.type()], token.at)
        return left

    def btype(self):
        """A type name with arguments, or an argument type."""
        head = self.atype()
        arguments = []
        while self.begins_type():
            arguments.append(self.atype())
        if not arguments:
            return head
        if head.is_variable:
            refuse(head.at, f"the type variable `{head.head}` can't have arguments in the language")
        if head.head in ("->", "[]") and head.arguments or head.head.startswith("("):
            refuse(arguments[0].at, "this type can't have arguments")
        return s.Type(head.head, head.arguments + arguments, head.at)

    def atype(self):
        """A name, a variable, a list, a tuple, or a type in parentheses."""
        token = self.peek()
        if token.kind == "type":
            return s.Type(self.type_name("a type"), [], token.at)
        if token.kind == "name":
            if "." in token.text:
                refuse(token.at, "qualified names are no part of the language")
            return s.Type(self.take().text, [], token.at)
        if self.accept("["):
            if self.accept("]"):
                return s.Type("[]", [], token.at)
            inner = self.type()
            self.expect("]", "behind the type of the members")
            return s.Type("[]", [inner], token.at)
        if self.accept("("):
            return self.type_in_parentheses(token)
        if self.at("!"):
            refuse(token.at, "strict fields are no part of the language: leave out the `!`")
        return self.wanted("a type is wanted")

    def type_in_parentheses(self, token):
        """What stands behind the opening parenthesis of a type."""
        if self.accept(")"):
            return s.Type("()", [], token.at)
        if self.accept("->"):
            self.expect(")", "behind the arrow")
            return s.Type("->", [], token.at)
        if self.at(","):
            count = 1
            while self.accept(","):
                count += 1
            self.expect(")", "behind the commas")
            return s.Type(s.tuple_name(count), [], token.at)
        parts = [self.type()]
        while self.accept(","):
            parts.append(self.type())
        self.expect(")", "behind the type")
        if len(parts) == 1:
            return parts[0]
        if len(parts) > MOST_PARTS:
            refuse(token.at, f"a tuple has at most {MOST_PARTS} parts in the language")
        return s.Type(s.tuple_name(len(parts)), parts, token.at)

    # Declarations

    def declarations(self):
        """The declarations of a block, with the clauses of a function gathered. Their fixities hold from here on."""
        declared = self.fixities_from(self.item_places(self.stream.place)) if self.block_ahead() else {}
        state = self.state()
        for name, (fixity, _) in declared.items():
            self.bind(name.strip("`"), fixity)
        before, found = self.fixities, self.block_of_declarations()
        names = s.scope_of([one for one in found if not isinstance(one, s.Signature)])
        for name in names:
            self.bind(name, declared[spelled(name)][0] if spelled(name) in declared else USUAL)
        if self.fixities is not before:
            self.go_back(state)
            found = self.block_of_declarations()
        self.check_defined(declared, names)
        return self.gather(found)

    def block_ahead(self):
        """Whether a block that is not empty begins here."""
        token, columns = self.stream.raw(), self.stream.columns
        return token.text == "{" or token.kind != "end" and (not columns or token.column > columns[-1])

    def block_of_declarations(self):
        """The declarations of a block as they stand there."""
        return [one for some in self.stream.block(self.declaration) for one in some]

    def declaration(self):
        """A signature, a fixity, a clause or a pattern binding: a list of at most one. Fixities are known from before."""
        with self.scope():
            return self.declaration_in_scope()

    def declaration_in_scope(self):
        """As `declaration`; what its patterns bind is in scope to its end."""
        token = self.peek()
        if self.at("infixl", "infixr", "infix"):
            while not self.ended():
                self.take()
            return []
        if self.signature_ahead():
            names = [self.named_variable()]
            while self.accept(","):
                names.append(self.named_variable())
            self.expect("::", "behind the names")
            return [s.Signature(names, self.qualified(), token.at)]
        shape = self.shape_ahead()
        if shape == "infix":
            return [self.infix_clause()]
        if shape == "prefix":
            name = self.variable("a function's name")
            patterns = []
            while not self.at("=", "|"):
                patterns.append(self.apattern())
            return [s.Function(name, [s.Clause(patterns, self.right("="), token.at)], token.at)]
        if shape == "wrapped":
            return [self.wrapped_clause()]
        pattern = self.pattern()
        if isinstance(pattern, s.PLit) or not self.at("=", "|"):
            self.wanted("an equation is wanted, with `=` behind its left side")
        return [s.PatternBinding(pattern, self.right("="), token.at)]

    def signature_ahead(self):
        """Whether names with `::` behind them stand here."""
        ahead = 0
        while True:
            if self.peek(ahead).text == "(" and self.peek(ahead + 2).text == ")":
                ahead += 3
            elif self.peek(ahead).kind == "name":
                ahead += 1
            else:
                return False
            if self.peek(ahead).text == "::":
                return True
            if self.peek(ahead).text != ",":
                return False
            ahead += 1

    def named_variable(self):
        """A variable with its place."""
        at = self.peek().at
        return (self.variable("a name"), at)

    def shape_ahead(self):
        """Which kind of left side stands here: infix, prefix, wrapped (`(x op y) z`) or pattern."""
        depth, ahead, inner = 0, 0, False
        first = self.peek()
        while True:
            token = self.peek(ahead)
            if token.kind == "end" or depth == 0 and token.text in ("=", "|") and token.kind == "word":
                break
            depth += {"(": 1, "[": 1, ")": -1, "]": -1}.get(token.text, 0) if token.kind == "special" else 0
            operator = token.kind == "sign" and token.text not in ("!", "~") and not token.text.startswith(":")
            operator = operator or token.text == "`" and self.peek(ahead + 1).kind == "name"
            if operator and depth == 0 and ahead:
                return "infix"
            inner = inner or operator and depth == 1 and ahead > 1
            ahead += 2 if token.text == "`" and operator else 1
        if first.kind == "name" and self.peek(1).text != "@":
            return "prefix"
        if first.text == "(" and self.peek(1).kind == "sign" and self.peek(2).text == ")":
            return "prefix" if not self.peek(1).text.startswith(":") else "pattern"
        return "wrapped" if first.text == "(" and inner else "pattern"

    def infix_clause(self):
        """An equation of an operator: `x op y = ..`."""
        at = self.peek().at
        name, patterns = self.infix_left_side()
        return s.Function(name, [s.Clause(patterns, self.right("="), at)], at)

    def infix_left_side(self):
        """What is defined by `x op y`, with the two patterns. It is to bind less than the constructors' operators there."""
        defined = []

        def operator():
            found = self.pattern_operator()
            if not found and not defined:
                found = self.expression_operator()
                defined.append(found)
            return found

        def join(name, at, left, right):
            if name == defined[0][0]:
                return (left, right)
            if isinstance(left, tuple) or isinstance(right, tuple):
                refuse(at, f"`{defined[0][0].strip('`')}`, which is defined here, binds more than `{name}`: put parentheses")
            return self.join_pattern(name, at, left, right)

        patterns = self.chain(self.operator_pattern_part, operator, join)
        return defined[0][0].strip("`"), list(patterns)

    def wrapped_clause(self):
        """An equation `(x op y) z .. = ..`."""
        at = self.take().at
        name, patterns = self.infix_left_side()
        self.expect(")", "behind the operator's arguments")
        while not self.at("=", "|"):
            patterns.append(self.apattern())
        return s.Function(name, [s.Clause(patterns, self.right("="), at)], at)

    def gather(self, declarations):
        """Clauses of one name that stand together become one function; signatures are given to their functions."""
        found, by_name, signatures = [], {}, {}
        last = None
        for one in declarations:
            if isinstance(one, s.Signature):
                for name, at in one.names:
                    if name in signatures:
                        self.complain(at, f"`{name}` has a signature already")
                    signatures[name] = (one.type, at)
            elif isinstance(one, s.Function):
                if last is not None and last.name == one.name and one.arity + last.arity > 0:
                    if one.arity != last.arity:
                        self.complain(one.at, f"this equation of `{one.name}` has {counted(one.arity)}, and the one in line "
                                      f"{last.at[0]} has {last.arity}: equations of one function have equally many")
                    last.clauses.extend(one.clauses)
                    continue
                if one.name in by_name:
                    self.complain(one.at, f"`{one.name}` is defined in line {by_name[one.name][0]}, too: equations of one "
                                  "function stand together, and a name is defined once")
                by_name[one.name] = one.at
                found.append(one)
            else:
                for node in s.pattern_variables(one.pattern):
                    if node.name in by_name:
                        self.complain(node.at, f"`{node.name}` is defined in line {by_name[node.name][0]}, too")
                    by_name[node.name] = node.at
                found.append(one)
            last = one if isinstance(one, s.Function) else None
        self.give(signatures, found, by_name)
        return found

    def give(self, signatures, found, by_name):
        """Gives each function its signature; one of a pattern's variable is refused."""
        functions = {one.name: one for one in found if isinstance(one, s.Function)}
        for name, (type_, at) in signatures.items():
            if name in functions:
                functions[name].signature = type_
            elif name in by_name:
                self.complain(at, f"`{name}` is bound by a pattern, which can't have a signature in the language")
            else:
                self.complain(at, f"`{name}` has a signature and no equation here")

    def complain(self, at, sentence):
        """A message after which the parse goes on."""
        self.messages.append(Message(at[0], at[1], sentence))

    def right(self, sign):
        """A right side behind `=` or `->`, with guards or without, and its `where`, whose fixities hold in all of it."""
        state, outer_doubted = self.state(), self.doubted
        self.trials, self.doubted = self.trials + 1, False
        try:
            found, fixities = self.right_once(sign)
        finally:
            self.trials -= 1
        again, self.doubted = self.doubted or fixities, outer_doubted
        if not again:
            return found
        self.go_back(state)
        with self.scope():
            self.fixities = {**self.fixities, **fixities}
            return self.right_once(sign)[0]

    def right_once(self, sign):
        """A right side, parsed with the fixities of before, and those that its `where` changes."""
        at, alternatives = self.peek().at, []
        if self.at("|"):
            while self.accept("|"):
                with self.scope():
                    alternatives.append(self.guarded_alternative(sign))
        else:
            self.expect(sign, "before the right side")
            alternatives.append(([], self.expression()))
        before = self.fixities
        with self.scope():
            where = self.declarations() if self.accept("where") else []
            fixities = {name: one for name, one in self.fixities.items() if before.get(name, USUAL) != one}
        return s.Right(alternatives, where, at), fixities

    def guarded_alternative(self, sign):
        """Guards with the expression behind them."""
        guards = [self.guard()]
        while self.accept(","):
            guards.append(self.guard())
        self.expect(sign, "behind the guards")
        return guards, self.expression()

    def guard(self):
        """A guard: a condition, `pattern <- expression` or `let ..`."""
        token = self.peek()
        if self.at("let"):
            state, outer = self.state(), self.fixities
            self.take()
            found = self.declarations()
            if not self.at("in"):
                return s.LetGuard(found, token.at)
            self.fixities = outer
            self.go_back(state)
        if self.pattern_ahead():
            pattern = self.pattern()
            self.expect("<-", "behind the pattern of a guard")
            return s.Guard(pattern, self.expression(), token.at)
        return s.Guard(None, self.expression(), token.at)

    def pattern_ahead(self):
        """Whether `<-` stands in this guard, outside of parentheses."""
        depth, ahead = 0, 0
        while True:
            token = self.peek(ahead)
            if token.kind == "end" or depth == 0 and token.text in (",", "=", "->", "|", "then", "else", "of"):
                return False
            if depth == 0 and token.text == "<-" and token.kind == "word":
                return True
            depth += {"(": 1, "[": 1, ")": -1, "]": -1}.get(token.text, 0) if token.kind == "special" else 0
            if depth < 0:
                return False
            ahead += 1

    # Patterns

    def pattern(self):
        """A pattern, with constructor operators ordered by their fixities."""
        return self.chain(self.operator_pattern_part, self.pattern_operator, self.join_pattern)

    def operator_pattern_part(self):
        """A constructor with arguments, or an argument pattern."""
        token = self.peek()
        if self.at("-"):
            refuse(token.at, NO_NUMBER)
        if token.kind == "type":
            name = self.type_name("a constructor")
            if self.at("{"):
                return self.any_fields(name, token)
            arguments = []
            while self.begins_apattern():
                arguments.append(self.apattern())
            return s.PCon(name, arguments, token.at)
        return self.apattern()

    def pattern_operator(self):
        """A constructor operator where one stands here, else None."""
        token = self.peek()
        if token.text == ":" and token.kind == "word" or token.kind == "sign" and token.text.startswith(":"):
            self.take()
            return token.text, token.at
        if token.text == "`" and self.peek(1).kind == "type":
            self.take()
            name = self.type_name("a constructor")
            self.expect("`", "behind the constructor")
            return f"`{name}`", token.at
        return None

    def join_pattern(self, name, at, left, right):
        """A constructor operator with two patterns."""
        return s.PCon(name.strip("`"), [left, right], at)

    def begins_apattern(self):
        """Whether an argument pattern begins here."""
        token = self.peek()
        return token.kind in ("name", "type", "number", "text") or self.at("(", "[", "_", "~", "!")

    def apattern(self):
        """A variable, `_`, a constructor, a numeral, a list, a tuple, `x@p`, or a pattern in parentheses."""
        token = self.peek()
        if token.kind == "name" or self.operator_name_ahead():
            name = self.variable("a variable")
            self.bind(name)
            if self.accept("@"):
                return s.PAs(name, self.apattern(), token.at)
            return s.PVar(name, token.at)
        if self.accept("_"):
            return s.PWild(token.at)
        if token.kind == "type":
            name = self.type_name("a constructor")
            if self.at("{"):
                return self.any_fields(name, token)
            return s.PCon(name, [], token.at)
        if token.kind == "number":
            return s.PLit(self.number(), token.at)
        if token.kind == "text":
            refuse(token.at, NO_TEXTS)
        if self.accept("["):
            return self.list_pattern(token)
        if self.accept("("):
            return self.pattern_in_parentheses(token)
        if self.at("~"):
            refuse(token.at, "lazy patterns are no part of the language: leave out the `~`, or use `fst` and `snd`")
        if self.at("!"):
            refuse(token.at, "bang patterns are no part of the language: leave out the `!`")
        return self.wanted("a pattern is wanted")

    def any_fields(self, name, token):
        """The pattern `C {}`, which matches whatever the fields of the constructor are; other records are refused."""
        brace = self.take()
        if not self.accept("}"):
            refuse(brace.at, "records are no part of the language: give the fields by their places")
        return s.PCon(name, [], token.at, any_fields=True)

    def list_pattern(self, token):
        """What stands behind `[` in a pattern."""
        parts = []
        while not self.at("]"):
            parts.append(self.pattern())
            if not self.accept(","):
                break
        self.expect("]", "behind the members of the list")
        result = s.PCon("[]", [], token.at)
        for part in reversed(parts):
            result = s.PCon(":", [part, result], token.at)
        return result

    def pattern_in_parentheses(self, token):
        """What stands behind `(` in a pattern."""
        if self.accept(")"):
            return s.PCon("()", [], token.at)
        parts = [self.pattern()]
        while self.accept(","):
            parts.append(self.pattern())
        if self.at("->"):
            refuse(self.peek().at, "view patterns are no part of the language: use a guard `pattern <- expression`")
        if self.at("::"):
            refuse(self.peek().at, "a type can't stand in a pattern: write a signature for the function")
        self.expect(")", "behind the pattern")
        if len(parts) == 1:
            return parts[0]
        if len(parts) > MOST_PARTS:
            refuse(token.at, f"a tuple has at most {MOST_PARTS} parts in the language")
        return s.PCon(s.tuple_name(len(parts)), parts, token.at)

    def number(self):
        """A numeral from 0 to 20."""
        token = self.take()
        if not token.text.isdigit() or int(token.text) > 20:
            refuse(token.at, NO_NUMBER)
        return int(token.text)

    # Expressions

    def operator_name_ahead(self):
        """Whether an operator that is no constructor stands here in parentheses."""
        inner = self.peek(1)
        return self.at("(") and inner.kind == "sign" and not inner.text.startswith(":") and self.peek(2).text == ")"

    def variable(self, what):
        """A variable's name, or an operator in parentheses."""
        token = self.peek()
        if token.kind == "name":
            if "." in token.text:
                refuse(token.at, f"qualified names are no part of the language: write `{token.text.rsplit('.', 1)[1]}`")
            return self.take().text
        if token.text == "(" and self.peek(1).kind == "sign" and self.peek(2).text == ")":
            self.take()
            name = self.take().text
            self.take()
            return name
        return self.wanted(f"{what} is wanted")

    def operator(self):
        """An operator: a sign, or a name in backquotes."""
        if self.accept("`"):
            token = self.peek()
            name = self.type_name("a name") if token.kind == "type" else self.variable("a name")
            self.expect("`", "behind the name")
            return name
        token = self.peek()
        if token.kind == "sign" or token.text == ":":
            return self.take().text
        return self.wanted("an operator is wanted")

    def expression(self):
        """An expression, with its type where one is written."""
        at = self.peek().at
        inner = self.operators()
        if self.accept("::"):
            return s.Annotated(inner, self.qualified(), at)
        return inner

    def operators(self):
        """Applications with operators between them."""
        return self.chain(self.prefix, self.expression_operator, self.join)

    def chain(self, part, operator, join):
        """Parts with operators between them, ordered by fixities: a stack of what waits for its right part."""
        parts, waiting = [part()], []
        while True:
            found = operator()
            if not found:
                break
            name, at = found
            side, level = self.fixity(name)
            while waiting:
                other, other_at = waiting[-1]
                other_side, other_level = self.fixity(other)
                if other_level == level and (side != other_side or side == "infix"):
                    self.unordered(at, f"`{name.strip('`')}` and `{other.strip('`')}` bind equally: put parentheses")
                if other_level > level or other_level == level and side == "infixl":
                    waiting.pop()
                    right, left = parts.pop(), parts.pop()
                    parts.append(join(other, other_at, left, right))
                else:
                    break
            waiting.append((name, at))
            if join == self.join and self.section_ends():
                return self.left_section(parts, waiting, join)
            parts.append(part())
        while waiting:
            name, at = waiting.pop()
            right, left = parts.pop(), parts.pop()
            parts.append(join(name, at, left, right))
        return parts[0]

    def fixity(self, name):
        """The side and the level of an operator."""
        return self.fixities.get(name, USUAL)

    def section_ends(self):
        """Whether a parenthesis closes here, behind an operator."""
        return self.at(")")

    def left_section(self, parts, waiting, join):
        """A left section `(e op`: all that waits binds more than the last operator, or it is refused."""
        name, at = waiting.pop()
        if waiting:
            self.unordered(at, f"the section's operator `{name.strip('`')}` binds more than what stands before it: put "
                           "parentheses")
        return s.App(operator_node(name, at), parts[0], at)

    def expression_operator(self):
        """An operator where one stands here, else None; names in backquotes keep them, for their fixities."""
        token = self.peek()
        if token.kind == "sign":
            if token.text == "!":
                refuse(token.at, "`!` is not known: arrays are no part of the language")
            self.take()
            return token.text, token.at
        if token.text == ":" and token.kind == "word":
            self.take()
            return token.text, token.at
        if token.text == "`" and token.kind == "special":
            return f"`{self.operator()}`", token.at
        if self.at("~", "@"):
            self.wanted("it stands in patterns alone")
        return None

    def join(self, name, at, left, right):
        """An operator with its two arguments; the place of the whole is where it begins."""
        return s.App(s.App(operator_node(name, at), left, left.at), right, left.at)

    def prefix(self):
        """A lambda, `let`, `if`, `case`, or an application."""
        token = self.peek()
        if self.at("\\"):
            return self.lambda_()
        if self.accept("let"):
            with self.scope():
                declarations = self.declarations()
                self.expect("in", "behind the declarations of `let`")
                return s.Let(declarations, self.expression(), token.at)
        if self.accept("if"):
            return self.if_(token)
        if self.accept("case"):
            scrutinee = self.expression()
            self.expect("of", "behind what `case` looks at")
            clauses = self.stream.block(self.alternative)
            if not clauses:
                refuse(token.at, "a `case` without alternatives is no part of the language")
            return s.Case(scrutinee, clauses, token.at)
        if self.at("do"):
            refuse(token.at, "`do` is no part of the language: write the functions out that it stands for")
        if self.at("-"):
            refuse(token.at, NO_NUMBER)
        return self.application()

    def lambda_(self):
        """A lambda."""
        at = self.take().at
        if self.at("case"):
            refuse(at, "`\\case` is no part of the language: write `\\x -> case x of`")
        with self.scope():
            patterns = [self.apattern()]
            while not self.at("->"):
                patterns.append(self.apattern())
            self.take()
            right = s.Right([([], self.expression())], [], at)
        return s.Lam(s.Clause(patterns, right, at), at)

    def if_(self, token):
        """A condition with its branches; `;` may stand before `then` and `else` in braces alone."""
        if self.at("|"):
            refuse(token.at, "an `if` with guards is no part of the language: write a `case` or guards of a function")
        condition = self.expression()
        self.expect("then", "behind the condition")
        yes = self.expression()
        self.expect("else", "behind the first branch")
        return s.If(condition, yes, self.expression(), token.at)

    def alternative(self):
        """An alternative of a `case`."""
        at = self.peek().at
        with self.scope():
            pattern = self.pattern()
            return s.Clause([pattern], self.right("->"), at)

    def application(self):
        """Atoms side by side."""
        result = self.atom()
        while self.begins_atom():
            argument = self.prefix() if self.at("\\", "let", "if", "case") else self.atom()
            result = s.App(result, argument, result.at)
        return result

    def begins_atom(self):
        """Whether an atom begins here."""
        return self.peek().kind in ("name", "type", "number", "text") or self.at("(", "[", "_", "do")

    def atom(self):
        """A name, a constructor, a numeral, a list, a tuple, a section, or an expression in parentheses."""
        token = self.peek()
        if token.kind == "name":
            return s.Var(self.variable("a name"), token.at)
        if token.kind == "type":
            name = self.type_name("a constructor")
            if self.at("{"):
                refuse(self.peek().at, "records are no part of the language: give the fields by their places")
            return s.Con(name, token.at)
        if token.kind == "number":
            return s.Lit(self.number(), token.at)
        if token.kind == "text":
            refuse(token.at, NO_TEXTS)
        if self.accept("["):
            return self.list(token)
        if self.accept("("):
            return self.in_parentheses(token)
        if self.at("_"):
            refuse(token.at, "`_` stands in patterns alone: write an expression")
        if self.at("do"):
            refuse(token.at, "`do` is no part of the language: write the functions out that it stands for")
        return self.wanted("an expression is wanted")

    def list(self, token):
        """What stands behind `[`."""
        parts = []
        while not self.at("]"):
            parts.append(self.expression())
            if self.at(".."):
                refuse(token.at, "`[a ..]` is no part of the language: write a function that makes the list")
            if self.at("|"):
                refuse(token.at, "comprehensions are no part of the language: use `map`, `filter` and `concatMap`")
            if not self.accept(","):
                break
        self.expect("]", "behind the members of the list")
        result = s.Con("[]", token.at)
        for part in reversed(parts):
            result = s.App(s.App(s.Con(":", token.at), part, token.at), result, token.at)
        return result

    def in_parentheses(self, token):
        """What stands behind `(`: the unit, an operator, a section, a tuple or an expression."""
        if self.accept(")"):
            return s.Con("()", token.at)
        if self.at(","):
            return self.tuple_constructor(token)
        if self.operator_here():
            return self.operator_or_section(token)
        parts = [self.expression()]
        while self.accept(","):
            if self.at(")"):
                refuse(self.peek().at, "tuple sections are no part of the language: write a lambda")
            parts.append(self.expression())
        self.expect(")", "behind the expression")
        if len(parts) == 1:
            return parts[0]
        if len(parts) > MOST_PARTS:
            refuse(token.at, f"a tuple has at most {MOST_PARTS} parts in the language")
        result = s.Con(s.tuple_name(len(parts)), token.at)
        for part in parts:
            result = s.App(result, part, token.at)
        return result

    def tuple_constructor(self, token):
        """The constructor `(,)`, `(,,)` .. as a function."""
        count = 1
        while self.accept(","):
            count += 1
        self.expect(")", "behind the commas")
        if count > MOST_PARTS:
            refuse(token.at, f"a tuple has at most {MOST_PARTS} parts in the language")
        return s.Con(s.tuple_name(count), token.at)

    def operator_here(self):
        """Whether an operator stands behind the parenthesis; `-` begins a negative number there."""
        token = self.peek()
        return token.kind == "sign" or token.text == ":" and token.kind == "word" or token.text == "`"

    def operator_or_section(self, token):
        """An operator in parentheses, or a right section `(op e)`: the function that puts its argument before."""
        name, at = self.expression_operator()
        if self.accept(")"):
            return operator_node(name, at)
        if name == "-":
            refuse(at, NO_NUMBER)
        right = self.operators_above(name, at)
        self.expect(")", "behind the section")
        body = s.App(s.App(operator_node(name, at), s.Var("x'", at), at), right, at)
        clause = s.Clause([s.PVar("x'", at)], s.Right([([], body)], [], at), at)
        return s.Lam(clause, token.at)

    def operators_above(self, name, at):
        """The operand of a right section, whose operators bind more than the section's."""
        lowest, (side, level) = [], self.fixity(name)

        def operator():
            found = self.expression_operator()
            if found:
                lowest.append(found)
            return found

        result = self.chain(self.prefix, operator, self.join)
        for other, other_at in lowest:
            other_side, other_level = self.fixity(other)
            if other_level < level or other_level == level and not (side == other_side == "infixr"):
                self.unordered(other_at, f"`{other.strip('`')}` binds less than the section's operator: put parentheses")
        return result


def operator_node(name, at):
    """The node of an operator by its sign, or its name in backquotes."""
    bare = name.strip("`")
    return s.Con(bare, at) if bare[0] == ":" or bare[0].isupper() else s.Var(bare, at)


def counted(number):
    """`1 argument`, `2 arguments`."""
    return f"{number} argument" + ("" if number == 1 else "s")


def parse_module(text):
    """The syntax tree of a module, or `Refused` with all of its errors of syntax."""
    return Parser(text).module()
