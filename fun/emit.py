"""From rules to the text of a system: names that a reader knows again, sorts, symbols, and rules with their lines."""

import fun
from fun import core, prelude, types
from fun.core import App, Con, Lam, Ref, Var
from fun.messages import Message, Refused
from fun.types import ARROW, LIST, UNIT, shown

KEYWORDS = frozenset(["sort", "fun", "rule"])
MOST_BYTES = 64
MOST_ARGUMENTS = 32  # of a symbol, and variables of a rule
MOST_SORT_SIZE = 60
SIGN_WORDS = {
    "++": "append", "+": "plus", "*": "times", "-": "minus", "&&": "and", "||": "or", ".": "compose", "$": "apply",
    "==": "eq", "/=": "ne", "<": "lt", "<=": "le", ">": "gt", ">=": "ge",
}
LETTER_WORDS = {
    "!": "bang", "#": "hash", "$": "dollar", "%": "percent", "&": "amp", "*": "star", "+": "plus", ".": "dot",
    "/": "slash", "<": "lt", "=": "eq", ">": "gt", "?": "ask", "@": "at", "\\": "back", "^": "hat", "|": "bar",
    "-": "minus", "~": "tilde", ":": "colon",
}
SORT_WORDS = {"[]": "List", "()": "Unit", "(,)": "Pair", "(,,)": "Triple", "->": "Fun"}
CONSTRUCTOR_WORDS = {"[]": "Nil", ":": "Cons", "()": "Unit", "(,)": "Pair", "(,,)": "Triple"}


def plain(name):
    """A name of the program as a name of a system: operators become words."""
    if name[0].isalpha() or name[0] == "_":
        return name
    if name in SIGN_WORDS:
        return SIGN_WORDS[name]
    if name.startswith("(,"):
        return f"Tuple{len(name) - 1}"
    return "_".join(LETTER_WORDS.get(letter, "sign") for letter in name)


def type_word(type_):
    """A type as a part of a name: `ListNat`."""
    if type_.data is ARROW:
        return f"{type_word(type_.arguments[0])}To{type_word(type_.arguments[1])}"
    word = SORT_WORDS.get(type_.data.name) or plain(type_.data.name)
    return word + "".join(type_word(one) for one in type_.arguments)


class Namer:
    """Gives names: each once, at most 64 bytes, with a quote where another has the name."""

    def __init__(self):
        self.taken = set(KEYWORDS)

    def fresh(self, wanted):
        """A name that is like the wanted one and free."""
        if len(wanted) > MOST_BYTES - 4:
            wanted = wanted[: MOST_BYTES - 8]
        name = wanted
        while name in self.taken and len(name) < len(wanted) + 3:
            name += "'"
        number = 2
        while name in self.taken:
            name, number = f"{wanted}_{number}", number + 1
        self.taken.add(name)
        return name


def differing(lists):
    """The places at which lists of types differ; all where they have different lengths."""
    if len({len(one) for one in lists}) > 1:
        return range(max(len(one) for one in lists))
    return [place for place in range(len(lists[0])) if len({one[place] for one in lists}) > 1]


class Names:
    """The names of all sorts, constructors and symbols of a system."""

    def __init__(self, sorts, symbols):
        self.sort_names = {}
        self.con_names = {}
        self.symbol_names = {}
        self.name_sorts(sorts)
        self.symbol_namer = Namer()
        self.name_constructors(sorts)
        self.name_symbols(symbols)

    def name_sorts(self, sorts):
        """Sorts by their data types; with the arguments that differ, where there are several."""
        namer, groups = Namer(), {}
        for one in sorts:
            groups.setdefault(one.data, []).append(one)
        for data, members in groups.items():
            places = differing([one.arguments for one in members])
            for one in members:
                word = SORT_WORDS.get(data.name) or plain(data.name)
                suffix = "".join("_" + type_word(one.arguments[place]) for place in places)
                self.sort_names[one] = namer.fresh(word + suffix)
        self.suffixes = {one: differing([other.arguments for other in groups[one.data]]) for one in sorts}

    def name_constructors(self, sorts):
        """Constructors, with the same suffixes as their sorts."""
        for one in sorts:
            suffix = "".join("_" + type_word(one.arguments[place]) for place in self.suffixes[one])
            for info in one.data.constructors:
                word = CONSTRUCTOR_WORDS.get(info.name) or plain(info.name)
                self.con_names[info, one.arguments] = self.symbol_namer.fresh(word + suffix)

    def name_symbols(self, symbols):
        """Functions first, then what belongs to them; with the types that differ, where there are several."""
        groups = {}
        for symbol in symbols:
            groups.setdefault((symbol.parent, base_word(symbol)), []).append(symbol)
        for symbol in symbols:
            self.name_symbol(symbol, groups)

    def name_symbol(self, symbol, groups):
        """The name of a symbol, after that of the one that it belongs to."""
        if symbol in self.symbol_names:
            return self.symbol_names[symbol]
        members = groups.get((symbol.parent, base_word(symbol)), [symbol])
        word = plain(base_word(symbol))
        if len(members) > 1:
            lists = [types_that_tell(one) for one in members]
            own = types_that_tell(symbol)
            word += "".join("_" + type_word(own[place]) for place in differing(lists) if place < len(own))
        if symbol.parent is not None:
            word = f"{self.name_symbol(symbol.parent, groups)}_{word}"
        self.symbol_names[symbol] = self.symbol_namer.fresh(word)
        return self.symbol_names[symbol]

    def type(self, type_, inner=False):
        """A type as a system has it."""
        if type_.data is ARROW:
            text = f"{self.type(type_.arguments[0], True)} -> {self.type(type_.arguments[1])}"
            return f"({text})" if inner else text
        return self.sort_names[type_]


def base_word(symbol):
    """The name of a symbol without what tells instances apart."""
    if symbol.method is not None and symbol.kind != "copy":
        return symbol.method[0]
    return symbol.base.rstrip("'") if symbol.kind == "known" else symbol.base


def types_that_tell(symbol):
    """The types that tell instances of one function apart."""
    return (symbol.method[1],) if symbol.method is not None and symbol.kind != "copy" else symbol.types


# What a system has


def sorts_of_type(type_, found):
    """Puts the data types of a type into an ordered table."""
    if type_.data is ARROW:
        for one in type_.arguments:
            sorts_of_type(one, found)
    else:
        found[type_] = True


def closed_sorts(found):
    """All sorts, with those of the fields of their constructors."""
    order, waiting = [], list(found)
    seen = set(waiting)
    while waiting:
        one = waiting.pop(0)
        order.append(one)
        if size(one) > MOST_SORT_SIZE:
            line, column = one.data.at if one.data.at[0] else (1, 1)
            raise Refused([Message(line, column, f"`{one.data.name}` has within it ever larger types of its own (a nested data "
                                   "type), which is no part of the language")])
        more = {}
        for info in one.data.constructors:
            fields, _ = core.split_arrows(Con(info, one.arguments).type, info.arity)
            for field in fields:
                sorts_of_type(field, more)
        for other in more:
            if other not in seen:
                seen.add(other)
                waiting.append(other)
    return order


def size(type_):
    """How many names a type has."""
    return 1 + sum(size(one) for one in type_.arguments)


def types_in(term, found):
    """Puts the sorts of all parts of a term into a table."""
    for one in core.walk(term):
        if isinstance(one, (Var, Con)):
            if one.type not in found:
                sorts_of_type(one.type, found)
        elif isinstance(one, Lam):
            for parameter in one.parameters:
                sorts_of_type(parameter.type, found)


def symbols_in(term):
    """The symbols of a term."""
    return [one.symbol for one in core.walk(term) if isinstance(one, Ref)]


def reachable(roots, rules):
    """The symbols that these call, in the order of the rules."""
    seen, waiting = set(roots), list(roots)
    while waiting:
        for rule in rules.get(waiting.pop(), ()):
            for symbol in symbols_in(rule.right):
                if symbol not in seen:
                    seen.add(symbol)
                    waiting.append(symbol)
    return [symbol for symbol in rules if symbol in seen] + [symbol for symbol in seen if symbol not in rules]


class Writer:
    """Writes terms and rules."""

    def __init__(self, names):
        self.names = names
        self.symbols = names.symbol_namer.taken

    def metas(self, rule):
        """Names for the variables of a rule's left side and of its lambdas."""
        taken, table = {}, {}
        for pattern in rule.patterns:
            for one in core.walk(pattern):
                if isinstance(one, Var) and one not in table:
                    table[one] = self.free_name(one.base, taken)
        for one in core.walk(rule.right):
            if isinstance(one, Lam):
                for parameter in one.parameters:
                    if parameter not in table:
                        table[parameter] = self.free_name(parameter.base, taken)
        return table

    def free_name(self, base, taken):
        """A name that no symbol and no variable in sight has."""
        name = plain(base)[:56] if base != "_" else "x"
        wanted = name
        number = 2
        while name in taken or name in self.symbols:
            if len(name) < len(wanted) + 2:
                name += "'"
            else:
                name, number = f"{wanted}{number}", number + 1
        taken[name] = True
        return name

    def term(self, node, table, inner=False):
        """A term; `inner` where it is an argument."""
        if isinstance(node, Var):
            return table[node]
        if isinstance(node, Ref):
            return self.names.symbol_names[node.symbol]
        if isinstance(node, Con):
            return self.names.con_names[node.info, node.types]
        if isinstance(node, Lam):
            binders = "".join(f"\\{table[one]}:{self.names.type(one.type, True)}." for one in node.parameters)
            return f"({binders}{self.term(node.body, table)})"
        text = " ".join([self.term(node.function, table, True)] + [self.term(one, table, True) for one in node.arguments])
        return f"({text})" if inner else text

    def rule(self, rule):
        """A rule, with the variables of its left side declared."""
        table = self.metas(rule)
        variables = []
        if len(rule.patterns) > MOST_ARGUMENTS:
            raise Refused([Message(rule.line or 1, 1, f"`{rule.symbol.function}` would become a symbol with {len(rule.patterns)} "
                                   f"arguments, and a system has at most {MOST_ARGUMENTS}: put some into a data type")])
        for pattern in rule.patterns:
            variables += [one for one in core.walk(pattern) if isinstance(one, Var) and one not in variables]
        if len(variables) > MOST_ARGUMENTS:
            raise Refused([Message(rule.line or 1, 1, f"a rule of `{rule.symbol.function}` would have {len(variables)} variables, and "
                                   f"a system has at most {MOST_ARGUMENTS} in a rule: use a function for a part of it")])
        declared = ", ".join(f"{table[one]}:{self.names.type(one.type)}" for one in variables)
        left = " ".join([self.names.symbol_names[rule.symbol]] + [self.term(one, table, True) for one in rule.patterns])
        return f"rule {{{declared}}} {left} => {self.term(rule.right, table)};"


class Emitter:
    """Writes systems: the whole one and those of single functions."""

    def __init__(self, module, rules, roots, text):
        self.module = module
        self.rules = rules
        self.roots = roots
        self.lines = text.split("\n")
        self.sorts_by_symbol = {}
        self.symbols = reachable([symbol for _, symbol in roots], rules)
        self.sorts = self.sorts_of(self.symbols)
        self.names = Names(self.sorts, self.symbols)
        self.writer = Writer(self.names)
        self.by_name = {name: symbol for symbol, name in self.names.symbol_names.items()}
        self.texts = {}

    def sorts_of(self, symbols):
        """The sorts of symbols and of their rules."""
        found = {}
        for symbol in symbols:
            if symbol not in self.sorts_by_symbol:
                self.sorts_by_symbol[symbol] = self.sorts_of_symbol(symbol)
            found.update(self.sorts_by_symbol[symbol])
        return closed_sorts(found)

    def sorts_of_symbol(self, symbol):
        """The sorts of one symbol and of its rules."""
        found = {}
        sorts_of_type(symbol.type, found)
        for rule in self.rules.get(symbol, ()):
            for pattern in rule.patterns:
                types_in(pattern, found)
            types_in(rule.right, found)
        return found

    def comment(self, rule):
        """The line of the program above a rule."""
        if rule.line and rule.line <= len(self.lines):
            return f"# {rule.line}: {self.lines[rule.line - 1].strip()}"
        return f"# {words_of(top_of(rule.symbol))}"

    def system(self, symbols):
        """The system of symbols that call no others."""
        sorts = self.sorts_of(symbols)
        lines = [f"# From the module {self.module}."]
        lines += [f"sort {self.names.sort_names[one]};" for one in sorts]
        for one in sorts:
            for info in one.data.constructors:
                lines.append(f"fun {self.names.con_names[info, one.arguments]} : {self.names.type(Con(info, one.arguments).type)};")
        for symbol in symbols:
            lines.append(f"fun {self.names.symbol_names[symbol]} : {self.names.type(symbol.type)};")
        rules = []
        for symbol in symbols:
            for rule in self.rules.get(symbol, ()):
                text = self.text_of(rule)
                rules.append(fun.Rule(self.names.symbol_names[symbol], rule.line, text))
                lines += [self.comment(rule), text]
        return fun.System("\n".join(line.encode("ascii", "replace").decode() for line in lines) + "\n", rules)

    def text_of(self, rule):
        """The text of a rule, made once."""
        if id(rule) not in self.texts:
            self.texts[id(rule)] = self.writer.rule(rule)
        return self.texts[id(rule)]

    def part(self, name):
        """The system of one symbol with all that it calls."""
        return self.system(reachable([self.by_name[name]], self.rules))

    def functions(self):
        """The exported functions, with an entry for each instance."""
        found = []
        for node, symbol in self.roots:
            found.append(fun.Function(node.name, types.shown_scheme(node.scheme), shown(symbol.type),
                                      self.names.symbol_names[symbol], node.at[0]))
        return found

    def origins(self):
        """Where each symbol comes from."""
        found = {}
        for (info, _), name in self.names.con_names.items():
            found[name] = fun.Origin(info.name, "constructor", info.data.at[0], f"the constructor {info.name}")
        for symbol, name in self.names.symbol_names.items():
            found[name] = fun.Origin(symbol.function, symbol.kind, symbol.line, words_of(symbol))
        return found


def words_of(symbol):
    """What a symbol is, for a reader."""
    place = f" in line {symbol.line}" if symbol.line else ""
    if symbol.kind == "case":
        return f"the choice{place} of {symbol.function}"
    if symbol.kind == "let":
        return f"the binding{place} of {symbol.function}"
    if symbol.kind == "local":
        return f"the local function {symbol.base}{place} of {symbol.function}"
    if symbol.kind == "copy":
        return symbol.words or f"{symbol.function} for a function that is known"
    if symbol.kind == "known":
        if symbol.method is not None:
            return f"{symbol.method[0]} at the type {shown(symbol.method[1])}"
        module = "Nat" if symbol.function in prelude.NAT_NAMES + prelude.NAT_ARITHMETIC else "the Prelude"
        return f"{symbol.function.rstrip(chr(39))} of {module}"
    return f"the function {symbol.function}"


# Warnings


def warnings_of(program, maker, emitter, printer):
    """What a reader of the answers has to know, in the order of the lines."""
    found = set()
    present = set(emitter.symbols)
    for owner, line, symbol, patterns in maker.uncovered:
        if symbol in present and line and top_of(owner).kind != "known":
            shape = printer.patterns(symbol, patterns)
            what = "no alternative covers" if symbol.kind in ("case", "let") else "no equation covers"
            found.add(fun.Warning(line, owner.function, "uncovered", f"{what} `{shape}`: the program stops there with an error"))
    for owner, line in maker.strict:
        if owner in present:
            found.add(fun.Warning(line, owner.function, "strict", "this pattern is matched as soon as its branch is reached; "
                                  "Haskell waits until a variable of it is needed"))
    for node, variable, name in program.defaults:
        found.add(fun.Warning(node.at[0], node.name, "default", f"no use says what `{variable}` is in the type "
                              f"`{types.shown_scheme(node.scheme)}`: it is taken as `{name}`"))
    for symbol in emitter.symbols:
        if symbol.kind in ("function", "local") and symbol.arity == len(symbol.extra) and symbol.recursive:
            found.add(fun.Warning(symbol.line, symbol.function, "lazy", f"`{symbol.base}` is a value that uses itself: evaluated to "
                                  "the end it runs for ever, while a lazy program takes the parts that it needs"))
    return sorted(found, key=lambda one: (one.line, one.function, one.kind, one.sentence))


def top_of(symbol):
    """The function that a symbol belongs to."""
    while symbol.parent is not None:
        symbol = symbol.parent
    return symbol


def emit(program, text, options):
    """The translation of a program whose functions are made."""
    from fun import copies, express, rules, simplify, unfold

    simplify.simplify_all(program)
    if options.copies:
        copies.copy_all(program)
    maker = rules.make_rules(program)
    if options.unfold:
        unfold.unfold_all(maker.rules)
    emitter = Emitter(program.typed.name, maker.rules, program.roots, text)
    printer = express.Printer(emitter.names, program.typed.fixities)
    whole = emitter.system(emitter.symbols)
    warnings = warnings_of(program, maker, emitter, printer)
    return fun.Translation(program.typed.name, whole, emitter.functions(), emitter.origins(), warnings, emitter.part,
                           printer.text)
