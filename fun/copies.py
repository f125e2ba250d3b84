"""Functions are copied for the functions that they are given.

A function that hands a functional argument on unchanged, as `map f (x : xs) = f x : map f xs`, is copied for each known
function that a call gives it: a name, a partial application or a lambda. In the copy the function stands in the
argument's place, and the variables that it uses are arguments instead:

    increase n xs = map (\\x -> x + n) xs          becomes  increase n xs = map1 n xs
                                                           map1 n (x : xs) = x + n : map1 n xs

So a proof sees which function is called on what; of `f x` it knows nothing.
"""

from fun import core
from fun.core import App, Con, Function, Lam, Local, Ref, Symbol, Var, apply, is_functional, is_known_function
from fun.simplify import Simplifier
from fun.syntax import components

MOST_COPIES = 600  # of all functions together; no more are made then


def calls_of(node):
    """The calls in an expression: pairs of a symbol and its arguments."""
    found = []
    for one in core.walk(node):
        if isinstance(one, App) and isinstance(one.function, Ref):
            found.append((one.function.symbol, one.arguments))
        elif isinstance(one, Ref):
            found.append((one.symbol, []))
    return found


class Copier:
    """Copies functions, beginning from those that the module exports."""

    def __init__(self, program):
        self.program = program
        self.functions = program.functions
        self.simplifier = Simplifier(program.options)
        self.handed = {}  # symbol to the numbers of the functional arguments that may be copied for
        self.copies = {}  # key to symbol
        self.names = {}
        self.result = {}
        self.waiting = []
        self.find_handed()

    # Which arguments

    def find_handed(self):
        """Finds the functional arguments that no circle of calls changes: all at first, until none is taken out."""
        symbols = list(self.functions)
        calls = {symbol: calls_of(function.body) for symbol, function in self.functions.items()}
        edges = {symbol: {other for other, _ in calls[symbol] if other in self.functions} for symbol in symbols}
        for component in components(symbols, edges):
            members = set(component)
            for symbol in component:
                parameters = self.functions[symbol].parameters
                self.handed[symbol] = {n for n, one in enumerate(parameters) if is_functional(one.type)}
            changed = True
            while changed:
                changed = False
                for symbol in component:
                    for other, arguments in calls[symbol]:
                        if other in members:
                            changed = self.take_out(symbol, other, arguments) or changed

    def take_out(self, symbol, other, arguments):
        """Takes out the arguments that a call within a circle changes; returns whether there are any."""
        parameters = self.functions[symbol].parameters
        gone = set()
        for number in self.handed[other]:
            if number >= len(arguments):
                continue
            argument = arguments[number]
            if isinstance(argument, Var):
                same = argument in parameters and parameters.index(argument) in self.handed[symbol]
                if not same and argument in parameters:
                    gone.add(number)
            elif any(is_functional(one.type) for one in core.free_variables(argument)):
                gone.add(number)
        self.handed[other] -= gone
        return bool(gone)

    # Copies

    def run(self):
        """The functions that are left: the exported ones, and what they call, with calls of copies."""
        for _, symbol in self.program.roots:
            self.keep(symbol)
        while self.waiting:
            function = self.waiting.pop()
            function.body = self.changed(function.body)
        self.program.functions = self.result

    def keep(self, symbol):
        """Notes that a function is called as it is."""
        if symbol in self.functions and symbol not in self.result:
            function = self.functions[symbol]
            self.result[symbol] = own = Function(symbol, function.parameters, function.body)
            self.waiting.append(own)

    def changed(self, node):
        """An expression with copies called where known functions are given."""
        if isinstance(node, Ref):
            self.keep(node.symbol)
            return node
        if isinstance(node, App) and isinstance(node.function, Ref):
            call = self.call(node.function.symbol, node.arguments)
            if call is not None:
                return call
            self.keep(node.function.symbol)
            return App(node.function, [self.changed(one) for one in node.arguments])
        return core.rebuilt(node, self.changed)

    def call(self, symbol, arguments):
        """The call of a copy that a call becomes, or None."""
        places = [number for number in sorted(self.handed.get(symbol, ())) if number < len(arguments)
                  and is_known_function(arguments[number])]
        if not places:
            return None
        numbers, given = {}, {}
        shapes = []
        for number in places:
            given[number] = arguments[number]
            shapes.append(core.canonical(arguments[number], numbers))
        free = [one for number in places for one in core.free_variables(arguments[number])]
        free = sorted(set(free), key=lambda one: numbers[one])
        key = (symbol, tuple(places), tuple(shapes))
        if key not in self.copies:
            if len(self.copies) >= MOST_COPIES:
                return None
            self.copies[key] = self.copy(symbol, given, free)
        copy = self.copies[key]
        rest = [self.changed(one) for number, one in enumerate(arguments) if number not in given]
        values = [self.changed(one) for one in free] + rest
        return App(Ref(copy), values) if values else Ref(copy)

    def copy(self, symbol, given, free):
        """A copy of a function for known functions in the places of some arguments."""
        function = self.functions[symbol]
        table = {one: one.again() for one in free}
        parameters = [table[one] for one in free]
        values = {number: core.copied(one, table) for number, one in given.items()}
        inner = {}
        for number, parameter in enumerate(function.parameters):
            if number in values:
                inner[parameter] = values[number]
            else:
                inner[parameter] = parameter.again()
                parameters.append(inner[parameter])
        body = self.simplifier.run(function.body, inner)
        result = core.split_arrows(symbol.type, len(function.parameters))[1]
        type_ = core.arrows([one.type for one in parameters], result)
        known = next((name for name in map(name_of, values.values()) if name), None)
        new = Symbol(f"{core_name(symbol)}_{known or 'fun'}", type_, len(parameters), symbol.function, "copy", symbol.line)
        new.recursive = symbol.recursive
        new.types = symbol.types
        new.template = (symbol, values, parameters)
        own = self.functions[new] = Function(new, parameters, body)
        self.handed[new] = set()
        if not free:
            self.handed[new] = self.left(function, given)
        self.result[new] = own
        self.waiting.append(own)
        return new

    def left(self, function, given):
        """The functional arguments of a copy that it may be copied for again."""
        rest = [number for number in range(len(function.parameters)) if number not in given]
        old = self.handed[function.symbol]
        return {place for place, number in enumerate(rest) if number in old}


def name_of(value):
    """The name of a known function, or None for a lambda."""
    while isinstance(value, App):
        value = value.function
    if isinstance(value, Ref):
        return core_name(value.symbol)
    if isinstance(value, Con):
        from fun.emit import CONSTRUCTOR_WORDS

        return CONSTRUCTOR_WORDS.get(value.info.name, value.info.name)
    if isinstance(value, Lam) and isinstance(core.unmarked(value.body), App):
        return name_of(core.unmarked(value.body).function)
    return None


def core_name(symbol):
    """The name of a symbol in names of copies."""
    from fun.emit import base_word, plain

    return plain(base_word(symbol))


def copy_all(program):
    """Copies functions for known functional arguments."""
    for function in program.functions.values():
        assert not any(isinstance(one, Local) for one in core.walk(function.body))
    Copier(program).run()
