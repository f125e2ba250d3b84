"""The translator of `wanda-fun`: from a part of Haskell 2010 to a system that `wanda` reads.

Nothing is proved of it. What it prints is readable, so that a reader can compare it with the program: above each rule
stands the line of the program that the rule comes from.

    translation = fun.translate(text, path, fun.Options())     # or raises fun.Refused
    print(translation.system, end="")

The way through the modules, in order:

- layout: bytes to tokens, with their lines and columns; parse: tokens to a syntax tree, blocks by their layout;
- types: what each name is, and its type;
- instances: functions at the types where they are used, as expressions of `core`, with local functions lifted (lift);
- match: equations, guards and `case` as one choice after another;
- copies: functions copied for the functions that they are given;
- rules: choices and bindings as symbols with rules of their own; calls on known constructors unfolded;
- emit: names, and the text.
"""

import gc
from dataclasses import dataclass, field

from fun.messages import Message, Refused


@dataclass(frozen=True)
class Options:
    """Which steps are taken. Each that is left out leaves a system of the same program, of which less is proved."""

    conditions: bool = True  # conditions become matches where they can, small functions are written out
    copies: bool = True  # functions are copied for the functions that they are given, small local ones put in place
    patterns: bool = True  # what a choice is given are patterns, where parts and wholes of them are needed
    unfold: bool = True  # calls on known constructors are unfolded
    all_instances: bool = False  # each polymorphic function also at sorts of its own


@dataclass(frozen=True)
class Origin:
    """Where a symbol comes from."""

    function: str  # the function of the program that it belongs to, as `merge`; a constructor's own name
    kind: str  # function, local, case, let, copy, known (of the Prelude or Nat), or constructor
    line: int  # the line in the program; 0 for what the module has not
    words: str  # what it is, for a reader: "the case in line 12 of merge"


@dataclass(frozen=True)
class Function:
    """A function that the module exports, at one instance of its type."""

    name: str  # as the program has it; unique among the functions of a module but for several instances
    type: str  # the type of the program, as Haskell writes it: "Ord a => [a] -> [a]"
    instance: str  # the type that it has in the system: "[Nat] -> [Nat]"; equal to `type` where that has no variables
    symbol: str  # its symbol in the system
    line: int


@dataclass(frozen=True)
class Warning:
    """What a reader of the answer has to know. `kind` is uncovered, strict, default or lazy."""

    line: int
    function: str
    kind: str
    sentence: str


@dataclass(frozen=True)
class Rule:
    """A rule of the system, by its number there."""

    symbol: str
    line: int  # the line of the program that it comes from
    text: str  # the rule as the system has it


@dataclass
class System:
    """A system as a text, and its rules in order, so that the numbers of a certificate lead to lines."""

    text: str
    rules: list[Rule] = field(default_factory=list)


class Translation:
    """A module as a system.

    - `system`: the text of the whole system, with the program's line as a comment above each rule;
    - `rules`: its rules in order; `rule_lines`: the line of each;
    - `functions`: the exported functions, an entry for each instance;
    - `origins`: symbol to `Origin`, for each symbol of the system;
    - `warnings`: a list of `Warning`;
    - `module`: the module's name;
    - `part(symbol)`: the `System` of one exported function (named by its symbol) with all that it calls; its symbols
      and sorts have the names that they have in the whole system;
    - `system_of(name)`: the text of that, for a name of the program (its first instance) or a symbol;
    - `expression(term)`: a term in the syntax of a system or of a certificate, printed in the program's names and
      syntax.
    """

    def __init__(self, module, whole, functions, origins, warnings, part_of, printer):
        self.module = module
        self.system = whole.text
        self.rules = whole.rules
        self.functions = functions
        self.origins = origins
        self.warnings = warnings
        self._part_of = part_of
        self._printer = printer

    @property
    def rule_lines(self):
        """The program's line of each rule of the whole system."""
        return [rule.line for rule in self.rules]

    def part(self, symbol):
        """The system of one symbol with all that it calls."""
        return self._part_of(symbol)

    def system_of(self, name):
        """The text of the system of one exported function with all that it calls."""
        symbol = next((function.symbol for function in self.functions if function.name == name), name)
        return self.part(symbol).text

    def expression(self, term):
        """A term of the system or of a certificate, in the program's names and syntax."""
        return self._printer(term)


def translate(text, path="", options=Options()):
    """The module `text` as a system: a `Translation`; or raises `Refused` with all messages.

    `path` is the file's name, for a reader of messages; a message itself has line and column alone.
    """
    from fun import emit, instances, parse, types  # the modules of the way, when they are wanted

    collects = gc.isenabled()
    gc.disable()  # trees are many and live to the end; looking through them again and again takes a fifth of the time
    try:
        module = parse.parse_module(text)
        typed = types.check_module(module)
        program = instances.make_program(typed, options)
        return emit.emit(program, text, options)
    finally:
        if collects:
            gc.enable()
