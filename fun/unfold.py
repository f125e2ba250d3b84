"""Calls on known constructors within right sides are unfolded, where one rule fits and no call is dropped.

`pairs (a : b : r)` becomes the right side of the rule of `pairs` that fits: the proof sees then what is handed on. A
call that the rule drops would be lost, and one that it doubles would be made twice: neither is done.
"""

from fun import core
from fun.core import App, Con, Lam, Ref, Var, copied, is_atom, joined, unbound

MOST_STEPS = 12  # in one right side
MOST_SIZE = 300


def matched(pattern, term, table):
    """Whether a pattern matches a term, with what its variables stand for in the table; False where it can't be told."""
    if isinstance(pattern, Var):
        table[pattern] = term
        return True
    if isinstance(pattern, Con):
        return isinstance(term, Con) and term.info is pattern.info
    if not (isinstance(term, App) and isinstance(term.function, Con) and term.function.info is pattern.function.info):
        return False
    return all(matched(one, other, table) for one, other in zip(pattern.arguments, term.arguments))


class Unfolder:
    """Unfolds calls in the rules of a system."""

    def __init__(self, rules):
        self.rules = rules
        self.left = 0

    def calls(self, term):
        """Whether a symbol with rules stands in a term."""
        return any(isinstance(one, Ref) and self.rules.get(one.symbol) for one in core.walk(term))

    def run(self, term):
        """A term with its calls unfolded, from the inside."""
        if isinstance(term, Lam):
            return Lam(term.parameters, self.run(term.body))
        if not isinstance(term, App):
            return term
        term = joined(self.run(term.function), [self.run(one) for one in term.arguments])
        step = self.step(term) if self.left > 0 else None
        if step is None:
            return term
        self.left -= 1
        return self.run(step)

    def step(self, term):
        """The term after a step at its top, or None."""
        if not (isinstance(term, App) and isinstance(term.function, Ref)):
            return None
        for rule in self.rules.get(term.function.symbol, ()):
            count = len(rule.patterns)
            if len(term.arguments) < count or not any(isinstance(one, (App, Con)) for one in rule.patterns):
                continue
            table = {}
            if all(matched(one, other, table) for one, other in zip(rule.patterns, term.arguments)):
                if not self.keeps_calls(rule, table):
                    return None
                return joined(unbound(copied(rule.right, table)), term.arguments[count:])
        return None

    def keeps_calls(self, rule, table):
        """Whether each call in what the variables stand for is there once behind the step."""
        for variable, value in table.items():
            if isinstance(value, Var) or is_atom(value) and not self.calls(value):
                continue
            count = core.occurrences(rule.right, {variable})
            if count != 1 and self.calls(value):
                return False
        return True

    def rule(self, rule):
        """Unfolds the right side of a rule, unless it gets too large."""
        self.left = MOST_STEPS
        right = self.run(rule.right)
        if self.left < MOST_STEPS and sum(1 for _ in core.walk(right)) <= MOST_SIZE:
            rule.right = right


def unfold_all(rules):
    """Unfolds calls in all rules, by the rules as they were before."""
    unfolder = Unfolder({symbol: list(some) for symbol, some in rules.items()})
    before = {symbol: [type(rule)(rule.symbol, rule.patterns, rule.right, rule.line) for rule in some]
              for symbol, some in rules.items()}
    unfolder.rules = before
    for some in rules.values():
        for rule in some:
            unfolder.rule(rule)
