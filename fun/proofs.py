"""What `wanda show` and a certificate of termination say, read so that it can be told in the program's words.

`read_shown` has the rules and the dependency pairs of a system. `drops` goes through a certificate and says which pairs
are dropped, and by which means: a projection, which names an argument of each symbol, an interpretation or a path
order. `left_over` says of a system without a certificate which calls have no argument that becomes a part of itself.
"""

import collections
import re
from dataclasses import dataclass

from fun import runs


@dataclass(frozen=True, eq=False)
class Pair:
    """A dependency pair: which call leads to which."""

    number: int
    rule: int
    left: tuple
    right: tuple

    @property
    def caller(self):
        return runs.spine(self.left)[0][1].rstrip("#")

    @property
    def called(self):
        return runs.spine(self.right)[0][1].rstrip("#")


@dataclass(frozen=True)
class Shown:
    """The rules of a system and its pairs, in order."""

    rules: tuple
    pairs: tuple


def metas_of(line):
    """The names of a rule's meta-variables."""
    inside = line[line.index("{") + 1 : line.index("}")]
    return set(re.findall(r"([A-Za-z_][\w']*)\s*:", inside))


def read_shown(text):
    """The rules and pairs that `wanda show` prints."""
    rules, metas, pairs = [], [], []
    for line in text.splitlines():
        if line.startswith("rule "):
            rules.append(runs.read_rule(line))
            metas.append(metas_of(line))
        elif line.startswith("pair "):
            _, number, _, rule, sides = line.split(" ", 4)
            reader = runs.Reader(sides, metas[int(rule)])
            left = reader.term()
            reader.take()
            pairs.append(Pair(int(number), int(rule), left, reader.term()))
    return Shown(tuple(rules), tuple(pairs))


# certificates


@dataclass(frozen=True)
class Drop:
    """Pairs that a node drops. `means` is subterm, poly or order; `places` has the arguments of each symbol that count."""

    means: str
    pairs: tuple
    places: dict

    def before(self, pair):
        """The arguments of the caller that count."""
        return chosen(pair.left, self.places.get(pair.caller, ()))

    def after(self, pair):
        """The arguments of the call that count."""
        return chosen(pair.right, self.places.get(pair.called, ()))


def chosen(call, places):
    """The arguments at these places, counted from 1."""
    parts = runs.spine(call)
    return [parts[it] for it in places if it < len(parts)]


def places_of(line):
    """The symbol of a line of a node, and the arguments that count there, from 1."""
    word, symbol, *rest = line.split()
    if word == "arg":
        return symbol, [int(rest[0])]
    if rest[0] in ("keep", "pick"):
        return symbol, [int(it) for it in rest[1 + (rest[0] == "keep") :]]
    return symbol, sorted({int(it) + 1 for it in re.findall(r"y(\d+)", rest[0])})


def drops(certificate):
    """What the nodes of a certificate drop, in order."""
    found, means, places = [], None, {}
    for line in certificate.splitlines():
        word = line.split(" ", 1)[0]
        if word in ("subterm", "poly", "order"):
            means, places = word, {}
        elif word in ("arg", "mark"):
            symbol, where = places_of(line)
            places[symbol] = where
        elif word == "drop":
            found.append(Drop(means, tuple(int(it) for it in line.split()[1:]), places))
    return found


def argument(call, place):
    """The argument at a place, counted from 1."""
    parts = runs.spine(call)
    return parts[place] if place < len(parts) else None


# what no projection drops


def may_meet(left, right, defined):
    """Whether two arguments may come to be the same: constructors that differ never do."""
    one, other = runs.spine(left), runs.spine(right)
    if one[0][0] != "symbol" or other[0][0] != "symbol" or one[0][1] in defined or other[0][1] in defined:
        return True
    return one[0] == other[0] and all(may_meet(a, b, defined) for a, b in zip(one[1:], other[1:]))


def may_follow(first, second, defined):
    """Whether the call of the first pair may be the one that the second one starts from; both have one symbol."""
    return all(may_meet(a, b, defined) for a, b in zip(runs.spine(first.right)[1:], runs.spine(second.left)[1:]))


def components(pairs, follows):
    """The sets of pairs that may follow one another in a circle (Tarjan 1972)."""
    index, low, stack, found = {}, {}, [], []

    def visit(start):
        work = [(start, iter(follows[start]))]
        index[start] = low[start] = len(index)
        stack.append(start)
        while work:
            at, rest = work[-1]
            step = next((it for it in rest if it not in index or it in stack), None)
            if step is None:
                work.pop()
                if work:
                    low[work[-1][0]] = min(low[work[-1][0]], low[at])
                if low[at] == index[at]:
                    cut = stack.index(at)
                    found.append(stack[cut:])
                    del stack[cut:]
            elif step in index:
                low[at] = min(low[at], index[step])
            else:
                index[step] = low[step] = len(index)
                stack.append(step)
                work.append((step, iter(follows[step])))

    for pair in pairs:
        if pair not in index:
            visit(pair)
    return [it for it in found if len(it) > 1 or it[0] in follows[it[0]]]


def is_part(small, large, defined):
    """Whether `small` is a proper part of `large`, reached through arguments of symbols."""
    parts = runs.spine(large)
    if parts[0][0] != "symbol":
        return False
    return any(small == it or is_part(small, it, defined) for it in parts[1:])


def arities(pairs):
    """How many arguments the calls of each symbol have."""
    found = {}
    for pair in pairs:
        for call in (pair.left, pair.right):
            parts = runs.spine(call)
            found[parts[0][1].rstrip("#")] = len(parts) - 1
    return found


def projection(pairs, defined, budget=20_000):
    """The pairs that some projection drops while it keeps the others, looked for by trying; none where there is none."""
    places = arities(pairs)
    symbols = sorted(places, key=lambda it: -sum(it in (pair.caller, pair.called) for pair in pairs))
    chosen, tried = {}, [budget]

    def fits(pair):
        if pair.caller not in chosen or pair.called not in chosen:
            return True
        before, after = argument(pair.left, chosen[pair.caller]), argument(pair.right, chosen[pair.called])
        return before == after or is_part(after, before, defined)

    def dropped():
        ends = [(argument(it.left, chosen[it.caller]), argument(it.right, chosen[it.called])) for it in pairs]
        return [pair for pair, (before, after) in zip(pairs, ends) if before != after]

    def search(at):
        if at == len(symbols):
            return dropped()
        for place in range(1, places[symbols[at]] + 1):
            tried[0] -= 1
            if tried[0] < 0:
                return []
            chosen[symbols[at]] = place
            if all(fits(pair) for pair in pairs):
                found = search(at + 1)
                if found:
                    return found
            del chosen[symbols[at]]
        return []

    return search(0)


def left_over(shown):
    """The sets of calls that may go on in a circle and of which no projection lets one go."""
    defined = {runs.spine(rule.left)[0][1] for rule in shown.rules}
    starts = collections.defaultdict(list)
    for pair in shown.pairs:
        starts[pair.caller].append(pair)
    follows = {one: [it for it in starts[one.called] if may_follow(one, it, defined)] for one in shown.pairs}
    waiting, found = components(list(shown.pairs), follows), []
    while waiting:
        pairs = waiting.pop()
        gone = projection(pairs, defined)
        if not gone:
            found.append(sorted(pairs, key=lambda it: it.number))
            continue
        rest = [it for it in pairs if it not in gone]
        within = {one: [it for it in follows[one] if it in rest] for one in rest}
        waiting += components(rest, within)
    return sorted(found, key=lambda pairs: pairs[0].number)
