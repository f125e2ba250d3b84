#!/usr/bin/env python3
"""A checker of lists in the LRAT format that shares nothing with the program.

    bench/lrat.py FORMULA.cnf LIST.lrat

Prints `refuted` where the list shows that the formula has no model, and else the line that is wrong. In each line stand the
number of a clause, its literals and 0, the numbers of its hints and 0. From the negations of the literals each hint but the last
makes one literal more true, and the clause of the last one is false (Cruz-Filipe, Heule, Hunt, Kaufmann and Schneider-Kamp 2017).
"""
import sys


def clauses_of(text):
    """The clauses of a formula in DIMACS form."""
    words = [word for line in text.splitlines() if line[:1] not in ("c", "p") for word in line.split()]
    clause = []
    for number in map(int, words):
        if number:
            clause.append(number)
        else:
            yield clause
            clause = []


def parts(line):
    """The number, the literals and the hints of a line."""
    numbers = list(map(int, line.split()))
    middle = numbers.index(0)
    return numbers[0], numbers[1:middle], numbers[middle + 1:-1]


def follows(clause, hints, known):
    """Whether hints lead from the negations of the literals to a clause that is false."""
    true = {-literal for literal in clause}
    for place, hint in enumerate(hints):
        left = [literal for literal in known.get(hint, ()) if -literal not in true]
        if hint not in known or len(set(left)) > 1:
            return False
        if not left:
            return place == len(hints) - 1
        if left[0] in true:
            return False
        true.add(left[0])
    return False


def check(formula, text):
    """None where the list refutes the formula, else what is wrong."""
    known = dict(enumerate(clauses_of(formula), 1))
    for line in text.splitlines():
        number, clause, hints = parts(line)
        if not follows(clause, hints, known):
            return f"line of clause {number}"
        if not clause:
            return None
        known[number] = clause
    return "no empty clause"


def count(text):
    """How many lines a list has, and how many hints."""
    lines = [parts(line) for line in text.splitlines()]
    return len(lines), sum(len(hints) for _, _, hints in lines)


def main():
    formula, text = (open(name).read() for name in sys.argv[1:3])
    print(check(formula, text) or "refuted")


if __name__ == "__main__":
    main()
