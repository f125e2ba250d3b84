#!/usr/bin/env python3
"""The time of the solver beside that of MiniSat, on formulas in DIMACS form.

    bench/sat.py [--program PATH] [--only WORD] [--seconds N] [--lists]

The program is that of crates/wh_bench_sat, which `rt run` in its folder builds; MiniSat comes from the system's packages.

With --lists it needs no MiniSat. For each formula without a model it then times `solve`, `solve_listed` with the list's text in the
LRAT format, and the check of that list by the program, and has bench/lrat.py check the list as well.

Makes its formulas in a temporary folder: random formulas of three literals a clause at 4.26 clauses a variable, of ten seeds
for each size, pigeonholes, the formulas of projections of a ring of symbols, and formulas that want nothing but propagation. Runs each program three times on each, adds up the
least processor times of each kind, and prints the sums and their ratio.
"""
import argparse
import itertools
import pathlib
import random
import resource
import shutil
import subprocess
import tempfile

import lrat

HERE = pathlib.Path(__file__).resolve().parent
PROGRAM = HERE.parent / "crates" / "wh_bench_sat" / "out" / "wh_bench_sat"
RUNS = 3


def by_chance(variables, seed):
    """Clauses of three different variables each, 4.26 for each variable."""
    source = random.Random(seed)
    clauses = []
    for _ in range(round(4.26 * variables)):
        chosen = source.sample(range(1, variables + 1), 3)
        clauses.append([variable * source.choice((1, -1)) for variable in chosen])
    return variables, clauses


def pigeons(holes):
    """One pigeon more than there are holes."""
    places = [[pigeon * holes + hole + 1 for hole in range(holes)] for pigeon in range(holes + 1)]
    clauses = list(places)
    for hole in range(holes):
        clauses += [[-one[hole], -other[hole]] for one, other in itertools.combinations(places, 2)]
    return holes * (holes + 1), clauses


def units(variables):
    """Nothing but literals."""
    return variables, [[variable] for variable in range(1, variables + 1)]


def chain(variables):
    """Each variable implies the next one, and the last one is false."""
    return variables, [[-variable, variable + 1] for variable in range(1, variables)] + [[-variables]]


def ring(symbols):
    """The projections of a ring of symbols with four arguments, of which the last one gets smaller (examples of the tests)."""
    argument = lambda symbol, place: 4 * symbol + place + 1
    pair = lambda symbol: 4 * symbols + symbol + 1
    clauses = [[argument(symbol, place) for place in range(4)] for symbol in range(symbols)]
    for symbol in range(symbols):
        clauses += [[-argument(symbol, one), -argument(symbol, other)] for one, other in itertools.combinations(range(4), 2)]
    for own in (False, True):
        for symbol in range(symbols):
            for left, right in itertools.product(range(4), range(4)):
                if (left, right) != (3, 3):
                    both = [-argument(symbol, left), -argument((symbol + 1) % symbols, right)]
                    clauses.append(both + [-pair(symbol)] if own else both)
    clauses.append([pair(symbol) for symbol in range(symbols)])
    return 5 * symbols, clauses


def kinds():
    """The formulas, by the name of their kind."""
    for symbols in (30, 300, 1000):
        yield f"ring {symbols}", [ring(symbols)]
    for variables in (100, 150, 200):
        yield f"random {variables}", [by_chance(variables, seed) for seed in range(10)]
    for holes in (6, 7, 8):
        yield f"pigeons {holes}", [pigeons(holes)]
    for variables in (10_000, 20_000):
        yield f"units {variables}", [units(variables)]
        yield f"chain {variables}", [chain(variables)]


def write(path, formula):
    """The formula as a file."""
    variables, clauses = formula
    lines = [f"p cnf {variables} {len(clauses)}"]
    lines += [" ".join(map(str, clause + [0])) for clause in clauses]
    path.write_text("\n".join(lines) + "\n")


def answer_of(text):
    """SAT, UNSAT or SPENT: the last word that either program writes."""
    words = text.split()
    return {"SATISFIABLE": "SAT", "UNSATISFIABLE": "UNSAT"}.get(words[-1], words[-1]) if words else "none"


def processor_time():
    """The processor time of the programs that have ended so far."""
    used = resource.getrusage(resource.RUSAGE_CHILDREN)
    return used.ru_utime + used.ru_stime


def least(command, seconds):
    """The least processor time of some runs, and the answer; after a run that is too long there is no other."""
    best, answer = None, "none"
    for _ in range(RUNS):
        begin = processor_time()
        try:
            done = subprocess.run(command, capture_output=True, text=True, timeout=seconds)
        except subprocess.TimeoutExpired:
            return seconds, "late"
        spent = processor_time() - begin
        best, answer = min(best or spent, spent), answer_of(done.stdout)
    return best, answer


def compare(name, formulas, program, folder, seconds):
    """One line: the sums of the least times over the formulas of a kind."""
    ours, theirs, answers = 0.0, 0.0, []
    for formula in formulas:
        path = folder / "formula.cnf"
        write(path, formula)
        spent, answer = least([program, path], seconds)
        wanted, right = least(["minisat", "-verb=0", path], seconds)
        ours, theirs = ours + spent, theirs + wanted
        answers.append(answer if answer == right else f"{answer}, MiniSat {right}")
    told = ", ".join(f"{answers.count(answer)} {answer}" for answer in sorted(set(answers)))
    print(f"{name:14} {ours:9.3f} s  MiniSat {theirs:9.3f} s  {ours / theirs:7.1f} times  {told}", flush=True)


def list_of(program, path, seconds):
    """The text of the list that refutes a formula, or None."""
    done = subprocess.run([program, path, "list"], capture_output=True, text=True, timeout=seconds)
    return None if done.stdout.startswith("S") else done.stdout


def compare_lists(name, formulas, program, folder, seconds):
    """One line: the sums of the least times for solving, listing and checking, over the formulas of a kind that have no model."""
    solved, listed, checked, entries, hints = 0.0, 0.0, 0.0, 0, 0
    path, file = folder / "formula.cnf", folder / "formula.lrat"
    for formula in formulas:
        write(path, formula)
        text = list_of(program, path, seconds)
        if text is None:
            continue
        file.write_text(text)
        solved += least([program, path], seconds)[0]
        listed += least([program, path, "list"], seconds)[0]
        spent, answer = least([program, path, file], seconds)
        checked += spent
        right = lrat.check(path.read_text(), file.read_text())
        if right is not None or not answer.isdigit():
            raise SystemExit(f"bench/sat.py: {name}: the program says {answer}, bench/lrat.py says {right}")
        entries += lrat.count(file.read_text())[0]
        hints += lrat.count(file.read_text())[1]
    if entries:
        print(f"{name:14} solve {solved:8.3f} s  list {listed:8.3f} s  {listed / solved:5.1f} times  check {checked:8.3f} s  {entries:9} entries {hints:9} hints", flush=True)


def main():
    parser = argparse.ArgumentParser()
    parser.add_argument("--program", default=str(PROGRAM))
    parser.add_argument("--only", default="")
    parser.add_argument("--seconds", type=float, default=60)
    parser.add_argument("--lists", action="store_true")
    options = parser.parse_args()
    if not options.lists and not shutil.which("minisat"):
        raise SystemExit("bench/sat.py: there is no minisat: apt-get install -y minisat")
    with tempfile.TemporaryDirectory() as folder:
        for name, formulas in kinds():
            if options.only in name:
                (compare_lists if options.lists else compare)(name, formulas, options.program, pathlib.Path(folder), options.seconds)


if __name__ == "__main__":
    main()
