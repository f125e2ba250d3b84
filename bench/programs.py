#!/usr/bin/env python3
"""Tries wanda-fun on the programs of examples/programs, and on random modules.

    bench/programs.py [NAME ..]           # compares systems, values and answers with what is stored
    bench/programs.py --quick [NAME ..]   # the same without the answers, which are searched for
    bench/programs.py --write [NAME ..]   # stores the systems and the answers
    bench/programs.py --ghc [NAME ..]     # compares the values with those of GHC, which is to be installed
    bench/programs.py --measure           # prints what each step of the translation brings, as docs/PROGRAMS.md has it
    bench/programs.py --fuzz N            # translates N random modules of each kind (bench/random_programs.py)

Beside a program NAME.hs stand its system, NAME.afs, and the answers for its functions, NAME.answers, as
`wanda-fun --table` prints them without the seconds. At the end of a program stand expressions with their values, each
behind `-- >>>` and with the value below, as GHC shows it. The normal form of the expression and that of the value, by
`wanda reduce`, are to be the same.
"""

import argparse
import collections
import concurrent.futures
import difflib
import hashlib
import json
import os
import pathlib
import re
import subprocess
import sys
import tempfile
import traceback

sys.dont_write_bytecode = True

import random_programs  # noqa: E402 (no bytecode is to be left)

TOP = pathlib.Path(__file__).resolve().parent.parent
sys.path.insert(0, str(TOP))

import fun  # noqa: E402 (the path comes first)
from fun import ask, runs, tell  # noqa: E402

PROGRAMS = TOP / "examples" / "programs"
EXAMPLE = re.compile(r"(?m)^-- >>> (.*)\n-- (.*)$")
HEADER = re.compile(r"(?ms)^module (\w+)(.*?)\bwhere$")
STEPS = 10_000
BEHIND = ["conditions", "copies", "patterns", "unfold"]
TITLES = [
    "equations, case, let and lifting alone",
    "and conditions as matches, small functions written out",
    "and functions copied for known functions, small local ones put in place",
    "and patterns kept as arguments",
    "and calls on known constructors unfolded",
]


def programs(names):
    """The programs of these names, or all."""
    found = sorted(PROGRAMS.glob("*.hs"))
    unknown = set(names) - {it.stem for it in found}
    if unknown:
        sys.exit(f"no program {', '.join(sorted(unknown))}")
    return [it for it in found if not names or it.stem in names]


def translated(text, name, options=fun.Options()):
    """The translation of a module, or None where it is refused or fails, which is told."""
    try:
        return fun.translate(text, name, options)
    except fun.Refused as refused:
        for message in refused.messages[:3]:
            print(f"{name}:{message.line}:{message.column}: {message.sentence}")
    except Exception:  # whatever is wrong with the translator, the other modules are tried
        print(name, traceback.format_exc(limit=-3))
    return None


# systems and answers


class Remembering(ask.Runner):
    """Searches, and keeps what was found by the sum of the system's text, in a file, where one is given.

    So a run that was cut off goes on where it was, and a system that several runs ask about is searched for once. What
    took too long is searched for again where there is more time than there was.
    """

    def __init__(self, program, seconds, file):
        super().__init__(program, seconds)
        self.kept, self.found = file, {}
        if file and file.exists():
            lines = file.read_text(encoding="utf-8").splitlines()
            self.found = {key: ask.Answer(*fields) for key, *fields in map(json.loads, lines)}

    def answer(self, text):
        key = hashlib.sha256(text.encode()).hexdigest()
        known = self.found.get(key)
        if known is None or known.word == "TIMEOUT" and float(known.reason) < self.seconds:
            known = self.found[key] = super().answer(text)
            self.keep(key, known)
        return known

    def keep(self, key, answer):
        """Appends an answer to the file, at once, since another run may do so, too."""
        if self.kept and not self.ended:
            line = json.dumps([key, answer.word, answer.reason, answer.certificate, round(answer.seconds, 3)]) + "\n"
            with open(self.kept, "ab", buffering=0) as file:
                file.write(line.encode())


def differs(file, text, write):
    """Whether a stored file differs, which is shown; or it is written."""
    old = file.read_text(encoding="utf-8") if file.exists() else ""
    if write or old == text:
        file.write_text(text, encoding="utf-8")
        return False
    sys.stdout.writelines(difflib.unified_diff(old.splitlines(True), text.splitlines(True), str(file.name), "made now"))
    return True


def answers(translation, runner, jobs):
    """The table of answers, without the seconds."""
    rows = [line.split("\t") for line in tell.with_tabs(tell.reported(translation, runner, jobs))]
    return "".join("\t".join(row[:3] + row[4:]) + "\n" for row in rows)


# values


def with_exports(text, names):
    """The module, which exports these names besides."""
    found = HEADER.search(text)
    inside = found[2].strip()
    if not inside:
        return text
    return text[: found.start(2)] + f" {inside[:-1].rstrip()}, {', '.join(names)}) " + text[found.end(2) :]


def with_lists(text, lists):
    """The module with these lists of expressions as the values of `example0`, `example1` and so on."""
    names = [f"example{at}" for at in range(len(lists))]
    lines = [f"{name} = [{', '.join(f'({it})' for it in them)}]" for name, them in zip(names, lists)]
    return with_exports(text, names) + "\n" + "\n".join(lines) + "\n"


def members(term):
    """The members of a list."""
    parts, found = runs.spine(term), []
    while len(parts) == 3:
        found.append(parts[1])
        parts = runs.spine(parts[2])
    return found


def reduced(translation, runner, name):
    """The members of the list to which a name of the program reduces, and why no more steps are taken."""
    symbol = next(it.symbol for it in translation.functions if it.name == name)
    file = runner.file(translation.part(symbol).text)
    lines = (runner.run(runner.program, "reduce", file, symbol, "--steps", str(STEPS)) or "").splitlines()
    if len(lines) != 3:
        return [], lines[0] if lines else "TIMEOUT"
    return members(runs.Reader(lines[1]).term()), lines[2]


def wrong_values(file, runner):
    """Lines about the expressions of a program that have another value than stands below them."""
    examples = EXAMPLE.findall(file.read_text(encoding="utf-8"))
    translation = translated(with_lists(file.read_text(encoding="utf-8"), examples), file.stem)
    if translation is None:
        return ["the module with its examples is refused"]
    found = []
    for at, (expression, value) in enumerate(examples):
        sides, why = reduced(translation, runner, f"example{at}")
        if why != "normal":
            found.append(f"{expression}: {why}")
        elif len(sides) != 2 or sides[0] != sides[1]:
            found.append(f"{expression} is {' and '.join(map(runs.printed, sides))}, and not {value}")
    return found


def ghc_values(file, room):
    """The values of a program's expressions by GHC, as it shows them."""
    text = file.read_text(encoding="utf-8")
    examples = EXAMPLE.findall(text)
    shown = ", ".join(f"Prelude.show ({expression})" for expression, _ in examples)
    main = f"main :: Prelude.IO ()\nmain = Prelude.mapM_ Prelude.putStrLn [{shown}]\n"
    program = pathlib.Path(room, file.name)
    program.write_text(HEADER.sub("module Main (main) where", text, count=1) + "\n" + main, encoding="utf-8")
    ran = subprocess.run(["runghc", f"-i{TOP / 'fun'}", program], capture_output=True, text=True, check=False)
    return examples, ran.stdout.splitlines(), ran.stderr


def wrong_by_ghc(file, _runner):
    """Lines about the expressions whose value by GHC is not the one below them."""
    with tempfile.TemporaryDirectory() as room:
        examples, values, errors = ghc_values(file, room)
    if len(values) != len(examples):
        return [f"GHC: {errors.strip()[:500]}"]
    return [f"{it[0]} is {value} by GHC, and not {it[1]}" for it, value in zip(examples, values) if it[1] != value]


# all programs


def compare(options, runner):
    """Compares or stores what belongs to each program; how many differ."""
    wrong = 0
    for file in programs(options.names):
        if options.ghc:
            faults = wrong_by_ghc(file, runner)
        else:
            faults = tried(file, options, runner)
        for fault in faults:
            print(f"{file.stem}: {fault}", flush=True)
        wrong += bool(faults)
    return wrong


def tried(file, options, runner):
    """What differs of a program: its system, its values, its answers."""
    translation = translated(file.read_text(encoding="utf-8"), file.stem)
    if translation is None:
        return ["the module is refused"]
    faults = []
    if differs(file.with_suffix(".afs"), translation.system, options.write):
        faults.append("the system differs")
    if not options.quick and differs(file.with_suffix(".answers"), answers(translation, runner, options.jobs), options.write):
        faults.append("the answers differ")
    return faults + wrong_values(file, runner)


# what each step brings


def measured(options, runner):
    """How many functions of the programs are answered how, under these options of the translation."""
    systems = []
    for file in programs([]):
        translation = translated(file.read_text(encoding="utf-8"), file.stem, options)
        systems += [translation.part(it.symbol).text for it in translation.functions] if translation else []
    with concurrent.futures.ThreadPoolExecutor(runner.jobs) as pool:
        return collections.Counter(it.found for it in pool.map(runner.answer, systems))


def measure(runner):
    """Prints a table with a row for each step that is added."""
    print("| translation | YES | NO | MAYBE |\n|---|---|---|---|")
    for count, title in enumerate(TITLES):
        options = fun.Options(**{step: at < count for at, step in enumerate(BEHIND)})
        found = measured(options, runner)
        print(f"| {title} | {found['YES']} | {found['NO']} | {found['MAYBE']} |", flush=True)


# random modules


def fuzz(count, first, runner):
    """Tries random modules; how many are wrong."""
    wrong = 0
    for seed in range(first, first + count):
        for faults in (wrong_translation(seed, runner), wrong_overlaps(seed, runner)):
            for fault in faults:
                print(f"seed {seed}: {fault}", flush=True)
            wrong += bool(faults)
    return wrong


def wrong_translation(seed, runner):
    """What is wrong with the translation of a well-typed module."""
    translation = translated(random_programs.well_typed(seed), f"well-typed {seed}")
    if translation is None:
        return ["a well-typed module is refused"]
    shown = runner.show(translation.system)
    return [] if shown.startswith("SYSTEM\n") else [f"a well-typed module: {shown[:80].strip()}"]


def wrong_overlaps(seed, runner):
    """What is wrong with the values of a module whose patterns overlap."""
    text, calls = random_programs.overlapping(seed)
    values = [value or next((it for _, it in calls if it), None) for _, value in calls]
    if None in values:
        return []
    translation = translated(with_lists(text, [[it for it, _ in calls], values]), f"overlapping {seed}")
    if translation is None:
        return ["a module with overlapping patterns is refused"]
    (ours, why), (right, _) = (reduced(translation, runner, f"example{at}") for at in (0, 1))
    if why != "normal" or len(ours) != len(calls) or len(right) != len(calls):
        return [f"the calls of overlapping patterns end with {why}"]
    faults = []
    for (call, value), one, other in zip(calls, ours, right):
        if (one != other) if value else not is_stuck(one, translation):
            faults.append(f"{call} is {runs.printed(one)}, and not {value or 'stuck'}")
    return faults


def is_stuck(term, translation):
    """Whether a call stands in a normal form."""
    return any(translation.origins[it].kind != "constructor" for it in tell.symbols_of(term))


# the words


def read_words():
    parser = argparse.ArgumentParser(description=__doc__, formatter_class=argparse.RawDescriptionHelpFormatter)
    parser.add_argument("names", metavar="NAME", nargs="*", help="programs, without .hs; all if not given")
    for name in ("quick", "write", "ghc", "measure"):
        parser.add_argument(f"--{name}", action="store_true", help="see above")
    parser.add_argument("--fuzz", metavar="N", type=int, help="how many random modules of each kind")
    parser.add_argument("--seed", metavar="S", type=int, default=0, help="the first seed of the random modules; 0 if not given")
    parser.add_argument("--jobs", metavar="N", type=int, default=os.cpu_count() or 1, help="how many searches at once")
    parser.add_argument("--seconds", metavar="S", type=float, default=300.0, help="how long a search may take; 300 if not given")
    parser.add_argument("--known", metavar="FILE", type=pathlib.Path, help="where answers are kept, so that no system is asked twice")
    return parser.parse_args()


def main():
    options = read_words()
    sys.setrecursionlimit(20_000)
    with Remembering(ask.ready("wanda"), options.seconds, options.known) as runner:
        runner.jobs = options.jobs
        if options.measure:
            measure(runner)
            return 0
        wrong = fuzz(options.fuzz, options.seed, runner) if options.fuzz else compare(options, runner)
    return int(wrong > 0)


if __name__ == "__main__":
    sys.exit(main())
