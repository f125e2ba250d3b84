#!/usr/bin/env python3
"""How long `prove` takes on random systems with binders in binders and functional variables, and what it answers.

    bench/random_systems.py [--program PATH] [--count N] [--first SEED] [--seconds S] [--jobs N]
    bench/random_systems.py --hunt [--hunter PATH] [--work N] ..
    bench/random_systems.py --show SEED

A system is made of its seed alone, so a slow one can be looked at again. Prints how often each answer came, the median, the
99th of 100 and the sum of the seconds of a processor, and the slowest three by their seeds. A run that takes longer than
the bound (60 seconds by the clock) is ended and counted as such.

With `--hunt` it is `wanda-hunt` that runs, and `check` on each certificate that it prints. The table then has how many
systems have a loop or a proof, and on how many the hunt was exhausted or spent, each with the seconds of a processor
(the median, the 99th of 100 and the most). Behind it stands what there should be none of: certificates that `check`
refuses, crashes, runs that were ended, and runs of more than 15 seconds of a processor, by their seeds; the status is
then 1.
"""
import argparse
import collections
import concurrent.futures
import contextlib
import os
import pathlib
import random
import signal
import statistics
import subprocess
import sys
import tempfile
import threading

CRATES = pathlib.Path(__file__).resolve().parent.parent / "crates"
PROGRAM = CRATES / "wanda" / "out" / "wanda"
HUNTER = CRATES / "wanda_hunt" / "out" / "wanda_hunt"
# more seconds than any hunt should take
LONG = 15
SORT = "o"


def show_type(kind):
    """A type as text; a sort is a string, a function type a pair."""
    if kind == SORT:
        return SORT
    first, rest = kind
    left = show_type(first)
    return f"({left}) -> {show_type(rest)}" if first != SORT else f"{left} -> {show_type(rest)}"


def show_binder(name, kind):
    """An abstraction's binder; a function type stands in parentheses there."""
    return f"\\{name}:{kind}." if kind == SORT else f"\\{name}:({show_type(kind)})."


def arguments(kind):
    """The types of a type's arguments, in order."""
    found = []
    while kind != SORT:
        found.append(kind[0])
        kind = kind[1]
    return found


def random_type(pick, order):
    """A type of at most that order, of at most three arguments."""
    kind = SORT
    for _ in range(pick.randint(0 if order < 2 else 1, 3)):
        kind = (random_type(pick, order - 1) if order > 0 and pick.random() < 0.6 else SORT, kind)
    return kind


class Maker:
    """Makes one system: constructors, functions, and rules whose sides are well typed."""

    def __init__(self, seed):
        self.pick = random.Random(seed)
        self.constructors = [("zero", SORT), ("s", (SORT, SORT)), ("pair", (SORT, (SORT, SORT)))]
        if self.pick.random() < 0.5:
            self.constructors.append(("bind", ((SORT, SORT), SORT)))
        self.functions = [(f"f{i}", self.function_type()) for i in range(self.pick.randint(1, 3))]
        self.names = 0

    def function_type(self):
        kind = random_type(self.pick, 3)
        return kind if kind != SORT else (SORT, SORT)

    def fresh(self):
        self.names += 1
        return f"x{self.names}"

    def system(self):
        """The text of the system."""
        lines = [f"sort {SORT};"]
        lines += [f"fun {name} : {show_type(kind)};" for name, kind in self.constructors + self.functions]
        for function in self.functions:
            lines += [self.rule(function) for _ in range(self.pick.randint(1, 2))]
        return "\n".join(lines) + "\n"

    def rule(self, function):
        """A rule for the function: patterns on the left, a term over their meta-variables on the right."""
        name, kind = function
        metas = []
        left = " ".join([name] + [self.pattern(argument, metas, 2) for argument in arguments(kind)])
        right = self.term(SORT, [], metas, 3)
        declared = ", ".join(
            f"{meta}:[{','.join(show_type(a) for a in taken)}] {SORT}" if taken else f"{meta}:{SORT}" for meta, taken in metas
        )
        return f"rule {{{declared}}} {left} => {strip(right)};"

    def pattern(self, kind, metas, depth):
        """A pattern of the type: abstractions around a meta-variable, or a constructor over patterns."""
        if kind != SORT:
            bound = [(self.fresh(), argument) for argument in arguments(kind)]
            taken = [it for it in bound if it[1] == SORT or self.pick.random() < 0.7]
            meta = f"F{len(metas)}"
            metas.append((meta, [argument for _, argument in taken]))
            body = f"{meta}[{','.join(name for name, _ in taken)}]" if taken else meta
            return "(" + "".join(show_binder(*it) for it in bound) + body + ")"
        plain = [it for it in self.constructors if all(argument == SORT for argument in arguments(it[1]))]
        if depth > 0 and self.pick.random() < 0.6:
            name, of = self.pick.choice(plain)
            parts = [self.pattern(argument, metas, depth - 1) for argument in arguments(of)]
            return name if not parts else f"({' '.join([name] + parts)})"
        meta = f"X{len(metas)}"
        metas.append((meta, []))
        return meta

    def term(self, kind, scope, metas, depth):
        """A term of the type over the scope and the meta-variables."""
        if kind != SORT:
            bound = [(self.fresh(), argument) for argument in arguments(kind)]
            body = self.term(SORT, scope + bound, metas, depth)
            return "(" + "".join(show_binder(*it) for it in bound) + strip(body) + ")"
        plain = [name for name, of in scope if of == SORT] + [meta for meta, taken in metas if not taken]
        if depth == 0:
            return self.pick.choice(plain) if plain and self.pick.random() < 0.8 else "zero"
        choice = self.pick.random()
        used = [it for it in metas if it[1]]
        if used and choice < 0.35:
            meta, taken = self.pick.choice(used)
            return f"{meta}[{','.join(strip(self.term(argument, scope, metas, depth - 1)) for argument in taken)}]"
        called = [it for it in scope if it[1] != SORT]
        if called and choice < 0.5:
            name, of = self.pick.choice(called)
        elif choice < 0.7:
            name, of = self.pick.choice(self.functions)
        else:
            name, of = self.pick.choice(self.constructors)
        parts = [self.term(argument, scope, metas, depth - 1) for argument in arguments(of)]
        return name if not parts else f"({' '.join([name] + parts)})"


def strip(text):
    """The text without parentheses around the whole of it."""
    if not (text.startswith("(") and text.endswith(")")):
        return text
    level = 0
    for i, letter in enumerate(text):
        level += (letter == "(") - (letter == ")")
        if level == 0 and i < len(text) - 1:
            return text
    return text[1:-1]


def run(words, bound):
    """The status of a command, what it prints, and the seconds of a processor that it took."""
    with tempfile.TemporaryFile("w+") as output:
        process = subprocess.Popen(words, stdout=output)
        ending = threading.Timer(bound, process.kill)
        ending.start()
        _, status, used = os.wait4(process.pid, 0)
        ending.cancel()
        process.returncode = os.waitstatus_to_exitcode(status)
        output.seek(0)
        return process.returncode, output.read(), used.ru_utime + used.ru_stime


@contextlib.contextmanager
def system_of(seed):
    """A file with that seed's system."""
    with tempfile.NamedTemporaryFile("w", suffix=".afs") as file:
        file.write(Maker(seed).system())
        file.flush()
        yield file.name


def answer_of(status, output):
    """The first word or words of an answer."""
    words = output.split()
    if status == -signal.SIGKILL:
        return "too long"
    if not words:
        return f"status {status}"
    return " ".join(words[:2]) if words[0] == "MAYBE" else words[0]


def prove(given, seed):
    """The answer for that seed's system, and the seconds that it took."""
    with system_of(seed) as file:
        status, output, seconds = run([given.program, "prove", file], given.seconds)
    return seed, answer_of(status, output), seconds


def hunt(given, seed):
    """How the hunt ended on that seed's system, and the seconds that it took; `check` is to accept what is found."""
    with system_of(seed) as file, tempfile.NamedTemporaryFile("w") as certificate:
        status, output, seconds = run([given.hunter, file, "--work", str(given.work)], given.seconds)
        answer = answer_of(status, output)
        if answer in ("YES", "NO"):
            certificate.write(output)
            certificate.flush()
            checked = run([given.program, "check", file, certificate.name], given.seconds)[1].strip()
            return seed, answer if checked == answer else f"refused: {checked}", seconds
    last = output.splitlines()[-1:]
    if answer.startswith("MAYBE") and status == 0 and last[0].startswith("hunted loops "):
        return seed, last[0].split()[-1], seconds
    return seed, answer, seconds


def spread(took):
    """The median of seconds, the 99th of 100 and the most."""
    took = sorted(took)
    return statistics.median(took), took[len(took) * 99 // 100], took[-1]


def tell_hunt(found):
    """Prints the table of a hunt and what went wrong, and returns the status."""
    kinds = {"NO": "found a loop", "YES": "found a proof", "exhausted": "exhausted", "spent": "spent"}
    print(f"{'':15}{'systems':>8}{'median':>10}{'99 of 100':>11}{'most':>10}   seconds of a processor")
    for kind, name in [*kinds.items(), (None, "all")]:
        took = [seconds for _, answer, seconds in found if kind in (None, answer)]
        if took:
            median, nearly_all, most = spread(took)
            print(f"{name:15}{len(took):8}{median:10.3f}{nearly_all:11.3f}{most:10.3f}")
    wrong = [it for it in found if it[1] not in kinds or it[2] > LONG]
    refused = sum(it[1].startswith("refused") for it in wrong)
    long = sum(it[2] > LONG for it in wrong)
    ended = sum(it[1] not in kinds for it in wrong) - refused
    print(f"certificates refused {refused}, crashes and ended runs {ended}, runs above {LONG} s {long}")
    for seed, answer, seconds in wrong:
        print(f"seed {seed}: {answer}, {seconds:.2f} s")
    return int(bool(wrong))


def main():
    words = argparse.ArgumentParser(description=__doc__.splitlines()[0])
    words.add_argument("--program", default=PROGRAM)
    words.add_argument("--hunt", action="store_true")
    words.add_argument("--hunter", default=HUNTER)
    words.add_argument("--work", type=int, default=10_000_000)
    words.add_argument("--count", type=int, default=1000)
    words.add_argument("--first", type=int, default=1)
    words.add_argument("--seconds", type=float, default=60)
    words.add_argument("--jobs", type=int, default=1)
    words.add_argument("--show", type=int)
    given = words.parse_args()
    if given.show is not None:
        print(Maker(given.show).system(), end="")
        return
    seeds = range(given.first, given.first + given.count)
    with concurrent.futures.ThreadPoolExecutor(given.jobs) as pool:
        found = list(pool.map(lambda seed: (hunt if given.hunt else prove)(given, seed), seeds))
    if given.hunt:
        sys.exit(tell_hunt(found))
    for answer, times in sorted(collections.Counter(it[1] for it in found).items(), key=lambda it: -it[1]):
        print(f"{times:6} {answer}")
    median, nearly_all, _ = spread([it[2] for it in found])
    print(f"median {median:.3f} s, 99th of 100 {nearly_all:.3f} s, all {sum(it[2] for it in found):.1f} s")
    for seed, answer, seconds in sorted(found, key=lambda it: -it[2])[:3]:
        print(f"seed {seed}: {answer}, {seconds:.2f} s")


if __name__ == "__main__":
    main()
