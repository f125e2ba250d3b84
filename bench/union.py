#!/usr/bin/env python3
"""Puts several systems into one file. Where two of them share the name of a sort or of a symbol, each gets a suffix.

    bench/union.py FILE.. > union.afs                 # the one system, the name of its file above each part
    bench/union.py --copies 3 FILE.. > union.afs      # the same files three times, as systems of their own
    bench/union.py --time [--copies N] [--program PATH] FILE..

No part calls another one, so the union terminates if and only if each of the systems does. With `--time` nothing is
written: `prove` runs on each system and on the union, and a line tells how many rules the union has, the seconds of a
processor of all systems together and of the union, how many times the sum this is, and the answers.
"""
import argparse
import collections
import os
import pathlib
import re
import subprocess
import sys
import tempfile

PROGRAM = pathlib.Path(__file__).resolve().parent.parent / "crates" / "wanda" / "out" / "wanda"
KINDS = ("sort", "fun", "rule")
TOKEN = re.compile(r"#[^\n]*|[A-Za-z_][A-Za-z0-9_']*|\s+|.", re.S)
NAME = re.compile(r"[A-Za-z_]")

System = collections.namedtuple("System", "title items")  # an item is the list of its tokens, from its kind to its `;`


def read_system(title, text):
    """The system of a text, without its comments; ends the program where an item is none."""
    items, item = [], []
    for token in TOKEN.findall(text):
        if token.startswith("#") or not item and token.isspace():
            continue
        if not item and token not in KINDS:
            sys.exit(f"{title}: `sort`, `fun` or `rule` is wanted, and not `{token}`")
        item.append(token)
        if token == ";":
            items.append(item)
            item = []
    if item:
        sys.exit(f"{title}: the last item has no `;`")
    return System(title, items)


def names_in(system):
    """All names that the system has, of variables, too."""
    return {token for item in system.items for token in item[1:] if NAME.match(token)}


def declared_in(system):
    """The names of its sorts and of its symbols: sorts have names of their own, so a name may be of both kinds."""
    for item in system.items:
        if item[0] != "rule":
            yield item[0], next((token for token in item[1:] if NAME.match(token)), "")


def shared_names(systems):
    """The names that two systems have for a sort, or for a symbol."""
    times = collections.Counter(one for system in systems for one in set(declared_in(system)))
    return {name for (_, name), count in times.items() if count > 1}


def renamed(system, number, shared, taken):
    """The system with a suffix behind each shared name, wherever it stands; the new names come into `taken`."""
    own = {name for _, name in declared_in(system)}
    new = {}
    for name in sorted(own & shared):
        new[name] = f"{name}_{number}"
        while new[name] in taken:
            new[name] += "'"
        taken.add(new[name])
    items = [[item[0]] + [new.get(token, token) for token in item[1:]] for item in system.items]
    return System(system.title, items)


def union(systems):
    """The text of one system: all sorts, all symbols, and the rules of each system under its title."""
    shared = shared_names(systems)
    taken = set().union(*map(names_in, systems))
    systems = [renamed(system, number, shared, taken) for number, system in enumerate(systems, 1)]
    lines = []
    for kind in KINDS:
        for system in systems:
            found = ["".join(item) for item in system.items if item[0] == kind]
            lines += ([f"# {system.title}"] if found and kind == "rule" else []) + found
    return "\n".join(lines) + "\n"


def proved(program, text):
    """The first word that `prove` prints of a system, and the seconds of a processor that this took."""
    with tempfile.NamedTemporaryFile("w", suffix=".afs") as file:
        file.write(text)
        file.flush()
        process = subprocess.Popen([program, "prove", file.name], stdout=subprocess.PIPE, text=True)
        words = process.stdout.read().split()
        process.stdout.close()
        _, status, used = os.wait4(process.pid, 0)
        process.returncode = os.waitstatus_to_exitcode(status)
    return words[0] if words else f"status {process.returncode}", used.ru_utime + used.ru_stime


def time_of(program, texts, copies, whole):
    """The line that `--time` prints."""
    alone = [proved(program, text) for text in texts] * copies
    answer, seconds = proved(program, whole)
    total = sum(took for _, took in alone)
    answers = collections.Counter(word for word, _ in alone)
    listed = ", ".join(f"{word} {answers[word]}" for word in sorted(answers))
    rules = len(re.findall(r"^rule\b", whole, re.M))
    times = f"{seconds / total:.2f} times"
    return f"{rules} rules: alone {total:.3f} s ({listed}), union {seconds:.3f} s ({answer}), {times}"


def main():
    form = argparse.RawDescriptionHelpFormatter
    words = argparse.ArgumentParser(description=__doc__, formatter_class=form)
    words.add_argument("files", metavar="FILE", nargs="+", type=pathlib.Path)
    words.add_argument("--copies", metavar="N", type=int, default=1, help="how often each file is taken; else once")
    words.add_argument("--time", action="store_true", help="run `prove` on each system and on the union")
    words.add_argument("--program", metavar="PATH", default=PROGRAM, help="with --time: another program than wanda")
    given = words.parse_args()
    texts = [file.read_text(encoding="utf-8") for file in given.files]
    systems = [read_system(str(file), text) for file, text in zip(given.files, texts)]
    whole = union(systems * given.copies)
    if given.time:
        print(time_of(given.program, texts, given.copies, whole))
    else:
        print(whole, end="")


if __name__ == "__main__":
    main()
