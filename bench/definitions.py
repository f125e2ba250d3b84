#!/usr/bin/env python3
"""Tells which definitions the contract of `run` rests on, from the imports of specs/ alone.

    bench/definitions.py                  # the files, as docs/DEFINITIONS.md lists them
    bench/definitions.py --names          # each file with the words that are used of it
    bench/definitions.py --check          # whether docs/DEFINITIONS.md has just these lists
    bench/definitions.py --write          # puts them there

It begins with the words in the clauses of `run` (crates/wh_top/src/program.rt). A word is looked up in its file: it is
defined there, or a line `use Rattle.CRATE.specs.FILE.{..}` imports it; then the words of its own definition are looked
up in the same way. There are four lists: the files that the clause `termination` rests on; those that
`non_termination` needs besides; those that all other clauses of `run` need besides; and those that no clause of `run`
rests on. Words of std and the program's own types (`specs.declared`) are in no file of specs/; the latter are printed
apart. A variable with the name of a word of its file counts as that word, so a list may have a definition too many, but
none too few.
"""

import argparse
import collections
import pathlib
import re
import sys

TOP = pathlib.Path(__file__).resolve().parent.parent
CRATES = TOP / "crates"
PAGE = TOP / "docs" / "DEFINITIONS.md"
YES, NO = "termination", "non_termination"
USE = re.compile(r"^\s*(?:pub )?(?:ghost )?use (Rattle[\w.']*)(?:\.\{([^}]*)\})?(?: as ([\w']+))?;?\s*$", re.M)
WORD = re.compile(r"[^\W\d][\w'-]*|◌[^\s,}()]+◌")
ITEM = re.compile(r"^(?:abbrev|unfoldable|mutual|pub|data|record|axiom|law|module)\b")
NAMED = re.compile(r"^\s*(?:abbrev |unfoldable )?(?:pub )?(?:data |record )([\w'-]+)", re.M)
RECORD = re.compile(r"(?:abbrev |unfoldable )?(?:pub )?record ")
KEYWORDS = {"pub", "abbrev", "unfoldable", "data", "record", "mutual", "where"}
PLAIN = re.compile(r"[\w'-]+|◌[^\s:]+◌")
LIST = re.compile(r"(?:^    wh_\w+: .*\n)+", re.M)
OPERATOR = re.compile(r"◌([^\s◌]+)◌")


def words_of(text):
    """The words in a text without its comments; an operator counts as the name that defines it."""
    return set(WORD.findall(re.sub(r"--.*", "", text))) | set(re.findall(r"[⇒]", text))


class File:
    """A file of specs/: what it imports, and which block defines each word."""

    def __init__(self, path):
        text = path.read_text()
        self.imports, self.aliases = imports_of(text)
        self.blocks = {}
        for block in blocks_of(text):
            for name in names_in(block):
                self.blocks.setdefault(name, block)


def imports_of(text):
    """The words that a file imports, each with the module that it is imported from; and the modules that it names."""
    words, aliases = {}, {}
    for module, listed, alias in USE.findall(text):
        if alias:
            aliases[alias] = module
        for entry in filter(None, map(str.strip, listed.split(","))):
            name, _, new = entry.partition(" as ")
            words[new or name] = (module, name)
            shape = OPERATOR.fullmatch(name)
            if shape:
                words[shape[1]] = (module, name)
    return words, aliases


def blocks_of(text):
    """The items of a file, each with the lines that belong to it."""
    block = []
    for line in text.splitlines():
        if line.startswith(("use ", "--", "infix")):
            continue
        if ITEM.match(line) and block:
            yield "\n".join(block)
            block = []
        block.append(line)
    if block:
        yield "\n".join(block)


def names_in(block):
    """The words that an item defines, with constructors. Fields do not count: they are named behind a value alone."""
    names = set(NAMED.findall(block))
    if RECORD.match(block):
        return names
    for line in re.sub(r"--.*", "", block).splitlines():
        front, colon, _ = line.partition(" :")
        if colon and all(map(PLAIN.fullmatch, front.split())):
            names.update(front.split())
    return names - KEYWORDS


FILES = {}


def file_of(module):
    """The file of specs/ that a module is, or None for std and for the program's own types."""
    found = re.fullmatch(r"Rattle\.(\w+)\.specs\.(\w+)", module)
    if not found or found[1] == "std":
        return None
    path = CRATES / found[1] / "specs" / f"{found[2]}.antt"
    if path not in FILES:
        FILES[path] = File(path)
    return path


def closure(start):
    """All words that follow from these, each with its file; and the program's own types that they name."""
    seen, types = set(), set()
    todo = list(start)
    while todo:
        module, name = todo.pop()
        if module.startswith("Rattle.std."):
            continue
        if ".specs.declared." in module:
            types.add(type_name(module, name))
            continue
        path = file_of(module)
        if path is None or (path, name) in seen:
            continue
        seen.add((path, name))
        file = FILES[path]
        if name not in file.blocks:
            sys.exit(f"{path}: {name} is not found")
        here = "Rattle.{}.specs.{}".format(path.parts[-3], path.stem)
        todo.extend(looked_up(file, here, file.blocks[name]))
    return seen, types


def looked_up(file, here, block):
    """The words of an item, each with the module where it is defined."""
    plain = re.sub(r"--.*", "", block)
    for alias, name in re.findall(r"\b([\w']+)\.([\w']+)", plain):
        if alias in file.aliases:
            yield file.aliases[alias], name
    for word in words_of(block):
        if word in file.blocks and file.blocks[word] is not block:
            yield here, word
        elif word in file.imports:
            yield file.imports[word]


def type_name(module, name):
    """A type of the program, by its crate and its name."""
    crate, _, rest = module.removeprefix("Rattle.").partition(".specs.declared.")
    parts = [part for part in rest.split(".") if part[0].isupper() and part != "TheVariants"]
    return f"{crate} {parts[0] if parts else name}"


def clauses():
    """The clauses of `run`, by name, and the imports of its file."""
    text = (CRATES / "wh_top" / "src" / "program.rt").read_text()
    contract = text[text.index("pub fn run<") :]
    contract = contract[: contract.index("\n{\n")]
    parts = re.split(r"\n    ensures (\w+)", contract)
    return dict(zip(parts[1::2], parts[2::2])), imports_of(text)[0]


def from_clauses(names):
    """What these clauses of `run` rest on."""
    told, imports = clauses()
    start = [imports[word] for name in names for word in words_of(told[name]) if word in imports]
    return closure(start)


def by_file(words):
    """The words of each file."""
    files = collections.defaultdict(set)
    for path, name in words:
        files[path].add(name)
    return files


def lines_of(files):
    """A line for each crate, with the files of its specs/, in the order of crates.txt."""
    crates = collections.defaultdict(set)
    for path in files:
        crates[path.parts[-3]].add(path.stem)
    order = re.findall(r"(?m)^(\w+)(?: \w+)*:", (TOP / "crates.txt").read_text())
    return [f"{crate}: {', '.join(sorted(crates[crate]))}" for crate in sorted(crates, key=order.index)]


def lists():
    """The four lists, each with its title, the words of its files, and the types of the program that it names first."""
    before, types_before = set(), set()
    parts = (("YES", [YES]), ("NO, besides", [YES, NO]), ("the other clauses, besides", list(clauses()[0])))
    for title, names in parts:
        words, types = from_clauses(names)
        known = {path for path, _ in before}
        yield title, by_file((path, name) for path, name in words if path not in known), types - types_before
        before, types_before = words, types
    used = {path for path, _ in before}
    files = sorted(path for path in CRATES.glob("*/specs/*.antt") if path.stem != "Lib")
    yield "no clause of run", {path: set() for path in files if path not in used}, set()


def page_with(blocks):
    """docs/DEFINITIONS.md with these lists in place of its own: its only indented lines that begin with a crate."""
    page, count = LIST.subn(lambda _: blocks.pop(0), PAGE.read_text())
    if blocks or count != 4:
        sys.exit(f"docs/DEFINITIONS.md has {count} lists, and not 4")
    return page


def print_lists(named):
    """Prints the lists; with `named` a line for each file, and the words that are used of it."""
    for title, files, types in lists():
        print(f"== {title}: {len(files)} files")
        if named:
            for path in sorted(files):
                print(f"{path.parts[-3]} {path.stem}: {', '.join(sorted(files[path]))}")
        else:
            print(*lines_of(files), sep="\n")
        if types:
            print("types of the program:", ", ".join(sorted(types)))


def main():
    parser = argparse.ArgumentParser(description=__doc__, formatter_class=argparse.RawDescriptionHelpFormatter)
    parser.add_argument("--names", action="store_true", help="the words of each file that are used, too")
    parser.add_argument("--check", action="store_true", help="compare with docs/DEFINITIONS.md")
    parser.add_argument("--write", action="store_true", help="put the lists into docs/DEFINITIONS.md")
    options = parser.parse_args()
    if not options.check and not options.write:
        print_lists(options.names)
        return
    page = page_with(["".join(f"    {line}\n" for line in lines_of(files)) for _, files, _ in lists()])
    if options.write:
        PAGE.write_text(page)
    elif page != PAGE.read_text():
        sys.exit("docs/DEFINITIONS.md has other lists: bench/definitions.py --write puts these into it")


if __name__ == "__main__":
    main()
