#!/usr/bin/env python3
"""Runs the commands that the pages for users show, and compares what they print with what stands there.

    bench/transcripts.py [--write]        # --write: puts there what they print

The pages are README.md, docs/TUTORIAL.md and docs/REFERENCE.md. A block of lines is indented by four spaces; a blank
line before a command begins a new one. In a block a command is a line with `$`, and its output the lines behind it. A
block below a paragraph that ends with "file `NAME`:" is that file. All commands of a page are run in one new folder,
in which ./wanda, ./wanda-hunt and the other scripts and examples are those of this repository. What is shown may
also be what a terminal shows, where the command says more there. Times, as 0.123, may differ. The status is 77 where a
search did not end in its time, as on a machine that is busy.
"""

import argparse
import difflib
import pathlib
import re
import subprocess
import sys
import tempfile

from scripts import screen, terminal_command

TOP = pathlib.Path(__file__).resolve().parent.parent
PAGES = ("README.md", "docs/TUTORIAL.md", "docs/REFERENCE.md")
BLOCK = re.compile(r"(?m)(?P<before>^.*\n)?\n(?P<block>(?:^    .*\n|^\n(?=    (?!\$ )))+)")
FILE = re.compile(r"file `([^`/]+)`:\n$")
TIME = re.compile(r" +\d+\.\d{3}\b")
NO_END = re.compile(r"\bTIMEOUT\b|no answer in \d+ seconds")
TOO_BUSY = 77


def unindented(block):
    return [line[4:] for line in block.splitlines()]


def commands_of(lines):
    """The commands of a block, each with the lines that stand below it."""
    found = []
    for line in lines:
        if line.startswith("$ "):
            found.append((line[2:], []))
        elif found:
            found[-1][1].append(line)
    return found


def outputs(command, folder):
    """What the command prints through a pipe, and then what a terminal shows of it."""
    ran = subprocess.run(["bash", "-c", command], cwd=folder, stdin=subprocess.DEVNULL, capture_output=True)
    yield ran.stdout.decode().splitlines()
    _, got = terminal_command(["bash", "-c", command], folder)
    yield screen(got)[:-1]


def settled(lines):
    """The lines without times."""
    return [TIME.sub(" ..", line) for line in lines]


def right_output(command, shown, folder):
    """What is to stand below the command: what stands there, if a pipe or a terminal gets it."""
    printed = None
    for lines in outputs(command, folder):
        if settled(lines) == settled(shown):
            return shown
        printed = lines if printed is None else printed
    return printed


def settled_page(text, folder):
    """The page with the right output below each command."""

    def block(found):
        lines = unindented(found["block"])
        name = FILE.search(found["before"] or "")
        if name:
            (folder / name[1]).write_text("\n".join(lines) + "\n")
        commands = commands_of(lines)
        if not commands or not lines[0].startswith("$ "):
            return found[0]
        new = [line for command, shown in commands for line in [f"$ {command}", *right_output(command, shown, folder)]]
        return (found["before"] or "") + "\n" + "".join(f"    {line}".rstrip() + "\n" for line in new)

    return BLOCK.sub(block, text)


def main():
    parser = argparse.ArgumentParser(description=__doc__, formatter_class=argparse.RawDescriptionHelpFormatter)
    parser.add_argument("--write", action="store_true", help="puts there what the commands print")
    options = parser.parse_args()
    differs = is_busy = False
    for page in PAGES:
        text = (TOP / page).read_text()
        with tempfile.TemporaryDirectory(prefix="wanda-transcripts-") as room:
            for name in ("wanda", "wanda-all", "wanda-explain", "wanda-fun", "wanda-hunt", "examples"):
                (pathlib.Path(room) / name).symlink_to(TOP / name)
            new = settled_page(text, pathlib.Path(room))
        differs |= new != text
        is_busy |= len(NO_END.findall(new)) > len(NO_END.findall(text))
        sys.stdout.writelines(difflib.unified_diff(text.splitlines(True), new.splitlines(True), page, "as printed"))
        if options.write:
            (TOP / page).write_text(new)
    if is_busy:
        print("a search did not end in its time: this machine is too busy")
        return TOO_BUSY
    return 1 if differs and not options.write else 0


if __name__ == "__main__":
    sys.exit(main())
