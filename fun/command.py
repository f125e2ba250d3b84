"""The words of `wanda-fun`, and what it prints."""

import argparse
import pathlib
import sys

import fun
from fun import messages

try:
    from fun import tell
except ImportError:
    tell = None

STEPS = ("conditions", "copies", "patterns", "unfold")


def words_of(arguments):
    """The options that are given, as `argparse` has them."""
    parser = argparse.ArgumentParser(prog="wanda-fun", description="From a part of Haskell 2010 to a system.")
    parser.add_argument("file", metavar="FILE.hs")
    parser.add_argument("--out", metavar="FILE", help="where the system is written; else it is printed")
    parser.add_argument("--all-instances", action="store_true", help="each polymorphic function at own sorts, too")
    for step in STEPS:
        parser.add_argument(f"--no-{step}", action="store_true", help=f"leaves out the step `{step}`")
    if tell is not None:
        tell.add_words(parser)
    return parser.parse_args(arguments)


def options_of(words):
    """The steps that these words leave in."""
    steps = {step: not getattr(words, f"no_{step}") for step in STEPS}
    return fun.Options(all_instances=words.all_instances, **steps)


def main(arguments):
    """Translates the file; 0 where it is a module of the language, 3 where it is refused, 4 where it can't be read."""
    words = words_of(arguments)
    try:
        text = pathlib.Path(words.file).read_text(encoding="utf-8")
    except (OSError, UnicodeDecodeError) as fault:
        print(f"{words.file}: {fault}", file=sys.stderr)
        return 4
    sys.setrecursionlimit(20_000)
    try:
        translation = fun.translate(text, words.file, options_of(words))
    except fun.Refused as refused:
        for message in refused.messages:
            sys.stderr.write(messages.shown(message, words.file, text))
        return 3
    if tell is not None and tell.wanted(words):
        return tell.tell(translation, words)
    for warning in translation.warnings:
        print(f"{words.file}:{warning.line}: {warning.function}: {warning.sentence}", file=sys.stderr)
    if words.out:
        pathlib.Path(words.out).write_text(translation.system, encoding="utf-8")
    else:
        sys.stdout.write(translation.system)
    return 0
