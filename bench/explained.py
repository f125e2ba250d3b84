#!/usr/bin/env python3
"""Explains each system of examples/, and compares what ./wanda-explain prints with bench/explained.txt.

    bench/explained.py [--write]        # --write: puts there what it prints

Each system is explained by a search, and by each certificate whose name begins with the system's; its graph is drawn.
"""

import argparse
import difflib
import pathlib
import subprocess
import sys

TOP = pathlib.Path(__file__).resolve().parent.parent
EXAMPLES = TOP / "examples"
STORED = TOP / "bench" / "explained.txt"


def calls():
    """The words of each call."""
    for system in sorted(EXAMPLES.glob("*.afs")):
        yield [system.name]
        for certificate in sorted(EXAMPLES.glob("*.cert")):
            if certificate.stem.split("-")[0] == system.stem:
                yield [system.name, certificate.name]
        yield ["--graph", system.name]


def explained(words):
    """The call and what it prints."""
    ran = subprocess.run([TOP / "wanda-explain", *words], cwd=EXAMPLES, stdin=subprocess.DEVNULL, capture_output=True)
    sys.stderr.write(ran.stderr.decode())
    status = f"status {ran.returncode}\n" if ran.returncode else ""
    return f"$ ./wanda-explain {' '.join(words)}\n{ran.stdout.decode()}{status}\n"


def main():
    asked = argparse.ArgumentParser(description=__doc__, formatter_class=argparse.RawDescriptionHelpFormatter)
    asked.add_argument("--write", action="store_true", help="put what is printed into bench/explained.txt")
    write = asked.parse_args().write
    new = "".join(explained(words) for words in calls())
    old = STORED.read_text() if STORED.exists() else ""
    if write:
        STORED.write_text(new)
        return 0
    differs = difflib.unified_diff(old.splitlines(True), new.splitlines(True), "bench/explained.txt", "printed")
    sys.stdout.writelines(differs)
    return int(new != old)


if __name__ == "__main__":
    sys.exit(main())
