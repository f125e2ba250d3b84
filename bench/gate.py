#!/usr/bin/env python3
"""Runs a command and tells where its processor time goes: for each crate its own proof, its tests, and its must-fail edits.

    bench/gate.py rt ci                   # the whole gate, from the top of the repository
    bench/gate.py rt must-fail wh_text    # or any other command that starts the prover

The prover's processes below the command are looked at twice a second, with the processes that they start. What the prover
used between the last look and its end, and all that is not the prover (`rt` itself, compiling, linking, running tests and
programs), is in the row "rest": the total is what the system counts for the command.

A processor that shares its core with other work, on a virtual machine also that of others, is slower at one time than at
another. So a fixed piece of work is timed every ten seconds. The last line says how long it took on average and in the
fastest sample, and what the whole would have taken at that speed: a bound from below, and no measurement.

The budget is 2 minutes of one processor for 1,000 lines of src, specs and proofs, all told.
"""

import os
import re
import resource
import subprocess
import sys
import threading
import time

TOP = os.path.dirname(os.path.dirname(os.path.abspath(__file__)))
TICKS = os.sysconf("SC_CLK_TCK")
KINDS = ("proof", "tests", "edits")
BUDGET = 2.0
LOOKS_FOR_A_PIECE = 20


def stat_of(pid):
    """The parent, the start and the processor seconds of a process and of its ended children; None where it has ended."""
    try:
        with open(f"/proc/{pid}/stat") as file:
            fields = file.read().rpartition(")")[2].split()
    except OSError:
        return None
    return int(fields[1]), int(fields[19]), sum(map(int, fields[11:15])) / TICKS


def prover_of(pid):
    """The crate and the kind of work of a process of the prover; None for all others."""
    try:
        with open(f"/proc/{pid}/cmdline", "rb") as file:
            words = file.read().decode(errors="replace").split("\0")
        folder = os.readlink(f"/proc/{pid}/cwd")
    except OSError:
        return None
    if os.path.basename(words[0]) != "rattle" or "--crate-name" not in words:
        return None
    crate = words[words.index("--crate-name") + 1]
    if os.path.basename(folder).startswith("rt-edit-"):
        return crate, "edits"
    return crate, "tests" if "--test" in words else "proof"


def time_of_piece():
    """The processor seconds of a fixed piece of work: how fast a processor is at this moment."""
    begun = time.thread_time()
    found = {}
    for number in range(40_000):
        found[number * 2_654_435_761 & 0xFFFFF] = number
    return time.thread_time() - begun


class Watch:
    """What the prover's processes below one process have used so far."""

    def __init__(self, root):
        self.root = root
        self.used = {}
        self.work = {}

    def look(self):
        stats = {int(name): stat_of(name) for name in os.listdir("/proc") if name.isdigit()}
        stats = {pid: stat for pid, stat in stats.items() if stat}
        below = {}
        for pid, (parent, _, _) in stats.items():
            below.setdefault(parent, []).append(pid)
        self.visit(self.root, stats, below)

    def visit(self, pid, stats, below):
        """Counts the prover's processes at or below this one, each with all that it started."""
        key = pid, stats[pid][1] if pid in stats else 0
        if key not in self.work:
            found = prover_of(pid)
            # a process that is not the prover yet may still become it
            if found:
                self.work[key] = found
        if key in self.work:
            self.used[key] = max(self.used.get(key, 0.0), self.whole(pid, stats, below))
            return
        for child in below.get(pid, []):
            self.visit(child, stats, below)

    def whole(self, pid, stats, below):
        return stats[pid][2] + sum(self.whole(child, stats, below) for child in below.get(pid, []))

    def table(self):
        """The seconds by crate and kind."""
        found = {}
        for key, (crate, kind) in self.work.items():
            row = found.setdefault(crate, dict.fromkeys(KINDS, 0.0))
            row[kind] += self.used.get(key, 0.0)
        return found


def lines_of(crate):
    """The lines of a crate's src, specs and proofs."""
    count = 0
    for part in ("src", "specs", "proofs"):
        for folder, _, names in os.walk(f"{TOP}/crates/{crate}/{part}"):
            for name in names:
                if name.endswith((".rt", ".antt")):
                    with open(f"{folder}/{name}", encoding="utf-8") as file:
                        count += sum(1 for _ in file)
    return count


def listed():
    """The crates of crates.txt, in its order."""
    with open(f"{TOP}/crates.txt", encoding="utf-8") as file:
        return re.findall(r"(?m)^(\w+)(?: \w+)*:", file.read())


def show(found, total, elapsed, pieces):
    crates = [crate for crate in listed() if crate in found]
    print(f"\n{'crate':16}{'lines':>8}{'proof':>9}{'tests':>9}{'edits':>9}{'all':>9}{'min per 1,000':>15}")
    sums, lines = dict.fromkeys(KINDS, 0.0), 0
    for crate in crates:
        row, length = found[crate], lines_of(crate)
        whole, lines = sum(row.values()), lines + length
        for kind in KINDS:
            sums[kind] += row[kind]
        cells = "".join(f"{row[kind]:9.0f}" for kind in KINDS)
        print(f"{crate:16}{length:8,}{cells}{whole:9.0f}{whole / 60 / max(length, 1) * 1000:15.2f}")
    known = sum(sums.values())
    print(f"{'rest':16}{'':35}{total - known:9.0f}")
    cells = "".join(f"{sums[kind]:9.0f}" for kind in KINDS)
    rate = total / 60 / max(lines, 1) * 1000
    print(f"{'all':16}{lines:8,}{cells}{total:9.0f}{rate:15.2f}")
    print(f"{total / 60:.0f} processor minutes in {elapsed / 60:.0f} minutes; the budget is {BUDGET} a 1,000 lines, here {lines * BUDGET / 1000:.0f}")
    if pieces:
        mean, best = sum(pieces) / len(pieces), min(pieces)
        print(f"a fixed piece of work took {mean * 1000:.1f} ms on average and {best * 1000:.1f} in the fastest of {len(pieces)} samples;")
        print(f"at that speed all the time the whole could not have taken less than {total / 60 * best / mean:.0f} processor minutes")


def main():
    if len(sys.argv) < 2:
        print(__doc__)
        return 2
    before = resource.getrusage(resource.RUSAGE_CHILDREN)
    begun = time.monotonic()
    command = subprocess.Popen(sys.argv[1:])
    watch, ended, pieces = Watch(command.pid), threading.Event(), []

    def keep_looking():
        looks = 0
        while not ended.wait(0.5):
            watch.look()
            looks += 1
            if looks % LOOKS_FOR_A_PIECE == 0:
                pieces.append(time_of_piece())

    looker = threading.Thread(target=keep_looking)
    looker.start()
    try:
        status = command.wait()
    finally:
        ended.set()
        looker.join()
    after = resource.getrusage(resource.RUSAGE_CHILDREN)
    total = after.ru_utime + after.ru_stime - before.ru_utime - before.ru_stime
    show(watch.table(), total, time.monotonic() - begun, pieces)
    return status


if __name__ == "__main__":
    sys.exit(main())
