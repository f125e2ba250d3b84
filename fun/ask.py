"""Asks the programs of the repository about systems: several at once, each for a bounded time.

The searches are `wanda prove` and, where it is asked for and built, `wanda-hunt`, which looks longer. A certificate that
`prove` finds is given to `check`, and counts where that accepts it; `wanda-hunt` has checked what it prints.
"""

import concurrent.futures
import os
import pathlib
import re
import subprocess
import sys
import tempfile
import threading
import time
from dataclasses import dataclass

TOP = pathlib.Path(__file__).resolve().parent.parent
PROOFS = ("YES", "NO")
VARIABLES = {"wanda": "WANDA_PROGRAM", "wanda-explain": "WANDA_EXPLAIN", "wanda-hunt": "WANDA_HUNT"}


class NotBuilt(Exception):
    """A program is not there, and could not be built."""


@dataclass(frozen=True)
class Answer:
    """What a search says of a system: YES, NO, MAYBE, TIMEOUT or another first word, and the rest of that line."""

    word: str
    reason: str = ""
    certificate: str = ""
    seconds: float = 0.0
    hunted: str = ""  # how the longer search ended, if it found nothing

    @property
    def found(self):
        """YES, NO or MAYBE."""
        return self.word if self.word in PROOFS else "MAYBE"


def read_answer(output):
    """The answer that a search prints: its first word, and for a proof the whole as the certificate."""
    line, _, _ = output.partition("\n")
    found = re.fullmatch(r"([A-Z]+(?: [A-Z]+)*)(?: (.*))?", line)
    if not found:
        return Answer("FAILED")
    return Answer(found[1], "", output) if found[1] in PROOFS else Answer(found[1], found[2] or "")


def ready(name):
    """The place of a program: the one that the environment names, else what `wanda-launch` would start, which it builds
    where it is not there or is old."""
    named = os.environ.get(VARIABLES[name])
    if named:
        program = pathlib.Path(named)
    else:
        words = [TOP / "wanda-launch", "--which", name.replace("-", "_")]
        found = subprocess.run(words, stdin=subprocess.DEVNULL, stdout=subprocess.PIPE, text=True, check=False)
        if found.returncode:
            raise NotBuilt(f"{name} could not be built or started")
        program = pathlib.Path(found.stdout.rstrip("\n").partition(" ")[2])
    if not os.access(program, os.X_OK):
        raise NotBuilt(f"there is no program {program}")
    return program


def hunter():
    """The program that looks longer, where it is built: proved, unproved, or in a release."""
    crate = "wanda_hunt"
    places = [TOP / "crates" / crate / "out" / crate, TOP / "out" / "unproved" / crate / crate, TOP / "wanda-hunt"]
    if (TOP / "crates").is_dir():
        places.pop()
    if os.environ.get(VARIABLES["wanda-hunt"]) or any(os.access(it, os.X_OK) for it in places):
        return ready("wanda-hunt")
    return None


class Progress:
    """A line on the terminal that tells how far the questions are; nothing where the standard error is none."""

    def __init__(self, total):
        self.total, self.begun, self.length, self.shown = total, time.monotonic(), 0, os.isatty(2)

    def show(self, done, last=""):
        if self.shown:
            minutes, seconds = divmod(int(time.monotonic() - self.begun), 60)
            text = f"{done} of {self.total} done, {minutes}:{seconds:02} {last}"
            text = text[: (os.get_terminal_size(2).columns or 80) - 3]
            print("\r" + text.ljust(self.length), end="", file=sys.stderr, flush=True)
            self.length = len(text)

    def clear(self):
        if self.shown:
            print("\r" + " " * (self.length + 2) + "\r", end="", file=sys.stderr, flush=True)


class Runner:
    """Runs programs on systems in a folder of its own, each for so many seconds at most."""

    def __init__(self, program, seconds, hunt=None):
        self.program, self.seconds, self.hunt = program, seconds, hunt
        self.room = tempfile.TemporaryDirectory(prefix="wanda-fun-")
        self.lock, self.count, self.live, self.ended = threading.Lock(), 0, set(), False

    def __enter__(self):
        return self

    def __exit__(self, *_cause):
        self.room.cleanup()

    def end(self):
        """Ends what runs, and lets nothing begin."""
        with self.lock:
            self.ended = True
            for child in self.live:
                child.kill()

    def file(self, text):
        """A new file with this text."""
        with self.lock:
            self.count += 1
            file = pathlib.Path(self.room.name, f"{self.count}.afs")
        file.write_text(text, encoding="utf-8")
        return file

    def run(self, program, *words):
        """What a program prints, or None where its time was over."""
        quiet = subprocess.DEVNULL
        with self.lock:
            if self.ended:
                return None
            child = subprocess.Popen([program, *words], stdin=quiet, stdout=subprocess.PIPE, stderr=quiet, text=True)
            self.live.add(child)
        try:
            return child.communicate(timeout=self.seconds)[0]
        except subprocess.TimeoutExpired:
            child.kill()
            child.communicate()
            return None
        finally:
            with self.lock:
                self.live.discard(child)

    def show(self, text):
        """What `wanda show` prints of a system."""
        return self.run(self.program, "show", self.file(text)) or ""

    def searched(self, program, *words):
        """What a search prints."""
        output = self.run(program, *words)
        return Answer("TIMEOUT", f"{self.seconds:g}") if output is None else read_answer(output)

    def checked(self, system, answer):
        """The answer, if it is none that `check` does not accept."""
        if answer.word not in PROOFS:
            return answer
        said = self.run(self.program, "check", system, self.file(answer.certificate)) or "TIMEOUT"
        return answer if said.strip() == answer.word else Answer("UNCHECKED", said.strip())

    def answer(self, text):
        """What the searches say of a system: the hunt is asked where `prove` finds nothing."""
        begun = time.monotonic()
        system = self.file(text)
        answer = self.checked(system, self.searched(self.program, "prove", system))
        hunted = ""
        if answer.word not in (*PROOFS, "REFUSED") and self.hunt:
            answer, hunted = self.hunted(system, answer)
        return Answer(answer.word, answer.reason, answer.certificate, time.monotonic() - begun, hunted)

    def hunted(self, system, answer):
        """What the longer search finds, or the answer as it was, and how that search ended: the lines behind `MAYBE`."""
        output = self.run(self.hunt, system)
        if output is None:
            return answer, f"hunted for {self.seconds:g} seconds"
        longer = read_answer(output)
        return (longer, "") if longer.word in PROOFS else (answer, ", ".join(output.splitlines()[1:]))

    def all_of(self, questions, ask, jobs):
        """`ask` of each question, several at once, in the order of the questions.

        A question is a name and what is asked; `ask` returns what has an `answer`.
        """
        progress, found, pool = Progress(len(questions)), {}, concurrent.futures.ThreadPoolExecutor(jobs)
        try:
            waiting = {pool.submit(ask, it): (at, name) for at, (name, it) in enumerate(questions)}
            progress.show(0)
            for done in concurrent.futures.as_completed(waiting):
                at, name = waiting[done]
                found[at] = done.result()
                progress.show(len(found), f"{name} {found[at].answer.found}")
        except BaseException:
            self.end()
            raise
        finally:
            pool.shutdown(cancel_futures=True)
            progress.clear()
        return [found[at] for at in range(len(questions))]
