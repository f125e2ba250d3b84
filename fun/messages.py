"""Messages: what is refused, where, and what to do."""

from dataclasses import dataclass


@dataclass(frozen=True, order=True)
class Message:
    """One sentence about one place of the module. Lines and columns count from 1."""

    line: int
    column: int
    sentence: str


class Refused(Exception):
    """A module that is not translated, with all that is wrong in it, in the order of its lines."""

    def __init__(self, messages):
        super().__init__(messages[0].sentence if messages else "refused")
        self.messages = sorted(set(messages))


def shown(message, path, text):
    """A message as it is printed: place and sentence, the line, and a caret."""
    lines = text.split("\n")
    line = lines[message.line - 1] if 0 < message.line <= len(lines) else ""
    before = "".join("\t" if character == "\t" else " " for character in line[: message.column - 1])
    return f"{path}:{message.line}:{message.column}: {message.sentence}\n    {line}\n    {before}^\n"


def distance(left, right):
    """The number of letters to change, add, leave out or swap to come from one name to another."""
    before, row = [], list(range(len(right) + 1))
    for i, one in enumerate(left):
        older, before, row = before, row, [i + 1]
        for j, other in enumerate(right):
            cost = min(before[j] + (one != other), before[j + 1] + 1, row[j] + 1)
            if i and j and one == right[j - 1] and left[i - 1] == other:
                cost = min(cost, older[j - 1] + 1)
            row.append(cost)
    return row[-1]


def nearest(name, names):
    """The known name that is most like `name`, where one is near enough to be meant; else None."""
    best, least = None, (len(name) + 3) // 4 + 1 if len(name) > 2 else 1
    for known in sorted(names):
        if abs(len(known) - len(name)) < least:
            far = distance(name, known)
            if far < least:
                best, least = known, far
    return best
