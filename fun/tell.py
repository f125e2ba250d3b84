"""Answers in the program's own words: `wanda-fun --prove`, `--table`, `--json` and `--explain`.

The whole module is asked first. Where that is no YES, each exported function is asked with all that it calls, so that
one hard function does not hide what is known of the others. What is printed of an answer is taken from the certificate
(what gets smaller), from the steps of the loop, or from the calls for which no argument gets smaller (`proofs`, `runs`).
"""

import json
import os
import re
import sys
from dataclasses import dataclass, field

import fun
from fun import ask, proofs, runs

NOT_BUILT, CUT_OFF = 70, 130
WIDEST = {"function": 24, "type": 44}
SHOWN = 3  # so many things are told in a row of the table
LONGEST = 100  # so many characters of an expression are printed


# the words


def at_least_one(text):
    number = int(text)
    if number < 1:
        raise ValueError
    return number


def add_words(parser):
    """The options that ask for answers."""
    group = parser.add_argument_group("answers")
    group.add_argument("--prove", action="store_true", help="searches, and tells of each function whether it ends")
    group.add_argument("--table", action="store_true", help="the same as lines with tabs: name, type, answer, seconds, words")
    group.add_argument("--json", action="store_true", help="the same as an object in JSON")
    group.add_argument("--explain", metavar="NAME", help="why a function ends or not, step by step")
    group.add_argument("--hunt", action="store_true", help="as --prove, and asks wanda-hunt where prove finds nothing")
    jobs_help = "how many searches run side by side; as many as there are processors if not given"
    group.add_argument("--jobs", metavar="N", type=at_least_one, default=os.cpu_count() or 1, help=jobs_help)
    group.add_argument("--seconds", metavar="S", type=float, default=60.0, help="how long each may take; 60 if not given")


def wanted(words):
    """Whether the options ask for answers."""
    return words.prove or words.hunt or words.table or words.json or words.explain is not None


# what is told of a system


@dataclass
class Part:
    """A system with its answer, and what `wanda show` says of it."""

    system: object  # a fun.System
    answer: ask.Answer
    shown: proofs.Shown = None


@dataclass
class Row:
    """What is told of an exported function."""

    function: object  # a fun.Function
    answer: ask.Answer
    words: str = ""
    calls: list = field(default_factory=list)  # of MAYBE: the calls that are left, as line and text
    loop: list = field(default_factory=list)  # of NO: lines and texts of the steps


class Words:
    """What is told of a system's terms, symbols and rules, in the words of the program."""

    def __init__(self, translation, part):
        self.translation = translation
        self.origins = translation.origins
        self.exported = {it.name for it in translation.functions}
        self.part = part

    def function(self, symbol):
        """The function of the program that a symbol belongs to."""
        origin = self.origins.get(symbol)
        return origin.function if origin else symbol

    def is_own(self, symbol):
        """Whether a symbol comes from the module, and not from the Prelude or Nat."""
        origin = self.origins.get(symbol)
        return origin is None or origin.line > 0

    def line(self, rule):
        """The line of a rule; 0 where it comes from the Prelude or Nat."""
        return self.part.system.rules[rule].line

    def term(self, term):
        """A term in the program's syntax, cut where it is long."""
        text = self.translation.expression(runs.printed(unmarked(term)))
        text = " ".join(text.split())
        return text if len(text) <= LONGEST else text[: LONGEST - 3] + ".."

    def reached(self, symbol):
        """The symbols that a symbol leads to, itself included."""
        calls = {}
        for rule in self.part.shown.rules:
            calls.setdefault(runs.spine(rule.left)[0][1], set()).update(symbols_of(rule.right))
        found, waiting = set(), [symbol]
        while waiting:
            at = waiting.pop()
            if at not in found:
                found.add(at)
                waiting += calls.get(at, ())
        return found


def symbols_of(term):
    """The names of all symbols in a term."""
    if term[0] == "symbol":
        return {term[1]}
    parts = {"lambda": term[2:], "apply": term[1:], "meta": term[2] if term[0] == "meta" else ()}.get(term[0], ())
    return set().union(*(symbols_of(it) for it in parts)) if parts else set()


def unmarked(term):
    """A side of a pair as a term: without the mark of its head."""
    if term[0] == "apply":
        return ("apply", unmarked(term[1]), term[2])
    return (term[0], term[1].rstrip("#")) if term[0] == "symbol" else term


# what gets smaller


def decrease(words, drop, pair):
    """What gets smaller in a pair that is dropped."""
    before, after = drop.before(pair), drop.after(pair)
    if drop.means == "subterm":
        return f"{words.term(before[0])} becomes {words.term(after[0])}"
    told = " and ".join(words.term(it) for it in before)
    if drop.means == "poly":
        return f"the worth of {told}" if told else "what a call is worth"
    return f"{told} in a path order" if told else "the call in a path order"


def joined(things):
    """At most some of these, without repetition."""
    things = list(dict.fromkeys(things))
    more = f" and {len(things) - SHOWN} more" if len(things) > SHOWN else ""
    return ", ".join(things[:SHOWN]) + more


def smaller(words, function):
    """What gets smaller in a function and in those that it calls and that have no row of their own."""
    reached = words.reached(function.symbol)
    found, known = {}, False
    for drop in proofs.drops(words.part.answer.certificate):
        for pair in (words.part.shown.pairs[it] for it in drop.pairs if words.part.shown.pairs[it].caller in reached):
            name = words.function(pair.caller)
            if not words.is_own(pair.caller):
                known = True
            elif name == function.name or name not in words.exported:
                found.setdefault(name, []).append(decrease(words, drop, pair))
    own = found.pop(function.name, None)
    told = [joined(own)] if own else []
    told += [f"in {name}: {joined(things)}" for name, things in found.items()]
    return "; ".join(told) or ("only known functions call themselves" if known else "nothing of its own calls itself")


# why not


def reason_of(answer):
    """Why there is no answer, before the calls that are left."""
    if answer.word == "TIMEOUT":
        return f"no answer in {answer.reason} seconds"
    if answer.word == "REFUSED":
        return f"the system is too large ({answer.reason.split()[0]})"
    if answer.word != "MAYBE":
        return f"{answer.word} {answer.reason}".strip()
    if answer.reason.startswith("no-ranks sorts"):
        return f"a constructor takes a function over its own type: {', '.join(answer.reason.split()[2:])}"
    return ""


def pairs_left(words):
    """The pairs on which the search is stuck, or those for which no projection is found."""
    reason, shown = words.part.answer.reason, words.part.shown
    if reason.startswith("no-ranks"):
        return []
    if reason.startswith("stuck"):
        return [shown.pairs[int(it)] for it in reason.split()[1:]]
    return [pair for pairs in proofs.left_over(shown) for pair in pairs]


def who_calls(words, pairs):
    """The functions that call one another in these pairs, with lines."""
    lines = {}
    for pair in pairs:
        key = (words.function(pair.caller), words.function(pair.called))
        lines.setdefault(key, set()).add(words.line(pair.rule))
    told = []
    for (caller, called), where in lines.items():
        numbers = ", ".join(str(it) for it in sorted(where - {0}))
        place = f" in line{'s' if len(where - {0}) > 1 else ''} {numbers}" if numbers else ""
        told.append(f"{caller} calls {'itself' if caller == called else called}{place}")
    return joined(told)


def tell_maybe(words, row):
    pairs = pairs_left(words)
    told = [reason_of(row.answer), who_calls(words, pairs), row.answer.hunted]
    row.words = "; ".join(it for it in told if it) or row.answer.reason
    for pair in pairs:
        row.calls.append((words.line(pair.rule), f"{words.term(pair.left)} calls {words.term(pair.right)}"))


def tell_no(words, row):
    loop = runs.read_loop(row.answer.certificate, words.part.shown.rules)
    row.loop.append((0, words.term(loop.first)))
    for step in loop.steps:
        row.loop.append((words.line(step.rule) if step.rule >= 0 else 0, words.term(step.whole)))
    row.loop.append((0, words.term(loop.again)))
    lines = sorted({line for line, _ in row.loop if line})
    row.words = f"{words.term(loop.first)} leads to {words.term(loop.again)}"
    row.words += f" by line{'s' if len(lines) > 1 else ''} {', '.join(map(str, lines))}" if lines else ""


def row_of(words, function):
    """What is told of a function."""
    row = Row(function, words.part.answer)
    if row.answer.word == "YES":
        row.words = smaller(words, function)
    elif row.answer.word == "NO":
        tell_no(words, row)
    else:
        tell_maybe(words, row)
    return row


# the answers


@dataclass
class Report:
    """The answer for the module, and a row for each exported function."""

    translation: object
    whole: ask.Answer
    rows: list


def asked(runner, system):
    """A system with its answer."""
    answer = runner.answer(system.text)
    return Part(system, answer, proofs.read_shown(runner.show(system.text)))


def reported(translation, runner, jobs):
    """Asks the module, and its functions where that is no YES."""
    functions = translation.functions
    whole = asked(runner, fun.System(translation.system, translation.rules))
    if whole.answer.word == "YES" or not functions:
        words = Words(translation, whole)
        return Report(translation, whole.answer, [row_of(words, it) for it in functions])
    questions = [(it.name, translation.part(it.symbol)) for it in functions]
    parts = runner.all_of(questions, lambda system: asked(runner, system), jobs)
    rows = [row_of(Words(translation, part), function) for function, part in zip(functions, parts)]
    return Report(translation, whole.answer, rows)


# printing


def cut(text, width):
    return text if len(text) <= width else text[: width - 2] + ".."


def type_of(function, functions):
    """The type of a row: the instance, where a function has several."""
    several = sum(it.name == function.name for it in functions) > 1
    return function.instance if several else function.type


def columns(report):
    """The table in columns."""
    functions = report.translation.functions
    rows = [("function", "type", "answer", "what gets smaller, or why not")]
    for row in report.rows:
        name, kind = cut(row.function.name, WIDEST["function"]), cut(type_of(row.function, functions), WIDEST["type"])
        rows.append((name, kind, row.answer.found, row.words))
    widths = [max(len(it[at]) for it in rows) for at in range(3)]
    for row in rows:
        yield ("  ".join(row[at].ljust(widths[at]) for at in range(3)) + "  " + row[3]).rstrip()


def details(row):
    """Of a NO the steps, of a MAYBE the calls that are left."""
    name = f"{row.function.name}, line {row.function.line}"
    if row.loop:
        yield f"{name}: NO, this can be evaluated for ever."
        for at, (line, text) in enumerate(row.loop):
            place = f"line {line}" if line else "from" if at == 0 else "again" if at == len(row.loop) - 1 else ""
            yield f"  {place:10}{text}"
    elif row.calls:
        yield f"{name}: MAYBE, these calls are left."
        for line, text in row.calls:
            yield f"  {f'line {line}' if line else 'known':10}{text}"


MEANING = {
    "YES": "YES: each expression over the function and what it calls comes to an end, under lazy and under eager evaluation.",
    "NO": "NO: some way to evaluate the expression goes on for ever; a lazy program may still end on it.",
    "MAYBE": "MAYBE: nothing was found. The function may end on all inputs or not.",
}


def counted(rows):
    return f"{len(rows)} function" + ("s" if len(rows) != 1 else "")


def printed(report):
    """The lines of `--prove`."""
    counts = {word: sum(row.answer.found == word for row in report.rows) for word in MEANING}
    told = ", ".join(f"{word} {count}" for word, count in counts.items() if count)
    module = report.translation.module
    if report.whole.word == "YES":
        yield f"{module}: YES, each expression over the module comes to an end."
    else:
        yield f"{module}: {told or report.whole.found}; {counted(report.rows)}, each asked with what it calls"
    yield ""
    yield from columns(report)
    for row in report.rows:
        lines = list(details(row))
        if lines:
            yield ""
            yield from lines
    yield ""
    yield from (MEANING[word] for word in MEANING if counts[word])
    for warning in report.translation.warnings:
        yield f"line {warning.line}, {warning.function}: {warning.sentence}"


def with_tabs(report):
    """The lines of `--table`."""
    functions = report.translation.functions
    for row in report.rows:
        fields = (row.function.name, type_of(row.function, functions), row.answer.found, f"{row.answer.seconds:.3f}")
        yield "\t".join((*fields, row.words))


def as_object(report):
    """The object of `--json`."""
    rows = []
    for row in report.rows:
        rows.append({
            "name": row.function.name,
            "type": row.function.type,
            "instance": row.function.instance,
            "line": row.function.line,
            "answer": row.answer.found,
            "reason": "" if row.answer.word in ask.PROOFS else f"{row.answer.word} {row.answer.reason}".strip(),
            "seconds": round(row.answer.seconds, 3),
            "words": row.words,
            "calls": [{"line": line, "text": text} for line, text in row.calls],
            "loop": [{"line": line, "text": text} for line, text in row.loop],
        })
    warnings = [{"line": it.line, "function": it.function, "sentence": it.sentence} for it in report.translation.warnings]
    return {"module": report.translation.module, "answer": report.whole.found, "functions": rows, "warnings": warnings}


# explanations


class Explanation:
    """What `wanda-explain` prints of a function's system, in the program's names."""

    PAIR = re.compile(r"(\s*)pair (\d+), of rule (\d+): (.*) => (.*?)( if .*)?")
    RULE = re.compile(r"(\s*)rule (\d+): (.*) => (.*)")
    BECOMES = re.compile(r"(\s*(?:pair \d+: )?)(.*) becomes (.*?): (.*)")
    IS = re.compile(r"(\s*)([A-Za-z_][\w']*#?) is (.*)")
    OF = re.compile(r"(?<=argument )(\d+) of ([A-Za-z_][\w']*)")
    LAST = "What may not be meant:"  # what stands behind it is about systems that are written by hand

    def __init__(self, words):
        self.words = words

    def term(self, text):
        """A term as `wanda-explain` prints it, without the outer parentheses."""
        text = re.sub(r"(?<=[\w'])#", "", text)
        inside = text if " " not in text or closes_last(text) else f"({text})"
        return " ".join(self.words.translation.expression(inside).split())

    def name(self, symbol):
        """A symbol in a sentence."""
        origin = self.words.origins.get(symbol.rstrip("#"))
        call = "a call of " if symbol.endswith("#") else ""
        return call + (origin.words if origin else symbol)

    def lines(self, text):
        for line in text.splitlines():
            if line == self.LAST:
                return
            yield self.line(line)

    def line(self, line):
        for pattern, change in ((self.PAIR, self.pair), (self.RULE, self.rule), (self.BECOMES, self.becomes)):
            found = pattern.fullmatch(line)
            if found:
                return change(found)
        found = self.IS.fullmatch(line)
        if found and found[2].rstrip("#") in self.words.origins:
            return f"{found[1]}{self.name(found[2])} is {found[3]}"
        return self.OF.sub(lambda it: f"{it[1]} of {self.name(it[2])}", line)

    def pair(self, found):
        line = self.words.line(int(found[3]))
        place = f", line {line}" if line else ""
        return f"{found[1]}pair {found[2]}{place}: {self.term(found[4])} calls {self.term(found[5])}"

    def rule(self, found):
        line = self.words.line(int(found[2]))
        return f"{found[1]}{f'line {line}' if line else 'known'}: {self.term(found[3])} = {self.term(found[4])}"

    def becomes(self, found):
        return f"{found[1]}{self.term(found[2])} becomes {self.term(found[3])}: {found[4]}"


def closes_last(text):
    """Whether a text begins with a parenthesis that its last character closes."""
    if not text.startswith("("):
        return False
    depth = 0
    for at, character in enumerate(text):
        depth += {"(": 1, ")": -1}.get(character, 0)
        if depth == 0:
            return at == len(text) - 1
    return False


def explained(translation, runner, name):
    """The lines of an explanation, or None where no exported function has the name."""
    function = next((it for it in translation.functions if name in (it.name, it.symbol)), None)
    if function is None:
        return None
    part = asked(runner, translation.part(function.symbol))
    words = Words(translation, part)
    row = row_of(words, function)
    head = [f"{function.name} :: {function.type}", f"{row.answer.found}: {row.words}", ""]
    if row.loop:
        return head + list(details(row))
    program = ask.ready("wanda-explain")
    files = [runner.file(part.system.text)]
    files += [runner.file(part.answer.certificate)] if part.answer.certificate else []
    explanation = Explanation(words)
    return head + list(explanation.lines(runner.run(program, *files) or "no answer in time"))


# all of it


def tell(translation, words):
    """Asks and prints; the status of the script."""
    try:
        program = ask.ready("wanda")
        hunter = ask.hunter() if words.hunt else None
        if words.hunt and not hunter:
            print("wanda-fun: wanda-hunt is not built here, so prove alone is asked", file=sys.stderr)
        with ask.Runner(program, words.seconds, hunter) as runner:
            if words.explain is not None:
                lines = explained(translation, runner, words.explain)
                if lines is None:
                    names = ", ".join(dict.fromkeys(it.name for it in translation.functions))
                    print(f"wanda-fun: no exported function {words.explain}; there are {names}", file=sys.stderr)
                    return 2
            else:
                report = reported(translation, runner, words.jobs)
                if words.json:
                    lines = [json.dumps(as_object(report), indent=2, ensure_ascii=False)]
                else:
                    lines = with_tabs(report) if words.table else printed(report)
            print(*lines, sep="\n")
    except ask.NotBuilt as fault:
        print(f"wanda-fun: {fault}", file=sys.stderr)
        return NOT_BUILT
    except KeyboardInterrupt:
        return CUT_OFF
    return 0
