#!/usr/bin/env python3
"""Time and peak memory of the built program on inputs of growing size.

    bench/bench.py [--program PATH] [--only WORD]

Components are counted by the program of crates/wh_examples: `rt run -- components map.afs` in its folder builds it.

Makes its inputs in a temporary folder, runs the program on each three times, and prints the least time, how many times that
of `sha256sum` on the same bytes it is, and the greatest memory. Sizes double from line to line, so a call that is linear takes about twice the time of the line above.
"""
import argparse
import os
import pathlib
import subprocess
import tempfile
import time

HERE = pathlib.Path(__file__).resolve().parent
PROGRAM = HERE.parent / "crates" / "wanda" / "out" / "wanda"
COMPONENTS = HERE.parent / "crates" / "wh_examples" / "out" / "wh_examples"


def many_rules(symbols):
    """A system with that many symbols and rules; about 1 MiB for 1,000."""
    lines = ["sort nat;", "fun zero : nat;", "fun s : nat -> nat;", "fun constructor : (nat -> nat) -> nat -> nat -> nat;"]
    kept = symbols - 3
    for i in range(kept):
        lines.append(f"fun function_number_{i} : (nat -> nat) -> nat -> nat -> nat;")
    for i in range(kept):
        j = (i + 1) % kept
        body = f"function_number_{j} (\\x:nat.F[x]) X Y"
        for _ in range(22):
            body = f"constructor (\\x:nat.F[s x]) (s X) ({body})"
        lines.append(
            f"rule {{F:[nat] nat, X:nat, Y:nat}} function_number_{i} (\\x:nat.F[x]) (s X) Y => {body};"
        )
    return "\n".join(lines) + "\n"


def deep_sides(rules):
    """Rules whose right sides stand in 400 parentheses."""
    lines = ["sort o;", "fun a : o;", "fun f : o -> o;", "fun g : o -> o;"]
    side = "((f " * 199 + "a" + "))" * 199
    for _ in range(rules):
        lines.append(f"rule {{X:o}} g X => {side};")
    return "\n".join(lines) + "\n"


def comments(bytes_wanted):
    """A small system behind long comments."""
    line = "# " + "x" * 997 + "\n"
    return line * (bytes_wanted // len(line)) + "sort o;\nfun a : o;\n"


def constants_loop(steps):
    """A loop of two constants, gone round many times."""
    system = "sort o;\nfun a : o;\nfun b : o;\nrule {} a => b;\nrule {} b => a;\n"
    lines = ["NO 1", "term a"] + ["step 0 /", "step 1 /"] * (steps // 2) + ["at /", "end"]
    return system, "\n".join(lines) + "\n"


def sized_loop(steps, size=50):
    """The same below that many symbols."""
    system = "sort o;\nfun a : o;\nfun b : o;\nfun f : o -> o;\nrule {} a => b;\nrule {} b => a;\n"
    depth = size // 2
    term = "(f " * depth + "a" + ")" * depth
    path = "/" + "1" * depth
    lines = ["NO 1", f"term {term}"] + [f"step 0 {path}", f"step 1 {path}"] * (steps // 2) + ["at /", "end"]
    return system, "\n".join(lines) + "\n"


def joined(leaves):
    """A balanced tree of `p` over these leaves."""
    if len(leaves) == 1:
        return leaves[0]
    half = len(leaves) // 2
    return f"(p {joined(leaves[:half])} {joined(leaves[half:])})"


def leaves_from_the_left(_steps):
    """A term of size 16,381 whose 4,096 leaves step twice each, one after another from the left."""
    system = "sort o;\nfun a : o;\nfun b : o;\nfun c : o;\nfun p : o -> o -> o;\nrule {} a => b;\nrule {} b => c;\n"
    return system, joined(["a"] * 4096)


def large_left(calls, leaves=("a",) * 6143 + ("X",)):
    """A rule with a left side of size 24,575 and that many calls: each is a pair with this left side."""
    lines = ["sort nat;", "fun a : nat;", "fun s : nat -> nat;", "fun p : nat -> nat -> nat;", "fun big : nat -> nat;"]
    lines += [f"fun h{i} : nat -> nat;" for i in range(calls)]
    left, right = joined(list(leaves)), joined([f"(h{i} X)" for i in range(calls)])
    lines.append(f"rule {{X:nat}} big {left} => {right};")
    lines += [f"rule {{X:nat}} h{i} (s X) => X;" for i in range(calls)]
    return "\n".join(lines) + "\n"


def large_knot(calls):
    """The same where each call comes back to the rule, and a second argument gets smaller: a projection is looked for among all these
    pairs, under each choice of two arguments."""
    lines = ["sort nat;", "fun a : nat;", "fun s : nat -> nat;", "fun p : nat -> nat -> nat;", "fun big : nat -> nat -> nat;"]
    lines += [f"fun h{i} : nat -> nat -> nat;" for i in range(calls)]
    left, right = joined(["a"] * 6143 + ["X"]), joined([f"(h{i} (s X) Y)" for i in range(calls)])
    lines.append(f"rule {{X:nat,Y:nat}} big {left} (s Y) => {right};")
    lines += [f"rule {{X:nat,Y:nat}} h{i} X (s Y) => big X Y;" for i in range(calls)]
    return "\n".join(lines) + "\n"


def drop_large_left(calls):
    """Such a rule, and one node that drops all its pairs: in each the left side has X, its first leaf, as a part."""
    lines = ["YES 1", "ranks 0", f"pairs {calls}", "subterm", "arg big 1"] + [f"arg h{i} 1" for i in range(calls)]
    lines += ["drop " + " ".join(str(i) for i in range(calls)), "done", "end"]
    return large_left(calls, ("X",) + ("a",) * 6143), "\n".join(lines) + "\n"


def binder_loop(steps):
    """A loop of constants under a binder."""
    system = "sort o;\nfun a : o;\nfun b : o;\nfun k : (o -> o) -> o;\nrule {} a => b;\nrule {} b => a;\n"
    lines = ["NO 1", "term (k (\\$0:o.a))"] + ["step 0 /10", "step 1 /10"] * (steps // 2) + ["at /", "end"]
    return system, "\n".join(lines) + "\n"


def chain(symbols):
    """Symbols that call each other in a ring: as many dependency pairs, one component."""
    lines = ["sort nat;", "fun s : nat -> nat;"]
    for i in range(symbols):
        lines.append(f"fun f{i} : nat -> nat;")
    for i in range(symbols):
        lines.append(f"rule {{X:nat}} f{i} (s X) => f{(i + 1) % symbols} X;")
    return "\n".join(lines) + "\n"


def most_pairs(_count):
    """1,024 rules with four calls each: 4,096 pairs, as many as there may be."""
    lines = ["sort nat;", "fun s : nat -> nat;", "fun c : nat -> nat -> nat -> nat -> nat;"]
    symbols = 1020
    for i in range(symbols):
        lines.append(f"fun f{i} : nat -> nat;")
    for i in range(1024):
        calls = " ".join(f"(f{(i * 7 + k) % symbols} X)" for k in range(4))
        nested = "(s X)" if i < symbols else "(s (s X))"
        lines.append(f"rule {{X:nat}} f{i % symbols} {nested} => c {calls};")
    return "\n".join(lines) + "\n"


def dropping(pairs):
    """A ring, and nodes that drop one pair each, until calls no longer come back: as many nodes as pairs."""
    system = chain(pairs)
    lines = ["YES 1", "ranks 0", f"pairs {pairs}"]
    for first in range(pairs):
        lines.append("subterm")
        lines += [f"arg f{i} 1" for i in marked_from(first, pairs)]
        lines.append(f"drop {first}")
    return system, "\n".join(lines + ["done", "end"]) + "\n"


def marked_from(first, pairs):
    """The symbols of the pairs of a ring from that number on."""
    return sorted({i for pair in range(first, pairs) for i in (pair, (pair + 1) % pairs)})


def all_at_once(pairs):
    """A ring, and one node that drops all its pairs."""
    system = chain(pairs)
    lines = ["YES 1", "ranks 0", f"pairs {pairs}", "subterm"]
    lines += [f"arg f{i} 1" for i in range(pairs)]
    lines.append("drop " + " ".join(str(i) for i in range(pairs)))
    return system, "\n".join(lines + ["done", "end"]) + "\n"


def long_drop(numbers):
    """A drop list that is far longer than the set."""
    system = chain(1000)
    lines = ["YES 1", "ranks 0", "pairs 1000", "subterm"] + [f"arg f{i} 1" for i in range(1000)]
    lines.append("drop " + " ".join(str(i % 1000) for i in range(numbers)))
    return system, "\n".join(lines + ["done", "end"]) + "\n"


def long_blocks(numbers):
    """Blocks that list far more numbers than the set has, the least misplaced one last of all."""
    system = chain(1000)
    lines = ["YES 1", "ranks 0", "pairs 1000", "blocks 2"]
    lines.append("block " + " ".join(str(i) for i in range(500)))
    rest = [500 + i % 500 for i in range(numbers)]
    lines.append("block " + " ".join(str(i) for i in rest))
    return system, "\n".join(lines + ["alone", "alone", "end"]) + "\n"


def nested_blocks(pairs):
    """Pairs of one head that clash at their last leaf, taken apart one at a time: each two are asked about once."""

    def call(leaf):
        term = leaf
        for _ in range(35):
            term = f"t a ({term})"
        return f"f ({term})"

    lines = ["sort o;"] + [f"fun {name} : o;" for name in "abcd"] + ["fun t : o -> o -> o;", "fun f : o -> o;"]
    lines += [f"rule {{}} {call('b')} => t ({call('c')}) ({call('d')});"] * (pairs // 2)
    nodes = ["YES 1", "ranks 0", f"pairs {pairs}"]
    for first in range(pairs - 1):
        rest = " ".join(str(pair) for pair in range(first + 1, pairs))
        nodes += ["blocks 2", f"block {first}", f"block {rest}", "alone"]
    return "\n".join(lines) + "\n", "\n".join(nodes + ["alone", "end"]) + "\n"


def wide_leaf(steps):
    """A loop at the last leaf of a balanced tree of size 16,381."""
    system = "sort o;\nfun a : o;\nfun b : o;\nfun d : o -> o -> o;\nrule {} a => b;\nrule {} b => a;\n"
    term = "a"
    for _ in range(12):
        term = f"(d {term} {term})"
    path = "/" + "1" * 12
    lines = ["NO 1", f"term {term}"] + [f"step 0 {path}", f"step 1 {path}"] * (steps // 2) + ["at /", "end"]
    return system, "\n".join(lines) + "\n"


IDENTITY = "\n".join(["sort nat;", "fun s : nat -> nat;", "fun i : nat -> nat;", "fun t : nat -> nat;",
                      "rule {X:nat} i X => X;", "rule {X:nat} t (s X) => t (i X);"]) + "\n"


def identity_node(s, i, t, mark, rules, pair):
    """A certificate for IDENTITY with one node of interpretations."""
    return "\n".join(["YES 1", "ranks 0", "pairs 2", "blocks 2", "block 0", "block 1", "poly", f"fun s {s}", f"fun i {i}", f"fun t {t}",
                      f"mark t {mark}", *rules, pair, "drop 0", "done", "alone", "end"]) + "\n"


def many_monomials(count):
    """A sum of powers of about that weight, put for a variable and compared with itself."""
    powers = 1
    while (powers + 1) * (powers + 4) // 2 <= count:
        powers += 1
    value = "+".join("1" + "*y0" * k for k in range(1, powers + 1))
    moves = " ".join(f"{k + 1}>{k}:1" for k in range(powers))
    return IDENTITY, identity_node(f"1+{value}", value, "0", "1*y0", ["rule 0>0:1", "rule"], f"pair {moves}")


def many_factors(count):
    """One monomial with that many factors, evaluated."""
    return IDENTITY, identity_node("1" + "*y0" * count, "1*y0", "0", "1*y0", ["rule 0>0:1", "rule"], "pair 1>0:1")


def behind_a_sum(count):
    """A sum that is put for the first of that many factors: a product of two monomials, to which single ones come."""
    system = "\n".join(["sort nat;", "fun s : nat -> nat;", "fun g : nat -> nat -> nat;", "fun t : nat -> nat;",
                        "rule {X:nat,Y:nat} g (s X) Y => X;", "rule {X:nat} t (s X) => t X;"]) + "\n"
    return system, "\n".join(["YES 1", "ranks 0", "pairs 1", "poly", "fun s 1+1*y0", "fun g 1*y0" + "*y1" * (count - 1), "fun t 1*y0", "mark t 1*y0",
                              "rule", "rule 1>0:1", "pair 1>0:1", "drop 0", "done", "end"]) + "\n"


def powers(count):
    """That many rules whose left side is a sum of three monomials to the power 40: a product of a sum of 861 monomials."""
    lines = ["sort nat;", "fun s : nat -> nat;", "fun p : nat -> nat -> nat;", "fun m : nat -> nat;", "fun t : nat -> nat;", "rule {X:nat} t (s X) => t X;"]
    lines += ["rule {X:nat,Y:nat} m (p X (p Y Y)) => X;"] * count
    certificate = ["YES 1", "ranks 0", "pairs 1", "poly", "fun s 1+1*y0", "fun p 1+1*y0+1*y1", "fun m 1" + "*y0" * 40, "fun t 1*y0", "mark t 1*y0",
                   *["rule 1>0:1"] * (count + 1), "pair 1>0:1", "drop 0", "done", "end"]
    return "\n".join(lines) + "\n", "\n".join(certificate) + "\n"


def heavy_product(count):
    """A product of factors of many factors each, which stops at the limit."""
    return IDENTITY, identity_node("1" + "*y0" * count, "1*y0", "0", "1" + "*y0" * count, ["rule 0>0:1", "rule"], "pair 1>0:1")


def many_moves(count):
    """A list of moves for one pair, which take all of a great coefficient, and one that is no move at its end."""
    moves = " ".join(["1>0:1"] * (count - 1) + ["0>0:1"])
    return IDENTITY, identity_node(f"1+{count}*y0", "1*y0", "0", "1*y0", ["rule 0>0:1", "rule"], f"pair {moves}")


def order_certificate(funs, rules, precedences, inferences):
    """A certificate with one `order` node for a system of one sort, whose last rule is `h (s X) => h X` and alone has a pair."""
    lines = ["YES 2", "ranks 0", "pairs 1", "order"]
    for name, arity in funs:
        kept = "".join(f" {k}" for k in range(1, arity + 1))
        lines.append(f"fun {name} keep {precedences.get(name, 0)}{kept}")
    lines.append("mark h keep 0 1")
    lines += [f"rule {inference}" for inference in inferences] + ["rule x1(s1(=),s1(s1(=)))"]
    lines += ["pair x1(s1(=),s1(s1(=)))", "drop 0", "done", "end"]
    declared = [f"fun {name} : {'o -> ' * arity}o;" for name, arity in funs]
    system = ["sort o;"] + declared + rules + ["rule {X:o} h (s X) => h X;"]
    return "\n".join(system) + "\n", "\n".join(lines) + "\n"


def order_rules(count):
    """So many rules whose right sides have 450 variables, each below three symbols on the left: 8 KB of inferences a rule."""
    funs = [("w", 30), ("v", 15), ("s", 1), ("h", 1)] + [(f"g{i}", 1) for i in range(count)]
    side = "v" + (" (w" + " X" * 30 + ")") * 15
    rules = [f"rule {{X:o}} g{i} (s (s (s X))) => {side};" for i in range(count)]
    group = "p(" + ",".join(["s1(s1(s1(s1(=))))"] * 30) + ")"
    inference = "p(" + ",".join([group] * 15) + ")"
    return order_certificate(funs, rules, {name: 1 for name, _ in funs[4:]}, [inference] * count)


def order_entries(height):
    """One rule whose right side has 27,000 variables and a size of some 57,000, each below so many symbols on the left."""
    funs = [("w", 30), ("s", 1), ("h", 1), ("g", 1)]
    side, inference = "X", "s1(" * (height + 1) + "=" + ")" * (height + 1)
    for _ in range(3):
        side = "(w" + f" {side}" * 30 + ")"
        inference = "p(" + ",".join([inference] * 30) + ")"
    left = "(s " * height + "X" + ")" * height
    return order_certificate(funs, [f"rule {{X:o}} g {left} => {side};"], {"g": 1}, [inference])


def rule_chain(count):
    """A chain of rules, all covered in each node; one node of interpretations drops the one pair that may follow itself."""
    names = [f"f{k}" for k in range(count)]
    lines = ["sort nat;", "fun s : nat -> nat;", *[f"fun {name} : nat -> nat;" for name in names]]
    lines.append("rule {X:nat} f0 (s X) => f0 X;")
    for k in range(1, count):
        lines.append(f"rule {{X:nat}} f{k} (s X) => f{k - 1} (f{k} X);")
    pairs = 2 * count - 1
    marks = [f"mark {name} 1*y0" for name in names]
    funs = ["fun s 1+1*y0", *[f"fun {name} 1*y0" for name in names]]
    # pair 0 is that of f0; then for each k a call of f(k - 1) and one of f(k)
    certificate = ["YES 1", "ranks 0", f"pairs {pairs}", "poly", *funs, *marks, *["rule 1>0:1"] * count, *["pair 1>0:1"] * pairs,
                   "drop " + " ".join(str(k) for k in range(pairs)), "done", "end"]
    return "\n".join(lines) + "\n", "\n".join(certificate) + "\n"


def wide_ring(symbols):
    """A ring of symbols with four arguments, of which the last one alone gets smaller: one projection of 4 to that power drops a pair."""
    lines = ["sort o;", "fun s : o -> o;", *[f"fun f{i} : o -> o -> o -> o -> o;" for i in range(symbols)]]
    for i in range(symbols):
        lines.append(f"rule {{X:o,Y:o,Z:o,W:o}} f{i} X Y Z (s W) => f{(i + 1) % symbols} (s X) (s Y) (s Z) W;")
    return "\n".join(lines) + "\n"


def calls_within(symbols):
    """Each symbol calls itself and, around that, the one before: as many components as symbols, of one pair each."""
    return rule_chain(symbols)[0]


def one_by_one(symbols):
    """Each symbol calls the next and the one before. Of what is left one projection drops a pair, and only that of the first symbol:
    so the whole falls apart one pair at a time, and each set but the first is what the one before leaves. The calls of e stand alone."""
    lines = ["sort o;", "fun s : o -> o;", "fun e : o -> o;", "fun d : o -> o -> o;", *[f"fun f{i} : o -> o -> o;" for i in range(symbols)]]
    lines.append("rule {X:o} e X => X;")
    lines.append("rule {X:o} f0 X (s X) => f1 X (e X);")
    for i in range(1, symbols - 1):
        lines.append(f"rule {{X:o}} f{i} X (s X) => d (f{i + 1} X (e X)) (f{i - 1} X X);")
    lines.append(f"rule {{X:o}} f{symbols - 1} X (s X) => f{symbols - 2} X X;")
    return "\n".join(lines) + "\n"


def round_by_identities(symbols):
    """A ring of symbols, each of which calls the next one on what an identity gives: two rules a symbol, and no projection."""
    funs = "".join(f"fun f{i} : nat -> nat;\nfun i{i} : nat -> nat;\n" for i in range(symbols))
    rules = "".join(
        f"rule {{X:nat}} i{i} X => X;\nrule {{X:nat}} f{i} (s X) => f{(i + 1) % symbols} (i{i} X);\n" for i in range(symbols)
    )
    return f"sort nat;\nfun s : nat -> nat;\n{funs}{rules}"


def round_in_vain(symbols):
    """The same ring where no argument gets smaller: nothing lets a pair go, and an interpretation is looked for in vain."""
    funs = "".join(f"fun f{i} : nat -> nat;\nfun i{i} : nat -> nat;\n" for i in range(symbols))
    rules = "".join(
        f"rule {{X:nat}} i{i} X => X;\nrule {{X:nat}} f{i} X => f{(i + 1) % symbols} (i{i} X);\n" for i in range(symbols)
    )
    return f"sort nat;\n{funs}{rules}"


def many_terms(places):
    """A constant that becomes a term of size 3 a place, each place with a step of its own; beside it a pair that nothing lets go."""
    term = "a"
    for _ in range(places):
        term = f"(p a {term})"
    return (
        "sort o;\nfun zero : o;\nfun one : o;\nfun f : o -> o -> o -> o;\nfun a : o;\nfun b : o;\nfun p : o -> o -> o;\nfun c : o;\n"
        f"rule {{X:o}} f zero one X => f X X X;\nrule {{}} a => b;\nrule {{}} c => {term};\n"
    )


def make_apart(folder, maker, count):
    """Writes the inputs in a process of its own, so that this one stays small, and gives the file that counts: a program's
    greatest memory is never seen below that of the process that starts it."""
    child = os.fork()
    if child == 0:
        made = maker(count)
        (folder / "certificate").unlink(missing_ok=True)
        if isinstance(made, tuple):
            (folder / "certificate").write_text(made[1])
            made = made[0]
        (folder / "system").write_text(made)
        os._exit(0)
    os.waitpid(child, 0)
    certificate = folder / "certificate"
    return certificate if certificate.exists() else folder / "system"


def hash_seconds(file):
    """Least seconds of three runs of `sha256sum` on the same bytes, to compare with."""
    best = None
    for _ in range(3):
        began = time.perf_counter()
        subprocess.run(["sha256sum", str(file)], stdout=subprocess.DEVNULL, check=True)
        seconds = time.perf_counter() - began
        best = seconds if best is None else min(best, seconds)
    return best


def run(program, words, folder):
    """Least seconds and greatest megabytes of three runs, with the first line of the output."""
    best, most, first = None, 0, ""
    for _ in range(3):
        out = os.open(folder / "out", os.O_CREAT | os.O_TRUNC | os.O_WRONLY)
        began = time.perf_counter()
        child = os.posix_spawn(program, [str(program)] + words, os.environ,
                               file_actions=[(os.POSIX_SPAWN_DUP2, out, 1)])
        _, _, usage = os.wait4(child, 0)
        seconds = time.perf_counter() - began
        os.close(out)
        best = seconds if best is None else min(best, seconds)
        most = max(most, usage.ru_maxrss / 1024)
    with open(folder / "out", "rb") as written:
        first = written.readline().decode("ascii", "replace").strip()
    return best, most, first[:40]


def main():
    parser = argparse.ArgumentParser(description=__doc__)
    parser.add_argument("--program", default=str(PROGRAM))
    parser.add_argument("--only", default="")
    given = parser.parse_args()
    cases = []
    for symbols in (125, 250, 500, 1000):
        cases.append(("show many-rules", f"{symbols} rules", many_rules, symbols))
    for rules in (40, 80, 160, 320):
        cases.append(("show deep-sides", f"{rules} rules", deep_sides, rules))
    for size in (131072, 262144, 524288, 1048000):
        cases.append(("show comments", f"{size} bytes", comments, size))
    for steps in (100000, 200000, 400000, 900000):
        cases.append(("check constants", f"{steps} steps", constants_loop, steps))
    for steps in (20000, 40000, 80000):
        cases.append(("check size-50", f"{steps} steps", sized_loop, steps))
    for steps in (1000, 100000, 300000):
        cases.append(("check leaf", f"{steps} steps", wide_leaf, steps))
    for steps in (100000, 200000, 400000):
        cases.append(("check binder", f"{steps} steps", binder_loop, steps))
    for steps in (2000, 4000, 8192):
        cases.append(("reduce leaves", f"{steps} steps", leaves_from_the_left, steps))
    for pairs in (100, 200, 400):
        cases.append(("check nodes", f"{pairs} nodes", dropping, pairs))
    for pairs in (250, 500, 1000):
        cases.append(("check one node", f"{pairs} pairs", all_at_once, pairs))
    for calls in (250, 500, 1000):
        cases.append(("check large-left", f"{calls} pairs", drop_large_left, calls))
    for numbers in (500000, 1000000, 2000000):
        cases.append(("check drop list", f"{numbers} numbers", long_drop, numbers))
    for numbers in (500000, 1000000, 2000000):
        cases.append(("check blocks", f"{numbers} numbers", long_blocks, numbers))
    for pairs in (424, 850, 1700):
        cases.append(("check nested", f"{pairs} pairs", nested_blocks, pairs))
    for count in (15000, 30000, 60000):
        cases.append(("poly factors", f"{count} factors", many_factors, count))
    for count in (15000, 30000, 60000):
        cases.append(("poly monomials", f"weight {count}", many_monomials, count))
    for count in (2000, 8000, 30000):
        cases.append(("poly behind a sum", f"{count} factors", behind_a_sum, count))
    for count in (10, 20, 40):
        cases.append(("poly powers", f"{count} rules", powers, count))
    cases.append(("poly product", "300 x 300", heavy_product, 300))
    for count in (250000, 500000, 1000000):
        cases.append(("poly moves", f"{count} moves", many_moves, count))
    for count in (25, 50, 100):
        cases.append(("poly rules", f"{count} rules", rule_chain, count))
    for count in (250, 500, 1000):
        cases.append(("order rules", f"{count} rules", order_rules, count))
    for height in (9, 18, 36):
        cases.append(("order entries", f"{27000 * (height + 2)} entries", order_entries, height))
    for symbols in (125, 250, 500, 1000):
        cases.append(("show chain", f"{symbols} pairs", chain, symbols))
    for symbols in (125, 250, 500, 1000):
        cases.append(("components chain", f"{symbols} pairs", chain, symbols))
    for calls in (250, 500, 1000):
        cases.append(("show large-left", f"{calls} pairs", large_left, calls))
    cases.append(("show most-pairs", "4096 pairs", most_pairs, 4096))
    cases.append(("components most", "4096 pairs", most_pairs, 4096))
    for symbols in (30, 300, 1000):
        cases.append(("prove ring", f"{symbols} rules", wide_ring, symbols))
    for symbols in (50, 100, 200):
        cases.append(("prove chain", f"{symbols} symbols", calls_within, symbols))
    for symbols in (255, 510, 1020):
        cases.append(("prove one by one", f"{3 * symbols - 3} pairs", one_by_one, symbols))
    cases.append(("prove most-pairs", "4096 pairs", most_pairs, 4096))
    for calls in (250, 500, 1000):
        cases.append(("prove large-knot", f"{2 * calls} pairs", large_knot, calls))
    for symbols in (25, 50, 100, 200):
        cases.append(("prove identities", f"{2 * symbols} rules", round_by_identities, symbols))
    for symbols in (25, 50, 100, 200):
        cases.append(("prove in vain", f"{2 * symbols} rules", round_in_vain, symbols))
    for terms in (2500, 5000, 10000):
        cases.append(("prove many terms", f"{terms} terms", lambda _count: many_terms(32), terms))
    for example in sorted((HERE.parent / "examples").glob("*.afs")):
        cases.append(("prove example", example.stem, lambda _count, file=example: file.read_text(), 0))
    for system in sorted((HERE / "systems").glob("*.afs")):
        cases.append(("prove system", system.stem, lambda _count, file=system: file.read_text(), 0))
    with tempfile.TemporaryDirectory() as name:
        folder = pathlib.Path(name)
        for what, size, maker, count in cases:
            if given.only not in what:
                continue
            written = make_apart(folder, maker, count)
            program, words = given.program, [what.split()[0], str(folder / "system")]
            if what == "prove many terms":
                words += ["--depth", "100", "--visited", str(count)]
            if what.startswith("components"):
                program, words = str(COMPONENTS), ["components", str(folder / "system")]
            if what.startswith("reduce"):
                words += [written.read_text(), "--steps", str(count)]
            elif written.name == "certificate":
                words = ["check", str(folder / "system"), str(written)]
            seconds, megabytes, first = run(program, words, folder)
            hashed = hash_seconds(written)
            length = written.stat().st_size
            print(f"{what:16} {size:>15} {length:>9} bytes {seconds:8.3f} s {seconds / hashed:6.1f} times sha256sum {megabytes:7.1f} MB  {first}")


if __name__ == "__main__":
    main()
