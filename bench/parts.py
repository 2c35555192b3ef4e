#!/usr/bin/env python3
"""Times the parts of the product whose speed matters, by the rows of `pg_rows` (docs/ROWS.md), and prints each time.

A part is a row of a size, behind the rows that it needs. The program does it N times in one run and 2N times in another; the
difference, by N, is the time of one: the start of the program and the reading of its rows fall out. A part that takes
no time to speak of is done a million times at most; a loop whose turns are all the same work may be taken away by the
compiler. The time of a run is the processor time that it used, and of several runs the least counts. A ratio is that to
the size on the line above, the half of it: near 2 says that the time grows in line with the size. The stack is the least
limit, as `ulimit -s` sets it, in steps of 16 KiB, under which the program ends well.

    bench/parts.py             all parts, once the program is built (`cd crates/pg_rows && rt run`)
    bench/parts.py WORD ..     the parts whose names begin with one of the words
    bench/parts.py --rows      the rows of each part at a small size, which stand in the stored run

It prints only; it judges nothing.
"""
import os
import resource
import subprocess
import sys

TOP = os.path.dirname(os.path.dirname(os.path.realpath(__file__)))
PROGRAM = os.path.join(TOP, "crates/pg_rows/out/pg_rows")
RUNS = 5
LONG_ENOUGH = 0.1
MOST_TIMES = 2**20
MOST_STACK = 65536
MOVES = "rfl rw induction intro exact apply cases left right constructor use symm exfalso have revert by_cases".split()


# ---- courses: as many worlds as levels in each; a world needs the one before it and the one of half its number


def course(size):
    worlds = ["W0:%d" % size] + ["W%d:%d>W%d,W%d" % (w, size, w - 1, w // 2) for w in range(1, size)]
    rows = ["worlds " + " ".join(worlds)]
    for number in range(size * size):
        own = number * 2
        sampled = "" if number % 2 == 0 else " unsampled"
        rows.append(f"level W{number // size} own {own} new {MOVES[number % 16]} {own + 1} disabled cases {own // 2}{sampled}")
    return rows + ["course bench"]


def on_course(row):
    def rows(size):
        levels = size * size
        return course(size), row.format(last=levels - 1, won=" ".join(map(str, range(levels))))

    return rows


# ---- scripts of so many bytes


def filled(head, piece, tail, size):
    """A head, a piece as often as there is room for it in so many bytes, blanks, and a tail."""
    text = head + piece * max(0, (size - len((head + tail).encode())) // len(piece.encode()))
    return text + " " * max(0, size - len((text + tail).encode())) + tail


def sample(made):
    return lambda size: ([], "sample " + made(size).replace("\n", "\\n"))


def move_line(size):
    return filled("rfl -- ", "x", "\n", size // 200 + 1)


def bullets(size):
    return filled("".join("  " * depth + "· rfl\n" for depth in range(15)) + "-- ", "x", "\n", size // 13 + 1)


SCRIPTS = {
    "expression": lambda size: filled("exact f (x", " + x", ")", size),
    "arguments": lambda size: filled("exact f", " x", "", size),
    "moves": lambda size: filled("", move_line(size), "", size),
    "blocks": lambda size: filled("", bullets(size), "", size),
    "parentheses": lambda size: filled("exact f ", "(" * 100 + "x" + ")" * 100 + " ", "", size),
    "hints": lambda size: filled("", 'Hint (hidden := true) "a hint"\n', "", size),
    "fault": lambda size: filled("", move_line(size), " )", size),
    "unclosed": lambda size: filled("exact f (x", " + x", "", size),
}


# ---- formulas of about so many tokens, over + * f of two arguments and the variable x

GAME = ["game bench", *(f"function bench {f} a,d {f}_zero {f}_succ 0 0" for f in "+*f"), "vars bench x"]


def formula(made):
    return lambda size: (GAME, "formula bench " + made(max(size - 9, 0)))


def quantified(names, uses):
    return "∀" + "".join(f" x{number}" for number in range(names)) + ", x = x" + " + x0" * uses


FORMULAS = {
    "sum": lambda rest: "x = x" + " + x" * (rest // 2),
    "product": lambda rest: "x = x" + " * x" * (rest // 2),
    "and": lambda rest: "x = x" + (" ∧ (x = x" + " ∧ x = x" * 49 + ")") * (rest // 202),
    "names": lambda rest: quantified(rest, 0),
    "same-names": lambda rest: "∀" + " x" * rest + ", x = x",
    "uses": lambda rest: quantified(rest // 3, rest // 3),
    "nested": lambda rest: "x = x" + (" + " + "succ (" * 99 + "x" + ")" * 99) * (rest // 299),
    "application": lambda rest: "x = f (x" + " + x" * (rest // 4) + ") (x" + " + x" * (rest // 4) + ")",
    "arity": lambda rest: "x = f" + " x" * rest,
}


# ---- trees of so many nodes that are printed


def printed(made):
    return lambda size: (GAME, "print bench " + made(size))


def conjunction(leaf, height):
    for _ in range(1, height):
        leaf = f"&({leaf},{leaf})"
    return leaf


TREES = {
    "and": lambda size: conjunction("=(v0,v0)", max(size // 4, 1).bit_length()),
    "same-names": lambda size: "!x(" * min(size, 590) + "=(v0,b0)" + ")" * min(size, 590),
}


# ---- proofs of a height, with equations of so many nodes


def numeral(nodes):
    return "s(" * (nodes - 1) + "0" + ")" * (nodes - 1)


def tree_of_pairs(nodes, height):
    """A full binary tree for a conjunction of equations."""
    side = numeral(nodes // 2)
    steps = ["refl"]
    for _ in range(1, height):
        steps = steps + steps + ["andi"]
    return conjunction(f"=({side},{side})", height), steps


def tree_of_equations(nodes, height):
    """A full binary tree for one equation, put together of itself."""
    side = numeral(nodes // 2)
    steps = ["refl"]
    for _ in range(1, height):
        steps = steps + steps + [f"repl =({side},b0) {side} {side}"]
    return f"=({side},{side})", steps


def chain(nodes, height):
    """A chain for an equation, of links two nodes high."""
    side = numeral(nodes // 2)
    goal = f"=({side},{side})"
    return goal, ["refl"] + ["refl", "andi", f"andl {goal}"] * (height // 2)


def check(made, nodes):
    def rows(height):
        goal, steps = made(nodes, height)
        return ["game bench"], f"check bench 0 ⊢ {goal} : {' ; '.join(steps)}"

    return rows


# ---- the parts: what makes the rows of a size, a small size, and the sizes that are timed

BYTES, TOKENS, WORLDS, HEIGHTS, CHAINS = (4096, 8192, 16384), (2048, 4096, 8192), (16, 32, 64), (13, 14), (2048, 4096, 8192)
PARTS = {
    "course:open": (on_course("missing bench {last} all"), 3, WORLDS),
    "course:all-open": (on_course("open bench all"), 3, WORLDS),
    "course:available": (on_course("inventory bench {last} {won}"), 3, WORLDS),
    "course:least": (on_course("least bench {last}"), 3, WORLDS),
    **{f"script:{kind}": (sample(made), 512, BYTES) for kind, made in SCRIPTS.items()},
    **{f"read:{kind}": (formula(made), 320, TOKENS) for kind, made in FORMULAS.items()},
    **{f"print:{kind}": (printed(made), 64, (128, 256, 512)) for kind, made in TREES.items()},
    **{f"check:and-{nodes}": (check(tree_of_pairs, nodes), 4, HEIGHTS) for nodes in (3, 11, 101)},
    **{f"check:equal-{nodes}": (check(tree_of_equations, nodes), 4, HEIGHTS) for nodes in (3, 11, 101)},
    **{f"check:chain-{nodes}": (check(chain, nodes), 9, CHAINS) for nodes in (3, 11)},
}


def used():
    """The processor time of the runs so far, in seconds."""
    usage = resource.getrusage(resource.RUSAGE_CHILDREN)
    return usage.ru_utime + usage.ru_stime


def ran(rows, times, stack=MOST_STACK):
    """The processor time of a run in seconds, and how it ended. The stack's limit is in KiB."""

    def limit():
        resource.setrlimit(resource.RLIMIT_STACK, (stack * 1024, stack * 1024))

    before, row = rows
    text = "\n".join([*before, f"times {times}", row, ""])
    begun = used()
    done = subprocess.run([PROGRAM], input=text.encode(), capture_output=True, preexec_fn=limit, check=False)
    return used() - begun, done


def cost(rows, name):
    """The time of a part done once, in milliseconds."""
    times = 1
    spent, done = ran(rows, times)
    while spent < LONG_ENOUGH and done.returncode == 0 and times < MOST_TIMES:
        times *= 2
        spent, done = ran(rows, times)
    if done.returncode != 0:
        sys.exit(f"{name} ended with {done.returncode}: {done.stderr.decode()}")
    least = [min(ran(rows, n)[0] for _ in range(RUNS)) for n in (times, 2 * times)]
    return max(least[1] - least[0], 0) / times * 1000


def stack(rows):
    """The least limit of the stack under which the program ends well, in KiB."""
    low, high = 0, MOST_STACK
    if ran(rows, 1, high)[1].returncode != 0:
        return None
    while high - low > 16:
        middle = (low + high) // 32 * 16
        if ran(rows, 1, middle)[1].returncode == 0:
            high = middle
        else:
            low = middle
    return high


def told(rows):
    """The last line that the program answers to a part, shortened."""
    line = ran(rows, 1)[1].stdout.decode().rstrip("\n").split("\n")[-1].strip()
    return line if len(line) <= 40 else line[:37] + ".."


def report(name, made, sizes):
    """Prints a line for each size of a part."""
    before = None
    for size in sizes:
        rows = made(size)
        spent = cost(rows, name)
        ratio = f"  ratio {spent / before:5.2f}" if before else ""
        needed = f"  stack {stack(rows) or f'over {MOST_STACK}'} KiB" if size == sizes[-1] else ""
        print(f"{name:20} {size:6} {spent:10.4f} ms  {told(rows):40}{ratio}{needed}", flush=True)
        before = spent


def main():
    words = sys.argv[1:] or [""]
    if words == ["--rows"]:
        for name, (made, small, _) in PARTS.items():
            before, row = made(small)
            print("\n".join([f"# {name}", *before, row]))
        return
    if not os.path.isfile(PROGRAM):
        sys.exit(f"{PROGRAM} is not built: run `cd crates/pg_rows && rt run` first")
    for name, (made, _, sizes) in PARTS.items():
        if any(name.startswith(word) for word in words):
            report(name, made, sizes)


if __name__ == "__main__":
    main()
