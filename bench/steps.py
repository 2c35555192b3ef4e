#!/usr/bin/env python3
"""Times steps on large goals by the rows of `pg_plays` (docs/ROWS.md, "Plays"), and prints each time.

The program runs a script N times in one run and 2N times in another; the difference, by N, is the time of one, and from it the
time of a smaller script on the same statement is taken: so reading the statement, and the start of the program, fall out. The
time of a run is the processor time that it used, and of several runs the least counts.

    PG_PLAYS=PROGRAM bench/steps.py     the program as `rt run` built it in crates/pg_plays, or where else it lies

It prints only; it judges nothing but that each script comes to what it should.
"""
import os
import resource
import subprocess
import sys

TOP = os.path.dirname(os.path.dirname(os.path.realpath(__file__)))
PROGRAM = os.environ.get("PG_PLAYS", os.path.join(TOP, "crates/pg_plays/out/pg_plays"))
RUNS = 5
TIMES = 8
PLUS = "function + add_zero add_succ r a d : a ; succ r"


def summed(first, zeros):
    """A sum of a first term and so many zeros."""
    return first + " + 0" * zeros


def conjunction(pieces):
    return " ∧ ".join(pieces)


# ---- statements: an equation of two sums of ten zeros has 39 nodes, and 25 of them 999


EQUATION = f"{summed('0', 9)} = {summed('0', 9)}"


def one_goal():
    """16 hypotheses of 3,999 nodes each, and a target of 3: 63,987 nodes."""
    hyps = " ".join(f"(h{k} : {conjunction([EQUATION] * 100)})" for k in range(16))
    return f"statement {hyps} : 0 = 0"


def many_goals():
    """A hypothesis of 999 nodes, and a target of 60 equations: 60 goals, in all 60,120 nodes."""
    target = "0 = 0"
    for _ in range(59):
        target = f"({target}) ∧ 0 = 0"
    return f"statement (h : {conjunction([EQUATION] * 25)}) : {target}"


def doubled():
    return "statement (x : ℕ) (h : x = x + x) : x = x"


def matched():
    """A pattern of 99 nodes, which is met last in a subject of 4,055: 38 sums are like it but for their first term."""
    like = [f"{summed('succ 0', 50)} = 0"] * 38
    return f"statement (x : ℕ) (h : {summed('0', 49)} = x) : {conjunction(like + [summed('0', 49) + ' = 0'])}"


# ---- what is timed: a statement, a script with its first line, and the script that is taken from it with its own


PARTS = [
    ("199 symm and rfl on one goal of 63,987 nodes", one_goal(), "{199|symm\\n}rfl", "won", "rfl", "won"),
    ("59 constructor, 81 symm, 60 rfl on 60,120 nodes", many_goals(), "{59|constructor\\n}{81|symm\\n}{60|rfl\\n}", "won", "", "open 1"),
    ("10 rw to 4,095 nodes, and rfl", doubled(), "{10|rw [h]\\n}rfl", "won", "rfl", "won"),
    ("11 rw, of which the last stops at 8,191 nodes", doubled(), "{11|rw [h]\\n}", "stopped 10 0 S11", "rfl", "won"),
    ("rw of a pattern of 99 nodes in 4,055", matched(), "rw [h]", "open 1", "", "open 1"),
]


def spent(statement, script, times, line):
    """The least processor time of a run that does the script so many times, and whether each came to this line."""
    rows = "\n".join(["game", PLUS, statement] + [f"script {script}"] * times) + "\n"
    least = None
    for _ in range(RUNS):
        before = resource.getrusage(resource.RUSAGE_CHILDREN)
        done = subprocess.run([PROGRAM], input=rows.encode(), stdout=subprocess.PIPE, check=True)
        after = resource.getrusage(resource.RUSAGE_CHILDREN)
        time = after.ru_utime + after.ru_stime - before.ru_utime - before.ru_stime
        least = time if least is None else min(least, time)
    lines = done.stdout.decode().splitlines()
    got = [lines[at + 1].strip() for at, row in enumerate(lines) if row == f"script {script}"]
    if got != [line] * times:
        sys.exit(f"bench/steps.py: `{script[:40]}` came to {got[:1]}, not to {line}")
    return least


def one(statement, script, line):
    return (spent(statement, script, 2 * TIMES, line) - spent(statement, script, TIMES, line)) / TIMES


def main():
    for name, statement, script, line, less, less_line in PARTS:
        time = one(statement, script, line)
        base = one(statement, less, less_line)
        print(f"{name}: {1000 * (time - base):.1f} ms (whole script {1000 * time:.1f} ms)")


if __name__ == "__main__":
    main()
