#!/usr/bin/env python3
"""Holds the pages to the programs: runs the lines of their examples and compares what is printed.

In README.md and docs/*.md an example is an indented block whose lines begin with `$ `: a command, run at the top of the
checkout, and below it what it prints. A table headed `Script`, `Place`, `Expected there` and `Note` is run too, each
script as a row of `pg_rows`. A game that a stored run plays is the shipped one, and
each part that `bench/parts.py` times stands in the stored rows. In docs/ROWS.md an example is a row with its answer. A block that begins
with `statement` is a run by `pg_plays`, where `+` is declared.

The gate runs this once everything is proved and built. It prints each difference, and then how many examples hold.
"""
import glob
import os
import re
import subprocess
import sys

TOP = os.path.dirname(os.path.dirname(os.path.realpath(__file__)))
ROWS = f"{TOP}/crates/pg_rows/out/pg_rows"
PLAYS = f"{TOP}/crates/pg_plays/out/pg_plays"
PROGRAM = f"{TOP}/crates/proofgame/out/proofgame"
ADDITION = "function + add_zero add_succ r a d : a ; succ r"


def examples(text):
    """Yields (command, output) for each command of the indented blocks of a page."""
    for block in re.findall(r"(?m)^((?:    .*\n)+)", text + "\n"):
        lines = [it[4:] for it in block.split("\n")[:-1]]
        if not lines[0].startswith("$ "):
            continue
        command, printed = None, []
        for line in lines:
            if line.startswith("$ "):
                if command:
                    yield command, printed
                command, printed = line[2:], []
            else:
                printed.append(line)
        yield command, printed


def ran(command):
    """What a command prints at the top of the checkout."""
    done = subprocess.run(["bash", "-c", command], cwd=TOP, stdin=subprocess.DEVNULL, capture_output=True, text=True, check=False)
    return (done.stdout + done.stderr).split("\n")[:-1]


def faults(text):
    """Yields (layer, script, place, what is expected) for each line of the tables of faults of a page."""
    for table in re.findall(r"(?m)^\| Script \| Place \| Expected there \| Note \|\n\|[-|]*\|\n((?:\|.*\|\n)+)", text):
        for line in table.split("\n")[:-1]:
            script, place, wanted, note = re.match(r"\| `(.*?)`(?: [^|]*)? \| (.*?) \| (.*) \| ?(.*?) ?\|$", line).groups()
            yield "sample" if note == "in a sample" else "script", script, int(re.match(r"\d+", place)[0]), wanted


def told(row):
    """The line that `pg_rows` answers to a row."""
    done = subprocess.run([ROWS], input=f"{row}\n", capture_output=True, text=True, check=False)
    return done.stdout.split("\n")[1].strip()


def differences(page, text):
    """Yields for each example of a page what is wrong with it, or None."""
    for command, wanted in examples(text):
        got = ran(command)
        yield None if got == wanted else f"{page}: `{command}` prints {got}, and not {wanted}"
    for layer, script, place, wanted in faults(text):
        got = told(f"{layer} {script}")
        is_of_token = wanted == "a token's fault" and not got.startswith("expected")
        is_right = (is_of_token or got.startswith(f"expected {wanted} ")) and re.search(rf"at byte {place}\b", got)
        yield None if is_right else f"{page}: the script `{script}` has `{got}`, and not {wanted} at {place}"


def plays(page, text):
    """Yields for each run in the blocks of a page that begin with `statement` what is wrong with it, or None.

    A script stands further to the right than the statement before it, and what it comes to below it.
    """
    for block in re.findall(r"(?m)^((?:    .*\n)+)", text + "\n"):
        lines = [it[4:] for it in block.split("\n")[:-1]]
        if not lines[0].startswith("statement "):
            continue
        statement, script, wanted = lines[0], [it[4:] for it in lines[1:] if it.startswith("    ")], [it for it in lines[1:] if not it.startswith("    ")]
        rows = "\n".join([ADDITION, statement, "script " + "\\n".join(script)]) + "\n"
        done = subprocess.run([PLAYS], input=rows, capture_output=True, text=True, check=False)
        got = [it[4:] for it in done.stdout.split("\n") if it.startswith("    ")]
        yield None if got == wanted else f"{page}: {statement!r} and {script} come to {got}"


def games():
    """Yields for each shipped game that a stored run plays whether it is that very text."""
    for path in glob.glob(f"{TOP}/crates/*/data/*.game"):
        shipped = f"{TOP}/games/{os.path.basename(path)}"
        if os.path.isfile(shipped):
            with open(path, "rb") as one, open(shipped, "rb") as other:
                yield None if one.read() == other.read() else f"{path} is not the text of {shipped}"


def parts():
    """Yields for the rows of the parts that are timed whether they stand in the stored rows."""
    printed = ran("bench/parts.py --rows")
    with open(f"{TOP}/crates/pg_rows/stdin", encoding="utf-8") as it:
        stored = it.read()
    yield None if "\n".join(printed) in stored else "what bench/parts.py --rows prints is not in crates/pg_rows/stdin"


def rows(text):
    """Yields for each example block of the page on rows what is wrong with it, or None."""
    before, _, plays = text.partition("\n## Plays\n")
    for program, part in ((ROWS, before), (PLAYS, plays)):
        for block in re.findall(r"(?m)^((?:    .*\n)+)", part):
            lines = [it[4:] for it in block.split("\n")[:-1]]
            given = "\n".join(it for it in lines if not it.startswith("    ")) + "\n"
            got = subprocess.run([program], input=given, capture_output=True, text=True, check=False).stdout.split("\n")[:-1]
            yield None if got == lines else f"docs/ROWS.md: {given!r} is answered {got}"


def main():
    for program in (ROWS, PLAYS, PROGRAM):
        if not os.path.isfile(program):
            sys.exit(f"{program} is not built: run `rt ci` first")
        # The gate has just proved these sources; what it had kept of an earlier run is older than a fresh clone.
        os.utime(program)
    found = [*games(), *parts()]
    for page in sorted([f"{TOP}/README.md", *glob.glob(f"{TOP}/docs/*.md")]):
        with open(page, encoding="utf-8") as it:
            text = it.read()
        name = os.path.relpath(page, TOP)
        found += rows(text) if page.endswith("/ROWS.md") else [*differences(name, text), *plays(name, text)]
    wrong = [it for it in found if it]
    for it in wrong:
        print(it)
    print(f"pages: {len(found) - len(wrong)} passed, {len(wrong)} failed")
    return 1 if wrong else 0


if __name__ == "__main__":
    sys.exit(main())
