#!/usr/bin/env python3
"""Lists what the proofs of a crate's functions cost, in seconds: `bench/proof_costs.py CRATE [COUNT]`.

The crate is checked from nothing in one process, over libraries that are built as needed. The check writes a file for
each module that it has gone through, most of which belong to a function; the time between two files is taken to be the
cost of the later one. Run nothing beside it. COUNT is how many functions are listed, 20 by default.
"""
import collections
import os
import re
import subprocess
import sys
import tempfile
import time

TOP = os.path.dirname(os.path.dirname(os.path.realpath(__file__)))


def check_words(name):
    """The folder of the crate, and the words that check it over what nothing has kept."""
    page = subprocess.run(["rt", "doc"], capture_output=True, text=True, check=True).stdout.strip()
    sys.dont_write_bytecode = True
    sys.path.insert(0, f"{os.path.dirname(page)}/bin")
    import rtlib

    crate = rtlib.Crate(f"{TOP}/crates/{name}", TOP, {}, name=None)
    return crate.folder, [rtlib.RATTLE, "check", *crate.words(["--jobs", "1"], keeps=False)]


def owner(module, name):
    """The function or type that a module of the check belongs to, in the form in which the code names it."""
    inside = re.sub(rf"^Rattle-{name}-(proofs|specs)\.", "", module.removesuffix(".oantt").removesuffix(".decls"))
    parts = [it for it in inside.split(".") if it not in ("contracts", "declared")]
    while len(parts) > 1 and re.match(r"[A-Z]", parts[-1]):
        parts.pop()
    return "::".join(parts)


def main():
    if len(sys.argv) not in (2, 3):
        sys.exit("proof_costs.py wants CRATE, and how many functions to list")
    name, count = sys.argv[1], int(sys.argv[2]) if len(sys.argv) == 3 else 20
    subprocess.run(["rt", "check", "--only="], cwd=f"{TOP}/crates/{name}", capture_output=True, check=False)
    folder, words = check_words(name)
    with tempfile.TemporaryDirectory(prefix="proof-costs-") as room:
        began = time.time()
        ran = subprocess.run([*words, "--incremental", room], cwd=folder, capture_output=True, text=True, check=False)
        if ran.returncode:
            sys.exit(f"{name} is not proved:\n{ran.stdout[-2000:]}{ran.stderr[-2000:]}")
        spent = time.time() - began
        made = sorted(
            (os.stat(f"{at}/{it}").st_mtime, it)
            for at, _, names in os.walk(room)
            for it in names
            if it.endswith(".oantt") and it.startswith(f"Rattle-{name}-")
        )
    costs, before = collections.Counter(), began
    for at, module in made:
        costs[owner(module, name)] += at - before
        before = at
    print(f"{name}: {spent:.0f} s in one process, {len(costs)} functions, types and files of lemmas")
    for it, cost in costs.most_common(count):
        print(f"{cost:8.1f}  {it}")


if __name__ == "__main__":
    main()
