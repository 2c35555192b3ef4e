#!/usr/bin/env python3
"""Times `proofgame play` on game texts of 64 KiB to 1 MiB, and prints each time and its ratio to the half text's.

A ratio near 2 says that the time grows in line with the length. Build the program first (`./proofgame --build`), then run
`bench/reading.py`. It prints only; it judges nothing.
"""
import os
import subprocess
import sys
import tempfile
import time

TOP = os.path.dirname(os.path.dirname(os.path.realpath(__file__)))
PROGRAM = os.path.join(TOP, "crates/proofgame/out/proofgame")
GAME = 'World "W"\nLevel 1\nStatement : succ 0 = succ 0 := by rfl\nNewTactic rfl\n'
RUNS = 7


def filled(piece, size):
    """The game with this piece before it again and again, up to the size."""
    room = size - len(GAME.encode())
    count = room // len(piece.encode())
    rest = room - count * len(piece.encode())
    return piece * count + "\n" * rest + GAME


KINDS = {
    "blanks": lambda size: filled("  \n", size),
    "comments": lambda size: filled("-- a line of words that is passed over\n", size),
    "nested comments": lambda size: filled("/- a /- b -/ c -/\n", size),
    "one comment": lambda size: "/-" + filled("x", size - 5).replace(GAME, "") + "-/\n" + GAME,
    "names (refused)": lambda size: filled("zero add succ ", size),
    "signs (refused)": lambda size: filled("∀ ∃ → ", size),
    "one long name (refused)": lambda size: filled("x", size),
    "open text (refused)": lambda size: '"' + filled("x", size - 1).replace('"', " "),
    "open comment (refused)": lambda size: "/-" + filled("/-", size - 2),
}


def best(path):
    """The least time of a run, in milliseconds, with the run's output."""
    least = None
    for _ in range(RUNS):
        begun = time.perf_counter()
        ran = subprocess.run([PROGRAM, "play", path], input=b"rfl", capture_output=True)
        spent = (time.perf_counter() - begun) * 1000
        least = spent if least is None else min(least, spent)
    return least, ran.stdout.decode().strip(), ran.returncode


def main():
    if not os.path.isfile(PROGRAM):
        sys.exit(f"{PROGRAM} is not built: run ./proofgame --build first")
    with tempfile.TemporaryDirectory() as folder:
        path = os.path.join(folder, "game")
        with open(os.path.join(TOP, "games/first.game"), "rb") as shipped, open(path, "wb") as out:
            out.write(shipped.read())
        spent, said, status = best(path)
        print(f"shipped game: {spent:.1f} ms, {said}, status {status}")
        for kind, text in KINDS.items():
            before = None
            for power in range(16, 21):
                with open(path, "w", encoding="utf-8") as out:
                    out.write(text(2**power))
                spent, said, status = best(path)
                ratio = f"  ratio {spent / before:.2f}" if before else ""
                print(f"{kind:24} {2**power // 1024:5} KiB {spent:8.1f} ms  {said}, status {status}{ratio}")
                before = spent


if __name__ == "__main__":
    main()
