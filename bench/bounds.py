#!/usr/bin/env python3
"""Certified bounds compared with rounds alone, on the families of `families.py`.

    bounds.py VPG_BENCH YARDSTICK [VERTICES [SECONDS [FAMILY..]]]

One line for each family: what the rounds alone of the plain program take for both tables (seconds, rounds of each table, lifts; `more` where SECONDS a table, 5 if left out, were not
enough), and Zielonka's recursion there; then seconds of guess, check and what is left to lift by VPG_BENCH (least of three runs, less that of runs that raise nothing), with the sweeps and the
lifts that were left, both 0 where the bounds settle the tables.
"""
import os
import re
import subprocess
import sys
import tempfile
import time

HERE = os.path.dirname(os.path.abspath(__file__))
FAMILIES = "steps ladder random random2 random7 random12 random20 wide near loops selfloops climb clique pump elevator"


def ran(program, *words):
    start = time.perf_counter()
    out = subprocess.run([program, *map(str, words)], stdout=subprocess.PIPE, check=True).stdout.decode()
    return time.perf_counter() - start, out


def main():
    if len(sys.argv) < 3:
        sys.exit(__doc__)
    program, yardstick = sys.argv[1:3]
    vertices = sys.argv[3] if len(sys.argv) > 3 else "65536"
    seconds = sys.argv[4] if len(sys.argv) > 4 else "5"
    for family in sys.argv[5:] or FAMILIES.split():
        with tempfile.TemporaryDirectory() as folder:
            subprocess.run([sys.executable, f"{HERE}/families.py", family, vertices, folder], check=True)
            game = f"{folder}/game"
            plain = ran(yardstick, game, 1_000_000, "open", seconds)[1].strip()
            nothing = min(ran(program, "settle", game, "rounds", 0)[0] for _ in range(3))
            took, out = min(ran(program, "settle", game, "guesses", 100_000) for _ in range(3))
            word = out.split()
            settled = "settled" if word[1] == "true" else "not settled"
            alone = re.sub(r"^read [0-9.]+ s, ", "", plain)
            print(f"{family} {vertices}: {alone}; with bounds {max(took - nothing, 0):.3f} s, sweeps {word[3]}, lifts {word[5]}, {settled}", flush=True)


if __name__ == "__main__":
    main()
