#!/usr/bin/env python3
"""Lifters compared: rounds of one thread, boards of one seat, and sweeps of 1, 2 and 4 lifters, without hints and with them.

    sweeps.py VPG_BENCH [VERTICES [ROUNDS [FAMILY..]]]

Both tables are raised from zero: first by ROUNDS rounds (200 if left out), then by as many boards that one seat claims and lifts by calls (a sweep of one lifter has no
board), then by as many sweeps without hints, then by sweeps with hints until the tables are settled, or at most ROUNDS / 10 sweeps. One line for each: milliseconds by the clock (the least of five runs, less that of runs that raise nothing), lifts (as many a round or sweep as both
tables have places: take families of which neither table is settled so soon; those of hints are counted in a run of their own), lifts in a microsecond, sweeps, and whether the tables are settled. For plain sweeps
the time is also told as a multiple of the rounds' time.
"""
import os
import subprocess
import sys
import tempfile
import time

HERE = os.path.dirname(os.path.abspath(__file__))
LIFTERS = (1, 2, 4)


def ran(program, *words):
    start = time.perf_counter()
    words = [program, "settle", *map(str, words)]
    out = subprocess.run(words, stdout=subprocess.PIPE, check=True).stdout.decode().split()
    millis = (time.perf_counter() - start) * 1000
    return dict(settled=out[1] == "true", sweeps=int(out[3]), lifts=int(out[5]), sums=(int(out[7]), int(out[8])), millis=millis)


def best(program, game, how, most, lifters=1):
    """The least of five runs, less the least of five runs that raise nothing."""
    nothing = min(ran(program, game, how, 0, lifters)["millis"] for _ in range(5))
    it = min((ran(program, game, how, most, lifters) for _ in range(5)), key=lambda it: it["millis"])
    it["millis"] = max(it["millis"] - nothing, 0.1)
    return it


def tell(name, it, lifts, of=None):
    times = f", {it['millis'] / of:.2f} times the rounds" if of else ""
    ended = "settled" if it["settled"] else "not settled"
    print(f"  {name:18} {it['millis']:9.1f} ms {lifts:11} lifts {lifts / it['millis'] / 1000:6.1f} a microsecond, {it['sweeps']} sweeps, {ended}{times}", flush=True)


def main():
    if len(sys.argv) < 2:
        sys.exit(__doc__)
    program = sys.argv[1]
    vertices = sys.argv[2] if len(sys.argv) > 2 else "65536"
    rounds = int(sys.argv[3]) if len(sys.argv) > 3 else 200
    for family in sys.argv[4:] or ["ladder", "random7", "random20", "near"]:
        with tempfile.TemporaryDirectory() as folder:
            subprocess.run([sys.executable, f"{HERE}/families.py", family, vertices, folder], check=True)
            game = f"{folder}/game"
            with open(game) as text:
                places = 2 * (sum(1 for _ in text) - 1)
            print(f"{family}, {places // 2} vertices", flush=True)
            alone = best(program, game, "rounds", rounds)
            tell("rounds", alone, rounds * places)
            it = best(program, game, "board", rounds)
            tell("boards of one seat", it, it["sweeps"] * places, alone["millis"])
            for lifters in LIFTERS:
                it = best(program, game, "sweeps", rounds, lifters)
                tell(f"{lifters} plain", it, it["sweeps"] * places, alone["millis"])
            for lifters in LIFTERS:
                it = best(program, game, "hints", max(1, rounds // 10), lifters)
                tell(f"{lifters} with hints", it, ran(program, game, "counted", max(1, rounds // 10), lifters)["lifts"])


if __name__ == "__main__":
    main()
