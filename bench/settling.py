#!/usr/bin/env python3
"""Settling by the program itself, beside plain Zielonka's recursion: all families, and hard games.

    settling.py ZIELONKA VERTICES RUNS PROGRAM.. [-- NAME..]   # the games of these names alone, where some are given

ZIELONKA is `zielonka.rs`, compiled; a PROGRAM is vpgdesk or vpg_bench, as built, and several are compared. One line for
each game, in milliseconds of processor time, each the least of RUNS runs, in turns: the recursion on both games (`more`
where two seconds a game were not enough), and for each PROGRAM

  vpgdesk    `settle` of a page of zeros, and how many times the recursion that is; of a family also `settle` again
             after `exclude f`, and its share of the first. Reading is taken off: each figure is that of a run less that
             of one without the last line. It tells the greatest peak memory, too, in megabytes. `unsettled N` stands
             where a line answered so.
  vpg_bench  both tables raised from zeros by certified bounds, less a run that raises nothing, and the same as times
             the recursion; `open` where they are not settled then. No sweeps come before or after.

`more` stands where 20 seconds were not enough. Games: the families of `families.py`, the hard ones of `hard.py`, unions
of both kinds side by side and joined, and one found by hill climbing, which once kept the guesses at values busy until
their budget was spent. The first lines tell the date, the load and the processor.
"""
import os
import resource
import subprocess
import sys
import tempfile
import time

HERE = os.path.dirname(os.path.abspath(__file__))
FAMILIES = "steps ladder random random2 random7 random12 random20 wide near loops selfloops climb clique pump elevator"
LIMIT = 20
LINES = ["settle", "exclude f", "settle"]
HARD = [
    ("ladder of 12 rungs", ["ladder", "12"]),
    ("ladder of 20", ["ladder", "20"]),
    ("ladder of 28", ["ladder", "28"]),
    ("ladder of 36", ["ladder", "36"]),
    ("improvement of 9 levels", ["improvement", "9"]),
    ("nested, 61", ["nested", "61"]),
    ("climb, 59 of 1", ["climb", "59", "1"]),
    ("climb, 20 of 7", ["climb", "20", "7"]),
    ("climb, 10 of 70", ["climb", "10", "70"]),
    ("climb, 6 of 1,000", ["climb", "6", "1000"]),
    ("climb, 2 of 4,000", ["climb", "2", "4000"]),
    ("climb, 3 of 300", ["climb", "3", "300"]),
]
# the last is a family of this many vertices, or a game above
UNIONS = [
    ("ladder of 20", "random", 65000),
    ("ladder of 20", "pump", 65000),
    ("ladder of 28", "pump", 20000),
    ("ladder of 20", "climb, 2 of 4,000", 0),
    ("ladder of 20", "climb, 3 of 300", 0),
]
JOINED = [
    ("ladder of 20", "random", 40),
    ("ladder of 20", "pump", 20),
    ("ladder of 12 rungs", "climb", 10),
    ("ladder of 12 rungs", "climb, 2 of 4,000", 4),
    ("ladder of 20", "climb, 3 of 300", 40),
]


def limited():
    resource.setrlimit(resource.RLIMIT_CPU, (LIMIT, LIMIT))


def run(words, before=limited):
    """Processor milliseconds of a run, its output, its peak memory in megabytes; no output where the limit ended it."""
    child = subprocess.Popen([str(word) for word in words], stdout=subprocess.PIPE, preexec_fn=before)
    output = child.stdout.read().decode()
    _, status, used = os.wait4(child.pid, 0)
    child.returncode = status
    return (used.ru_utime + used.ru_stime) * 1e3, output if status == 0 else None, used.ru_maxrss / 1024


class Desk:
    """A vpgdesk at one game: runs of the first lines of a script, in turns with other programs."""

    def __init__(self, program, folder, game, is_family):
        self.words = [program, "run", game, f"{folder}/diagram", f"{folder}/lines"]
        self.lines = LINES if is_family else LINES[:1]
        self.took, self.told, self.memory = [[] for _ in range(len(self.lines) + 1)], [], 0

    def turn(self):
        if self.told == ["more"]:
            return
        for count in range(len(self.lines) + 1):
            with open(self.words[-1], "w") as out:
                out.write("".join(line + "\n" for line in self.lines[:count]))
            millis, output, memory = run(self.words)
            if output is None:
                self.told = ["more"]
                return
            self.took[count].append(millis)
            self.memory = max(self.memory, memory)
        self.told = [answer for answer in output.split("\n")[:-1] if answer.startswith("unsettled")]

    def row(self, plain):
        if self.told == ["more"]:
            return "more | |" + (" | |" if len(self.lines) > 1 else "")
        least = [min(times) for times in self.took]
        first = max(least[1] - least[0], 0.1)
        row = f"{first:.0f} | {first / max(plain, 0.1):.1f} |"
        if len(self.lines) > 1:
            again = max(least[3] - least[2], 0.0)
            row += f" {again:.0f} | {again / first:.2f} |"
        return row + f" {self.memory:.0f} | {', '.join(self.told) or 'settled'} |"


class Bench:
    """A vpg_bench at one game."""

    def __init__(self, program, _folder, game, _is_family):
        self.words = [program, "settle", game]
        self.nothing, self.took, self.told = [], [], ""

    def turn(self):
        if self.told == "more":
            return
        self.nothing.append(run([*self.words, "rounds", 0])[0])
        millis, output, _ = run([*self.words, "guesses", 0])
        self.took.append(millis)
        self.told = "more" if output is None else "settled" if output.split()[1] == "true" else "open"

    def row(self, plain):
        if self.told == "more":
            return "more | | more |"
        took = max(min(self.took) - min(self.nothing), 0.0)
        return f"{took:.0f} | {took / max(plain, 0.1):.1f} | {self.told} |"


def games(folder, vertices):
    """Each family, and then the hard games: a name, a file, and whether it is a family."""
    def family(name, count):
        path = f"{folder}/{name}.{count}"
        if not os.path.exists(path):
            subprocess.run([sys.executable, f"{HERE}/families.py", name, str(count), path], check=True)
        return f"{path}/game"

    def hard(name, words):
        file = f"{folder}/{name}"
        if not os.path.exists(file):
            words = [sys.executable, f"{HERE}/hard.py", *map(str, words), file]
            subprocess.run(words, check=True, stderr=subprocess.DEVNULL)
        return file

    def named(name, count):
        return family(name, count) if name in FAMILIES.split() else hard(name, dict(HARD)[name])

    for name in FAMILIES.split():
        yield name, family(name, vertices), True
    for name, words in HARD:
        yield name, hard(name, words), False
    for one, other, count in UNIONS:
        words = ["union", named(one, vertices), named(other, count)]
        yield f"{one} and {other}", hard(f"{one} and {other}", words), False
    for one, other, edges in JOINED:
        # (so that both together have no more vertices than a game may)
        words = ["joined", edges, named(one, vertices), named(other, int(vertices) - 536)]
        yield f"{one} joined with {other}", hard(f"{one} joined with {other}", words), False
    yield "climbed", f"{HERE}/climbed.game", False


def line(name, file, is_family, folder, zielonka, runs, programs):
    plain, more = [], False
    kind = lambda program: Bench if os.path.basename(program).startswith("vpg_bench") else Desk
    tried = [kind(program)(program, folder, file, is_family) for program in programs]
    for _ in range(runs):
        if not more:
            # under a limit a process reads its own time by ticks
            words = run([zielonka, file, 2], None)[1].split()
            plain.append(float(words[1]))
            more = words[3].startswith("more")
        for each in tried:
            each.turn()
    least = min(plain)
    told = f"{least:.1f}{' more' if more else ''}"
    print(f"| {name} | {told} | {' '.join(each.row(least) for each in tried)}", flush=True)


def place():
    """When and where this is measured."""
    models = [line.split(":")[1].strip() for line in open("/proc/cpuinfo") if line.startswith("model name")]
    load = " ".join(f"{value:.1f}" for value in os.getloadavg())
    model = models[0] if models else "unknown"
    return f"{time.strftime('%Y-%m-%d %H:%M')}, load {load}, {len(models)} processors, {model}"


def main():
    words = sys.argv[1:]
    names = words[words.index("--") + 1 :] if "--" in words else []
    words = words[: words.index("--")] if "--" in words else words
    if len(words) < 4:
        sys.exit(__doc__)
    print(place(), flush=True)
    with tempfile.TemporaryDirectory() as folder:
        with open(f"{folder}/diagram", "w") as out:
            out.write("root r\noptional r f\noptional r g\n")
        for name, file, is_family in games(folder, words[1]):
            if not names or name in names:
                line(name, file, is_family, folder, words[0], int(words[2]), words[3:])
    print(place())


if __name__ == "__main__":
    main()
