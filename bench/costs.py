#!/usr/bin/env python3
"""What each line about a vertex costs on large families.

    costs.py VPGDESK VERTICES..
    costs.py --lines VPGDESK YARDSTICK [--before COMMIT] [FAMILY..]

For each number of vertices a random family: 24 optional features, six edges a vertex, half of them under a guard of
one feature. On the page after `select f0`, `exclude f1` and `settle`, each line is asked of one vertex that is possible
and not sure (open), of one that is hopeless, and of one that is sure. Told are the processor seconds of a script with
the line less those of the script without it, each the least of three runs (two of 65,536 vertices and more), and how
the answer begins and ends.

With --lines many families at the limits, or the FAMILYs named: a row for each line, asked of an open vertex, a hopeless
and a sure one. It has the processor seconds of the answer alone, and its ratio to those of YARDSTICK (`winners.rs`,
compiled; or `-`), which solves a game from nothing for each trial. With --before the program of that commit, built
without a proof, or a program given in its place, is asked the same in the same run. `more` stands where LIMIT seconds
were not enough, or OF_YARDSTICK. Answers that met no limit are held to the yardstick's, byte for byte: ` differs` ends
a row where they are not the same. The last rows have the slowest of each line, and the lines over their bar.

  wide      65,536 vertices of sixteen edges each and 200 optional features (`decisions.py`)
  half      65,536 vertices of six edges, half of them with a guard; 24 optional features
  pigeons   one vertex, and nine pigeons in eight holes under an optional feature, beside 190 alternatives (`hard.py`)
  joined    a ladder of 20 rungs joined with a wide game by 40 edges (`hard.py`)
  random20, pump, elevator, clique, near
            those of `families.py`, with 198 optional features more, which no guard names
  pumps     a hundred mine pumps, each with a `start` of its own; Odd chooses one
  walks     Odd chooses one of two walks of 40 steps, each won for one parity of the features that it asks; the rest of
            65,536 vertices and 200 features as in `wide`
  last      200 rings that need the last of 200 features; the others guard needless moves (`winning.py`)
  pairs     a hundred rings that each fail with a feature, unless another mends it (`winning.py`)
  choices   200 of Even's choices under f and !f (`winning.py`)
  guards    65,536 vertices of four edges, half of them with a guard of three to five of 200 features (`winning.py`)
  system    the game of a system of 20,000 states, 100,000 transitions and 200 features (`models.py`)
"""
import os
import random
import shutil
import subprocess
import sys
import tempfile

import decisions
import hard
import models
import winning
from driving import Timed
from settling import place

FEATURES = 24
DEGREE = 6
PAGE = ["select f0", "exclude f1", "settle"]
LINES = "why example counterexample lost won needs offer repair spoil plan draw winners decide".split()
KINDS = {"open": ["possible", "unsure"], "hopeless": ["hopeless", "unsure"], "sure": ["possible", "sure"]}


def write_family(folder, vertices):
    rng = random.Random(5)
    names = [f"f{i}" for i in range(FEATURES)]
    with open(f"{folder}/diagram", "w") as out:
        out.write("root r\n" + "".join(f"optional r {name}\n" for name in names))
    with open(f"{folder}/game", "w") as out:
        out.write(f"parity {vertices - 1};\n")
        for v in range(vertices):
            edges = []
            for w in rng.sample(range(vertices), DEGREE):
                guard = f"[{rng.choice(['', '!'])}{rng.choice(names)}]" if rng.random() < 0.5 else ""
                edges.append(f"{w}{guard}")
            out.write(f"{v} {min(int(rng.expovariate(0.6)), 6)} {rng.randrange(2)} {','.join(edges)};\n")


def carried_out(program, folder, lines):
    """Processor seconds of a run, and what it wrote."""
    with open(f"{folder}/script", "w") as script:
        script.write("\n".join(lines) + "\n")
    with tempfile.TemporaryFile("w+b") as out:
        words = [program, "run", f"{folder}/game", f"{folder}/diagram", f"{folder}/script"]
        child = subprocess.Popen(words, stdout=out)
        _, status, usage = os.wait4(child.pid, 0)
        child.returncode = os.waitstatus_to_exitcode(status)
        if child.returncode:
            sys.exit(f"the program ended with {child.returncode}")
        out.seek(0)
        return usage.ru_utime + usage.ru_stime, out.read().decode().splitlines()


def least(program, folder, lines, runs):
    told = [carried_out(program, folder, lines) for _ in range(runs)]
    return min(seconds for seconds, _ in told), told[0][1]


def measure(program, folder, vertices):
    write_family(folder, vertices)
    runs = 3 if vertices < 65536 else 2
    _, shown = carried_out(program, folder, [*PAGE, "show"])
    rows = [line.split() for line in shown]
    rows = [row for row in rows if len(row) == 5 and row[0].isdigit()]
    before, page = least(program, folder, PAGE, runs)
    print(f"{vertices} vertices: {before:.3f} seconds without a line")
    for kind, verdict in KINDS.items():
        of_kind = [row[0] for row in rows if row[3:] == verdict]
        if not of_kind:
            print(f"no vertex is {kind}")
            continue
        v = random.Random(1).choice(of_kind)
        for line in LINES:
            seconds, written = least(program, folder, [*PAGE, f"{line} {v}"], runs)
            answer = written[len(page) :]
            print(f"  {kind:9} {line:15} {seconds - before:7.3f}  {answer[0][:40]} .. {answer[-1][:30]}", flush=True)


# ---- families at the limits

HERE = os.path.dirname(os.path.abspath(__file__))
ROOT = os.path.dirname(HERE)
LIMIT, OF_YARDSTICK = 6, 3
VERTICES, MANY, DECIDED = 65536, 200, 20
# of which vertices a line is asked, and its bar in seconds
ASKED = {
    "example": (("open", "sure"), 1),
    "counterexample": (("open", "hopeless"), 1),
    "lost": (("open", "hopeless"), 1),
    "won": (("open", "sure"), 1),
    "decide": (("open",), 5),
    "needs": (("open", "sure"), 5),
    "offer": (("open", "sure"), 5),
}
# the same on a page of many decisions
ASKED_LATER = {"why": (("hopeless", "sure"), 5), "repair": (("hopeless",), 5), "lost": (("hopeless",), 5)}


def written(folder, game, lines):
    for name, text in (("game", game), ("diagram", "root r\n" + "".join(f"{line}\n" for line in lines))):
        with open(f"{folder}/{name}", "w") as out:
            out.write(text)


def script(name, *words):
    words = [sys.executable, f"{HERE}/{name}", *map(str, words)]
    subprocess.run(words, check=True, stderr=subprocess.DEVNULL)


def add_features(folder, count):
    with open(f"{folder}/diagram", "a") as out:
        out.write("".join(f"optional r more{i}\n" for i in range(count)))


def of_families(name):
    def write(folder, _program):
        script("families.py", name, VERTICES, folder)
        add_features(folder, MANY - 2)

    return write


def of_kind(made):
    """A game of `winning.py`, made by this with its number of features and a source of numbers."""
    def write(folder, _program):
        game, lines, _ = made(random.Random(3))
        written(folder, game.text(), lines)

    return write


def of_pigeons(folder, _program):
    written(folder, "parity 0;\n0 0 0 0;\n", hard.pigeons(8, 190, 0)[1:])


def of_joined(folder, _program):
    script("hard.py", "ladder", 20, f"{folder}/ladder")
    script("families.py", "wide", VERTICES - 100, f"{folder}/wide")
    script("hard.py", "joined", 40, f"{folder}/ladder", f"{folder}/wide/game", f"{folder}/game")
    shutil.copy(f"{folder}/wide/diagram", f"{folder}/diagram")
    add_features(folder, MANY - 2)


def renamed(text, copy):
    """An entry of a mine pump's game with places of their own for its vertices, and a `start` of its own."""
    identifier, priority, owner, moves = text.split('"')[0].strip().split(None, 3)
    place = lambda move: move.replace("[", f"{copy:03}[", 1) if "[" in move else f"{move}{copy:03}"
    moves = ",".join(map(place, moves.split(","))).replace("start", f"start{copy}")
    return f"{identifier}{copy:03} {priority} {owner} {moves};\n"


def of_pumps(folder, _program):
    at = f"{ROOT}/examples/mine_pump"
    with open(f"{at}/game") as game, open(f"{at}/diagram") as diagram:
        entries = [it.strip() for it in game.read().split(";")[2:] if it.strip()]
        lines = [it for it in diagram.read().splitlines() if it.strip()]
    lines = [line for it in lines[1:] for line in copied(it)]
    firsts = ",".join(f"1000{copy:03}" for copy in range(100))
    text = f"parity 0;\n1 0 1 {firsts};\n" + "".join(renamed(it, copy) for copy in range(100) for it in entries)
    written(folder, text, [line.replace(" minepump ", " r ") for line in lines])


def copied(line):
    """A line of the mine pump's diagram, with a hundred features for `start`."""
    words = line.split()
    if "start" not in words:
        return [line]
    if words[0] in ("optional", "mandatory", "requires", "excludes"):
        return [line.replace("start", f"start{copy}") for copy in range(100)]
    return [line.replace("start", " ".join(f"start{copy}" for copy in range(100)))]


def of_walks(folder, _program):
    """Vertex 0 is Odd's, who chooses a walk: after it Even wins for an even number of its features, or for an odd."""
    game, steps = winning.Game(), 40
    first = game.add(0, 1)
    won, lost = game.add(2, 1, [(first, "")]), game.add(1, 0)
    game.move(lost, lost)
    for walk in range(2):
        row = [won, lost][:: 1 - 2 * walk]
        for step in range(steps):
            f = f"f{walk * steps + step}"
            row = [game.add(0, 1, [(row[1 - odd], f), (row[odd], f"!{f}")]) for odd in range(2)]
        game.move(first, row[0])
    rng, names, begins = random.Random(4), [f"f{i}" for i in range(MANY)], len(game.rows)
    for _ in range(VERTICES - begins):
        moves = [(begins + rng.randrange(VERTICES - begins), "") for _ in range(14)]
        moves += [(begins + rng.randrange(VERTICES - begins), rng.choice(("", "!")) + rng.choice(names))]
        game.add(min(int(rng.expovariate(0.6)), 6), rng.randrange(2), dict(moves).items())
    written(folder, game.text(), winning.optional(MANY))


def of_system(folder, program):
    models.make("single", 20_000, MANY, folder)
    with open(f"{folder}/game", "w") as out:
        words = [program, "model", f"{folder}/system", f"{folder}/requirements", f"{folder}/diagram"]
        subprocess.run(words, stdout=out, check=True)


def of_rings(rng):
    game, place = winning.Game(), MANY - 1
    needless = [f"{rng.choice(('', '!'))}f{i}" for i in range(place)]
    rings = [game.ring(f"f{place}", needless[i % place : i % place + 9], 108) for i in range(MANY)]
    return game, winning.optional(MANY), game.picked(rings)


def of_pairs(_rng):
    game = winning.Game()
    rings = [game.ring(f"!f{2 * i} | f{2 * i + 1}", (), 218) for i in range(MANY // 2)]
    return game, winning.optional(MANY), game.picked(rings)


AT_LIMITS = {
    "wide": lambda folder, _: decisions.write_family(folder, VERTICES, MANY),
    "half": lambda folder, _: write_family(folder, VERTICES),
    "pigeons": of_pigeons,
    "joined": of_joined,
    **{name: of_families(name) for name in ("random20", "pump", "elevator", "clique", "near")},
    "pumps": of_pumps,
    "walks": of_walks,
    "last": of_kind(of_rings),
    "pairs": of_kind(of_pairs),
    "choices": of_kind(lambda rng: winning.choices(MANY, rng)),
    "guards": of_kind(lambda rng: winning.guards(MANY, rng, VERTICES)),
    "system": of_system,
}


# ---- their lines


class Program:
    """A program on the page of some decisions of a family; started again after a line that took too long."""

    def __init__(self, path, folder, page):
        self.start = lambda: Timed(path, f"{folder}/game", f"{folder}/diagram", LIMIT)
        self.page, self.desk, self.settled = page, None, None
        self.begin()

    def begin(self):
        self.desk = self.start()
        for line in self.page:
            self.desk.ask(line)
        self.settled, _ = self.desk.ask("settle")

    def ask(self, line):
        if self.settled is None:
            return None, None
        seconds, answer = self.desk.ask(line)
        if seconds is None:
            self.begin()
        return seconds, answer

    def kinds(self):
        """A vertex of each kind, and the vertices that are hopeless."""
        if self.settled is None:
            return {}, set()
        rows = [line.split() for line in self.desk.ask("show")[1]]
        kinds = {}
        for kind, verdict in KINDS.items():
            of_kind = [row[0] for row in rows if row[3:] == verdict]
            if of_kind:
                kinds[kind] = random.Random(1).choice(of_kind)
        return kinds, {row[0] for row in rows if row[3:] == KINDS["hopeless"]}

    def close(self):
        if self.settled is not None:
            self.desk.close()


def by_yardstick(plain, folder, line, vertex, page):
    if plain is None:
        return None, None
    words = [plain, f"{folder}/game", f"{folder}/diagram", line, vertex, str(OF_YARDSTICK), *page]
    lines = subprocess.run(words, capture_output=True, text=True, check=True).stdout.splitlines()
    words = lines[0].split()
    return (float(words[1]), lines[1:]) if words[5] == "false" else (None, None)


def is_limited(answer):
    ends = ("or more", "or fewer", "some product", "unsettled")
    return any(it in line for line in answer for it in ends)


def shown(seconds, of=None):
    """Seconds, or their ratio to others."""
    if of is not None:
        return "-" if seconds is None else f"{seconds / max(of, 1e-6):.2f}"
    return "more" if seconds is None else f"{seconds:.3f}"


def decided(folder):
    """Decisions on features that no propagation knows yet, for a page."""
    with open(f"{folder}/diagram") as it:
        names = [line.split()[-1] for line in it if line.startswith("optional")]
    rng = random.Random(6)
    return [(rng.choice("+-"), name) for name in rng.sample(names, min(DECIDED, len(names) // 2))]


class Lines:
    """All rows of one family, and what was slow in it."""

    def __init__(self, name, folder, programs, plain):
        self.name, self.folder, self.programs, self.plain = name, folder, programs, plain
        self.slowest, self.over = {}, []

    def row(self, running, line, kind, vertex, page, bar):
        told = [it.ask(f"{line} {vertex}") for it in running]
        seconds, answer = told[-1]
        plain, wanted = by_yardstick(self.plain, self.folder, line, vertex, page)
        cells = [self.name, f"`{line}`, {kind}", *(shown(it) for it, _ in told)]
        if len(told) > 1:
            cells.append("-" if told[0][0] is None else shown(seconds, told[0][0]))
        cells += ["-" if self.plain is None else shown(plain), "-" if plain is None else shown(seconds, plain)]
        end = "no end" if answer is None else answer[-1][:40] + (", limited" if is_limited(answer) else "")
        if answer is not None and wanted is not None and not is_limited(answer) and answer != wanted:
            end += " differs"
        print("| " + " | ".join([*cells, end]) + " |", flush=True)
        if seconds is None or seconds > bar:
            self.over.append(f"{self.name} `{line}` {kind} {shown(seconds)}")
        if line not in self.slowest or self.slowest[line] is not None and (seconds or 1e9) > self.slowest[line]:
            self.slowest[line] = seconds

    def page(self, decisions_made, asked, before):
        """The rows on a page; of its hopeless vertices one that was not, before these decisions, where there is one."""
        commands = [f"{'select' if sign == '+' else 'exclude'} {name}" for sign, name in decisions_made]
        page = [sign + name for sign, name in decisions_made]
        running = [Program(it, self.folder, commands) for it in self.programs]
        kinds, hopeless = running[-1].kinds()
        of_page = sorted(hopeless - before, key=int)
        if decisions_made and of_page:
            kinds["hopeless"] = random.Random(1).choice(of_page)
        cells = [self.name, f"`settle`, {len(page)} decisions", *(shown(it.settled) for it in running)]
        if len(running) > 1:
            cells.append("-" if running[0].settled is None else shown(running[1].settled, running[0].settled))
        print("| " + " | ".join([*cells, "-", "-", "settled"]) + " |", flush=True)
        for line, (wanted, bar) in asked.items():
            for kind in wanted:
                if kind in kinds:
                    self.row(running, line, kind, kinds[kind], page, bar)
        for it in running:
            it.close()
        return hopeless


def built(commit, folder):
    """The program of a commit, without a proof; or the program itself, if that is a file."""
    if os.path.isfile(commit):
        return os.path.abspath(commit)
    tree, made = f"{folder}/tree", f"{folder}/before"
    subprocess.run(["git", "-C", ROOT, "worktree", "add", "--detach", tree, commit], check=True, capture_output=True)
    shutil.copy(f"{HERE}/unproved.py", f"{tree}/bench/unproved.py")
    subprocess.run([sys.executable, f"{tree}/bench/unproved.py", "vpgdesk", made], check=True)
    subprocess.run(["git", "-C", ROOT, "worktree", "remove", "--force", tree], check=True)
    return made


def at_limits(words):
    program, plain = os.path.abspath(words[0]), None if words[1] == "-" else os.path.abspath(words[1])
    words, before = words[2:], []
    with tempfile.TemporaryDirectory() as folder:
        if words[:1] == ["--before"]:
            before, words = [built(words[1], folder)], words[2:]
        print(place(), flush=True)
        heads = ["Family", "Line", *(["Before", "After", "Ratio"] if before else ["Seconds"]), "Yardstick", "Ratio"]
        print("| " + " | ".join([*heads, "Answer's end"]) + " |\n" + "|---" * (len(heads) + 1) + "|")
        rows = []
        for name in words or AT_LIMITS:
            at = f"{folder}/{name}"
            os.makedirs(at)
            AT_LIMITS[name](at, program)
            rows.append(Lines(name, at, [*before, program], plain))
            hopeless = rows[-1].page([], ASKED, set())
            rows[-1].page(decided(at), ASKED_LATER, hopeless)
            shutil.rmtree(at)
        for line in [*ASKED, *ASKED_LATER]:
            slow = [(it.slowest[line], it.name) for it in rows if line in it.slowest]
            if slow:
                seconds, name = max(slow, key=lambda it: 1e9 if it[0] is None else it[0])
                print(f"slowest `{line}`: {shown(seconds)}, {name}")
        print("over their bar: " + ("; ".join(it for row in rows for it in row.over) or "none"))
        print(place())


def main():
    if sys.argv[1:2] == ["--lines"] and len(sys.argv) > 3:
        return at_limits(sys.argv[2:])
    if len(sys.argv) < 3:
        sys.exit(__doc__)
    program = os.path.abspath(sys.argv[1])
    for vertices in map(int, sys.argv[2:]):
        with tempfile.TemporaryDirectory() as folder:
            measure(program, folder, vertices)


if __name__ == "__main__":
    main()
