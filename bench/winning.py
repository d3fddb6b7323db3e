#!/usr/bin/env python3
"""What `winners V` and `decide V` cost, beside plain programs that find the same.

    winning.py VPGDESK YARDSTICK [BITS,BITS.. [KIND..]]     # 10,14,20 where left out; `examples` is a kind

YARDSTICK is `winners.rs`, compiled (`rustc -O`): product by product (`each`), and the family-based recursion over sets
of products, as bits and as decision diagrams (`bits`, `bdd`). One line for each of the examples and for each generated
family of 2^BITS products, all in processor seconds, medians of three rounds in one run:

  Each, Bits, BDD          the yardstick solves the whole game and counts the products that are won; less its reading
  Bits, parts; BDD, parts  it also writes the parts of `winners V`, as docs/FORMATS.md says, to nowhere
  `winners`                that line by the program, on a page without decisions that was never settled
  Times                    that many times the better of `Bits, parts` and `BDD, parts`
  `decide`                 that line, on such a page
  Times                    that many times the better of `Bits` and `BDD`
  Parts                    those of `winners`

A line that takes less than 0.02 seconds is asked 20 times in a round. `more` stands where LIMIT seconds were not
enough, `~` where `each` was stopped after OF_EACH, and the rest is estimated. The yardsticks count products that are
won and parts, too: a row ` differs` where their numbers are not the same.

Below the table: where the program is slower than product by product, where it takes over three times the better
family-based yardstick, and where an answer met a limit. A difference in numbers ends the run with status 1.

Kinds:
  independent   Odd picks one of BITS rings, which each need a feature of their own, in or out
  alternatives  the same, and each ring dislikes one of four alternatives of its own
  chains        the same, and each ring needs the middle of a chain of three features, each requiring the one before
  first, last   rings that all need one feature, the first or the last of the diagram; the others guard needless moves
  guards        a random game with guards of three to five literals, joined by `&` and `|`
  choices       stages of Even's, with one move under f and one under !f to the same place; one feature decides at last
  priorities    levels of rising priorities: a feature lets the level's player stay, the highest that is in decides
  joined        rings of independent features, rings of chains, and such levels, with edges from rings to the others
  pairs         Odd picks a ring that fails with a feature, unless another mends it
  parity        an even number of features has to be in: each part is one product
  random        a random game, each guard one literal
"""
import os
import random
import resource
import subprocess
import statistics
import sys
import tempfile

from driving import Timed
from settling import place

ROOT = os.path.dirname(os.path.dirname(os.path.abspath(__file__)))
LIMIT, OF_EACH = 10, 4
ROUNDS = 3
SHORT, AGAIN = 0.02, 20
MEMORY = 6 << 30
TIMES = 3
# differences below this are noise
NOISE = 0.0005
GAMES = ("mine_pump", "vending_machine", "elevator", "body_comfort")
SYSTEMS = ("mine_pump_system", "vending_system", "elevator_system", "alternating_bit")

# ---- games


class Game:
    def __init__(self):
        self.rows = []

    def add(self, priority, owner, moves=()):
        self.rows.append((priority, owner, list(moves)))
        return len(self.rows) - 1

    def move(self, vertex, to, guard=""):
        self.rows[vertex][2].append((to, guard))

    def ring(self, guard, needless=(), width=7):
        """Even passes the guard again and again, or loses. Returns the first vertex, and Odd's after the guard."""
        evens = [self.add(1, 0) for _ in range(width)]
        odds = [self.add(1, 1) for _ in range(width)]
        asides = [self.add(0, 0) for _ in range(width)]
        passed = self.add(2, 1, [(evens[0], "")])
        for i, (even, odd, aside) in enumerate(zip(evens, odds, asides)):
            self.move(even, odd)
            self.rows[odd][2].extend([(evens[(i + 1) % width], ""), (aside, "")])
            self.move(aside, evens[(i + 1) % width])
        for place, literal in enumerate(needless):
            self.move(evens[place % width], asides[(place + 1) % width], literal)
        self.move(evens[-1], passed, guard)
        return evens[0], passed

    def picked(self, rings):
        return self.add(0, 1, [(first, "") for first, _ in rings])

    def levels(self, features):
        """From the top down the first feature that is in decides: its level's player stays on a priority of his."""
        nobody = self.add(1, 0)
        self.move(nobody, nobody)
        below = nobody
        for level, feature in enumerate(features):
            stays = self.add(level, level % 2)
            answers = self.add(0, 1 - level % 2, [(stays, "")])
            self.rows[stays][2].extend([(answers, feature), (below, "")])
            if level + 2 < len(features):
                self.move(answers, stays + 4)
            below = stays
        return below

    def text(self):
        lines = [f"parity {len(self.rows) - 1};"]
        for v, (priority, owner, moves) in enumerate(self.rows):
            moves = ",".join(f"{to}[{guard}]" if guard else str(to) for to, guard in moves)
            lines.append(f"{v} {priority} {owner} {moves};")
        return "\n".join(lines) + "\n"


# ---- kinds: a game, its diagram, and the vertex that is asked of (None: one that about half of the products win)


def optional(count, name="f"):
    return [f"optional r {name}{i}" for i in range(count)]


def independent(bits, _rng):
    game = Game()
    rings = [game.ring(f"{'!' * (i % 2)}f{i}") for i in range(bits)]
    return game, optional(bits), game.picked(rings)


def alternatives(bits, _rng):
    game, lines = Game(), []
    for i in range(bits // 2):
        lines += [f"mandatory r g{i}", f"alternative g{i}: " + " ".join(f"g{i}a{j}" for j in range(4))]
    rings = [game.ring(f"!g{i}a{i % 4}") for i in range(bits // 2)]
    return game, lines, game.picked(rings)


def chain(i):
    return [f"optional r c{i}x{j}" for j in range(3)] + [f"requires c{i}x{j + 1} c{i}x{j}" for j in range(2)]


def chains(bits, _rng):
    game = Game()
    rings = [game.ring(f"c{i}x1") for i in range(bits // 2)]
    return game, [line for i in range(bits // 2) for line in chain(i)], game.picked(rings)


def deciding(place):
    def made(bits, rng):
        game = Game()
        needless = [f"{rng.choice(('', '!'))}f{i}" for i in range(bits) if i != place % bits]
        rings = [game.ring(f"f{place % bits}", needless[i : i + 4]) for i in range(bits)]
        return game, optional(bits), game.picked(rings)

    return made


def guards(bits, rng, vertices=300):
    def guard():
        literals = [rng.choice(("", "!")) + f"f{i}" for i in rng.sample(range(bits), rng.randint(3, 5))]
        inner = f"({rng.choice((' | ', ' & ')).join(literals[:2])})"
        return rng.choice((" & ", " | ")).join([inner, *literals[2:]])

    return random_game(vertices, bits, rng, guard)


def literals(bits, rng):
    return random_game(300, bits, rng, lambda: f"{rng.choice(('', '!'))}f{rng.randrange(bits)}")


def random_game(vertices, bits, rng, guard):
    game = Game()
    for _ in range(vertices):
        moves = [(to, guard() if rng.random() < 0.5 else "") for to in rng.sample(range(vertices), 4)]
        game.add(min(int(rng.expovariate(0.6)), 6), rng.randrange(2), moves)
    return game, optional(bits), None


def choices(bits, _rng):
    game = Game()
    stages = [game.add(1, 0) for _ in range(bits + 1)]
    for i in range(bits):
        for guard in (f"f{i}", f"!f{i}"):
            aside = game.add(0, 0, [(stages[i + 1], "")])
            game.move(stages[i], game.add(0, 1, [(stages[i + 1], ""), (aside, "")]), guard)
    game.move(stages[bits], game.add(2, 1, [(stages[0], "")]), f"f{bits // 2}")
    game.move(stages[bits], stages[0])
    return game, optional(bits), stages[0]


def priorities(bits, _rng):
    game = Game()
    return game, optional(bits), game.levels([f"f{i}" for i in range(bits)])


def joined(bits, rng):
    game, third = Game(), bits // 3
    few = third // 2
    rest = bits - third - 2 * few
    rings = [game.ring(f"f{i}") for i in range(third)] + [game.ring(f"c{i}x1") for i in range(few)]
    rings.append((game.levels([f"l{i}" for i in range(rest)]), None))
    for _, passed in rings[:-1]:
        for first, _ in rng.sample(rings, min(3, len(rings))):
            game.move(passed, first)
    lines = optional(third) + [line for i in range(few) for line in chain(i)] + optional(rest, "l")
    return game, lines, game.picked(rings)


def pairs(bits, _rng):
    game = Game()
    rings = [game.ring(f"!f{2 * i} | f{2 * i + 1}") for i in range(bits // 2)]
    return game, optional(bits), game.picked(rings)


def parity(bits, _rng):
    """Even wins from the vertex of the last feature and an even number."""
    game = Game()
    passed = game.add(2, 1)
    rows = [[game.add(1, 0, [(passed, "")]), game.add(1, 0)]]
    game.move(rows[0][1], rows[0][1])
    for i in range(bits):
        rows.append([game.add(0, 1) for _ in range(2)])
        for odd in range(2):
            game.rows[rows[-1][odd]][2].extend([(rows[-2][1 - odd], f"f{i}"), (rows[-2][odd], f"!f{i}")])
    game.move(passed, rows[-1][0])
    return game, optional(bits), rows[-1][0]


KINDS = {
    "independent": independent,
    "alternatives": alternatives,
    "chains": chains,
    "first": deciding(0),
    "last": deciding(-1),
    "guards": guards,
    "choices": choices,
    "priorities": priorities,
    "joined": joined,
    "pairs": pairs,
    "parity": parity,
    "random": literals,
}

# ---- yardsticks


def limited():
    resource.setrlimit(resource.RLIMIT_AS, (MEMORY, MEMORY))


def said(words):
    ran = subprocess.run([str(it) for it in words], capture_output=True, text=True, preexec_fn=limited)
    return ran.stdout.split() if ran.returncode == 0 else None


class Measured:
    """What a yardstick found in LIMIT seconds: None for seconds that were not enough, and what is known then."""

    def __init__(self, program, files, how, vertex):
        words = said([program, *files, how, vertex, OF_EACH if how == "each" else LIMIT])
        self.seconds, self.with_parts, self.is_estimate, self.won, self.parts = None, None, False, None, None
        if words is None:
            return
        told = dict(zip(words[::2], words[1::2]))
        seconds, products = float(told[how]), int(told["products"])
        if told["late"] == "false":
            self.seconds, self.won = seconds, (products, int(told["won"]))
            if told.get("cut") == "true":
                self.with_parts, self.parts = float(told["written"]), int(told["parts"])
        elif how == "each" and int(told["done"]):
            self.seconds, self.is_estimate = seconds * products / int(told["done"]), True


def half_won(program, game, diagram):
    words = said([program, game, diagram, "half"])
    return words[0] if words else "0"


# ---- the program


def asked(desk, line):
    """Seconds and lines of the answer; asked again where that is short."""
    seconds, answer = desk.ask(line)
    if seconds is None or seconds > SHORT:
        return seconds, answer
    return sum(desk.ask(line)[0] for _ in range(AGAIN)) / AGAIN, answer


def products_won(answer):
    """The number of products in the parts won, and whether it is exact and no part unsettled."""
    is_whole = not any("or more" in line or line.startswith("unsettled") for line in answer)
    return sum(int(line.split()[-1]) for line in answer[:-1] if line.startswith("won") and is_whole), is_whole


class Row:
    """One family, and what was found of it in each round."""

    def __init__(self, name, game, diagram, vertex):
        self.name, self.files, self.vertex = name, (game, diagram), vertex
        self.seconds, self.estimated, self.counts, self.parts_told = {}, set(), {}, set()
        self.answers = {"winners": [], "decide": []}

    def note(self, column, seconds):
        self.seconds.setdefault(column, []).append(seconds)

    def is_over(self, column):
        return None in self.seconds.get(column, []) or column in self.estimated

    def measure(self, plain, how):
        found = Measured(plain, self.files, how, self.vertex)
        self.note(how, found.seconds)
        if how != "each":
            self.note(f"{how} parts", found.with_parts)
        self.estimated |= {how} if found.is_estimate else set()
        if found.won:
            self.counts[how] = found.won
        if found.parts is not None:
            self.parts_told.add(found.parts)

    def round(self, program, plain):
        for how in ("each", "bits", "bdd"):
            if not self.is_over(how):
                self.measure(plain, how)
        desk = Timed(program, *self.files, LIMIT)
        for line in self.answers:
            if not self.is_over(line):
                seconds, answer = asked(desk, f"{line} {self.vertex}")
                self.note(line, seconds)
                self.answers[line] = answer
                if seconds is None:
                    desk = Timed(program, *self.files, LIMIT)
        desk.close()

    def median(self, column):
        values = self.seconds[column]
        return None if None in values else statistics.median(values)

    def shown(self, column):
        value = self.median(column)
        if value is None:
            return "more"
        return f"{'~' if column in self.estimated else ''}{value:.4f}" if value < 0.1 else f"{value:.2f}"

    def best(self, line):
        """The seconds of the better family-based yardstick for what the line tells."""
        columns = ["bits parts", "bdd parts"] if line == "winners" else ["bits", "bdd"]
        values = [self.median(it) for it in columns]
        return min((it for it in values if it is not None), default=None)

    def times(self, line):
        value, best = self.median(line), self.best(line)
        return None if value is None or best is None else value / best

    def is_open(self, line):
        words = " ".join(self.answers[line])
        return self.median(line) is None or "unsettled" in words or "or more" in words or "some product" in words

    def parts(self):
        answer = self.answers["winners"]
        if self.median("winners") is None or len(answer) == 0:
            return "more"
        unsettled = sum(line.startswith("unsettled") for line in answer)
        told = f"{len(answer) - 1}"
        return f"{told}, {unsettled} unsettled" if unsettled else told + (" or more" if self.is_open("winners") else "")

    def is_different(self):
        if len(set(self.counts.values())) > 1 or len(self.parts_told) > 1:
            return True
        answer = self.answers["winners"]
        won, is_whole = products_won(answer)
        if not self.counts or self.median("winners") is None or not is_whole:
            return False
        return won != self.won()[1] or any(it != len(answer) - 1 for it in self.parts_told)

    def won(self):
        return next(iter(self.counts.values()), (0, 0))

    def line(self):
        columns = ("each", "bits", "bdd", "bits parts", "bdd parts")
        cells = [self.name, str(self.won()[0] or "?"), *(self.shown(it) for it in columns)]
        for line in self.answers:
            times = self.times(line)
            mark = " open" if line == "decide" and self.is_open(line) else ""
            cells += [self.shown(line) + mark, "-" if times is None else f"{times:.1f}"]
        return "| " + " | ".join([*cells, self.parts() + " differs" * self.is_different()]) + " |"


def is_slower(row, line):
    value, each = row.median(line), row.median("each")
    return each is not None and (value is None or value > each * 1.05 + NOISE)


def is_far(row, line):
    value, best = row.median(line), row.best(line)
    return best is not None and (value is None or value > TIMES * best + NOISE)


# ---- which families


def start_of(game):
    with open(game) as it:
        return it.read().split("start")[1].split(";")[0].strip()


def of_system(program, plain, folder, name):
    """The game of a system, and the requirement whose products fall into the most parts."""
    made, at = f"{folder}/{name}", f"{ROOT}/examples/{name}"
    inputs = [f"{at}/system.aut", f"{at}/requirements.mcf", f"{at}/diagram"]
    with open(made, "w") as out:
        subprocess.run([program, "model", *inputs], stdout=out, check=True)
    words = [program, "check", "--system", inputs[0], "--requirements", inputs[1], inputs[2]]
    lines = subprocess.run(words, capture_output=True, text=True, check=True).stdout.splitlines()[1:]
    parts = lambda vertex: Measured(plain, (made, inputs[2]), "bdd", vertex).parts or 0
    vertex = max((line.split()[-1] for line in lines), key=parts)
    return Row(name, made, inputs[2], vertex)


def rows(program, plain, folder, sizes, kinds):
    if "examples" in kinds:
        for name in GAMES:
            at = f"{ROOT}/examples/{name}"
            yield Row(name, f"{at}/game", f"{at}/diagram", start_of(f"{at}/game"))
        for name in SYSTEMS:
            yield of_system(program, plain, folder, name)
    for kind in [it for it in KINDS if it in kinds]:
        for bits in sizes:
            game, lines, vertex = KINDS[kind](bits, random.Random(f"{kind} {bits}"))
            files = [f"{folder}/{kind}{bits}.{it}" for it in ("game", "diagram")]
            for path, text in zip(files, (game.text(), "\n".join(["root r", *lines]) + "\n")):
                with open(path, "w") as out:
                    out.write(text)
            vertex = half_won(plain, *files) if vertex is None else vertex
            yield Row(f"{kind}, 2^{bits}", *files, str(vertex))


def main():
    words = sys.argv[1:]
    if len(words) < 2 or not os.path.isfile(words[0]):
        sys.exit(__doc__)
    program, plain = (os.path.abspath(it) for it in words[:2])
    sizes = [int(it) for it in (words[2] if len(words) > 2 else "10,14,20").split(",")]
    kinds = words[3:] or ["examples", *KINDS]
    print(place(), flush=True)
    yardsticks = "Each | Bits | BDD | Bits, parts | BDD, parts"
    print(f"| Family | Products | {yardsticks} | `winners` | Times | `decide` | Times | Parts |")
    print("|---" * 12 + "|")
    done = []
    with tempfile.TemporaryDirectory() as folder:
        for row in rows(program, plain, folder, sizes, kinds):
            for _ in range(ROUNDS):
                row.round(program, plain)
            print(row.line(), flush=True)
            done.append(row)
    for line in ("winners", "decide"):
        named = lambda has: ", ".join(row.name for row in done if has(row, line)) or "none"
        print(f"`{line}` slower than product by product: {named(is_slower)}")
        print(f"`{line}` over {TIMES} times the better family-based yardstick: {named(is_far)}")
        print(f"`{line}` met a limit: {named(lambda row, line: row.is_open(line))}")
    print(place())
    different = [row.name for row in done if row.is_different()]
    if different:
        sys.exit(f"other numbers than the yardsticks: {', '.join(different)}")


if __name__ == "__main__":
    main()
