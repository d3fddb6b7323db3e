#!/usr/bin/env python3
"""Writes the files of a large product family: FOLDER/game, FOLDER/diagram and FOLDER/script.

    families.py FAMILY VERTICES FOLDER [SEED]

Families (VERTICES is the number of vertices, at most 65,536; each game is over the features r, f and g):
  steps     each vertex is one lift from its place, and one more once f is out: `settle` then adds VERTICES lifts
  ladder    rungs of two vertices, of Even and of Odd, each with an edge to its twin and one up the ladder
  random    three successors each at random, priorities 1 to 4, one edge in four guarded by f or g
  random2, random7, random12, random20
            the same with so many priorities, from 0; greater ones are rarer where that is needed to keep the top in its limit
  wide      sixteen successors each at random: 1,048,576 edges at 65,536 vertices
  near      three successors each at random among the twenty nearest, six priorities
  loops     vertices of priority 1 with an edge to themselves that f takes away, and an exit that g takes away
  selfloops levels of odd priorities: each vertex has an edge to itself and one, guarded by f, to the next level; the top is near 2^62
  climb     levels of odd priorities: cycles that Even leaves for the next level, which is dear. A lift raises the greatest value of the first
            cycle by one at most, and it ends near the product of the other levels' sizes: so many lifts it takes, in whatever order (the
            kind of family with which Jurdzinski 2000 shows his bound; the construction is this project's own)
  clique    cliques of sixteen vertices of four priorities, with one edge each to the next clique: 1,048,576 edges at 65,536 vertices
  pump      a mine pump: levels of water and of methane, the pump on or off, and turns of the mine (Odd) and the controller (Even)
  elevator  floors, calls at each of them and turns of the passengers (Odd) and the controller (Even); the greatest such game
"""
import math
import os
import random
import sys

DIAGRAM = "root r\noptional r f\noptional r g\n"
SCRIPT = "settle 20\nexclude f\nsettle 20\nundo\nredo\n"


def steps(n, _rng):
    """Vertex 0 is a sink that Even wins, vertex 1 a detour to it; the others reach 0 by f, and 1 always."""
    yield 0, 0, 0, "0"
    yield 1, 1, 0, "0"
    for v in range(2, n):
        yield v, 1, 0, "0[f],1"


def ladder(n, _rng):
    for v in range(n):
        twin = v ^ 1 if v ^ 1 < n else v
        up = (v + 2) % n
        yield v, v % 2, v % 2, f"{twin}[f],{up}" if twin != up else f"{up}"


def guarded(to, rng):
    guard = rng.choice(["", "", "", "", "", "", "[f]", "[!g]"])
    return f"{to}{guard}"


def random_game(n, rng, degree=3):
    for v in range(n):
        successors = rng.sample(range(n), min(degree, n))
        yield v, rng.randint(1, 4), rng.randint(0, 1), ",".join(guarded(w, rng) for w in successors)


def bits(priorities):
    """The logarithms of the tops of a game with these priorities and of its dual."""
    count = [priorities.count(p) for p in range(max(priorities) + 1)]
    return [sum(math.log2(c + 1) for c in count[parity::2]) for parity in (1, 0)]


def random_priorities(n, most, rng):
    """So many priorities, as evenly spread as the limit of the top allows."""
    for share in range(100, 0, -2):
        weights = [(share / 100) ** p for p in range(most)]
        priorities = rng.choices(range(most), weights, k=n)
        if max(bits(priorities)) < 62:
            return priorities
    sys.exit("no spread of priorities keeps the limit")


def random_of(most, near=None):
    def rows(n, rng):
        for v, priority in enumerate(random_priorities(n, most, rng)):
            if near:
                successors = [(v + rng.randint(-near, near)) % n for _ in range(3)]
            else:
                successors = rng.sample(range(n), 3)
            yield v, priority, rng.randint(0, 1), ",".join(guarded(w, rng) for w in sorted(set(successors)))

    return rows


def wide(n, rng):
    yield from random_game(n, rng, 16)


def loops(n, _rng):
    yield 0, 0, 0, "0"
    for v in range(1, n):
        yield v, 1, 0, f"{v}[f],0[g]"


def selfloops(n, rng):
    """Most vertices have priority 1; above them levels of one vertex each, as many as the limit allows, and a sink."""
    single = 61 - math.ceil(math.log2(n))
    low = n - single - 1
    yield 0, 2 * single + 2, 0, "0"
    for level in range(single):
        yield 1 + level, 2 * (single - level) + 1, 0, f"{1 + level},{level}[f]"
    for v in range(single + 1, n):
        yield v, 1, 0, f"{v},{rng.randint(1, single) if v % 3 else v - 1}[f]"
    assert low > 0


def climb(n, rng):
    levels = max(1, min(int(60 / math.log2(n)), n // 4))
    while levels * math.log2(n / levels + 1) > 61:
        levels -= 1
    each = (n - 1) // levels
    for level in range(levels):
        for i in range(each):
            v = level * each + i
            if level + 1 < levels:
                mate = v + 1 if i + 1 < each else level * each
                yield v, 2 * level + 1, 0, f"{mate},{(level + 1) * each + rng.randrange(each)}[f]"
            else:
                yield v, 2 * level + 1, 0, f"{v + 1 if i + 1 < each else levels * each}"
    yield levels * each, 2 * levels, 0, f"{levels * each}"


def clique(n, rng):
    for v in range(n):
        first = v - v % 16
        others = [w for w in range(first, min(first + 16, n)) if w != v] + [(first + 16 + rng.randrange(16)) % n]
        yield v, v % 4, (v // 4 + v) % 2, ",".join(guarded(w, rng) for w in sorted(set(others)))


def pump(n, _rng):
    methane = max(2, int(math.sqrt(n / 16)))
    water = n // (4 * methane)

    def at(turn, w, m, on):
        return ((turn * water + w) * methane + m) * 2 + on

    def priority(w, m, on):
        if m > methane // 2 and on:
            return 3
        return 1 if w == water - 1 else 2 if w == 0 else 0

    for w in range(water):
        for m in range(methane):
            for on in (0, 1):
                flow = max(0, w - 1) if on else min(water - 1, w + 1)
                more = min(methane - 1, m + 1)
                moves = {at(1, flow, max(0, m - 1), on): "", at(1, w, m, on): "[!g]", at(1, flow, more, on): "" if more <= methane // 2 else "[g]"}
                yield at(0, w, m, on), 0, 1, ",".join(f"{to}{guard}" for to, guard in moves.items())
    for w in range(water):
        for m in range(methane):
            for on in (0, 1):
                moves = {at(0, w, m, on): "", at(0, w, m, 1 - on): "[f]" if on else ""}
                yield at(1, w, m, on), priority(w, m, on), 0, ",".join(f"{to}{guard}" for to, guard in moves.items())


def elevator(n, _rng):
    floors = 1
    while (floors + 1) * 2 ** (floors + 2) <= n:
        floors += 1

    def at(turn, floor, calls):
        return (turn * floors + floor) * 2**floors + calls

    for floor in range(floors):
        for calls in range(2**floors):
            moves = {at(1, floor, calls): ""}
            for other in range(floors):
                if not calls >> other & 1:
                    moves[at(1, floor, calls | 1 << other)] = "[g]" if calls else ""
            yield at(0, floor, calls), 0 if calls else 2, 1, ",".join(f"{to}{guard}" for to, guard in moves.items())
    for floor in range(floors):
        for calls in range(2**floors):
            moves = {at(0, floor, calls & ~(1 << floor)): ""}
            for next_floor in (floor - 1, floor + 1):
                if 0 <= next_floor < floors:
                    moves[at(0, next_floor, calls)] = "[f]" if next_floor > floors // 2 else ""
            yield at(1, floor, calls), 1 if calls >> (floors - 1) & 1 else 0, 0, ",".join(f"{to}{guard}" for to, guard in moves.items())


FAMILIES = {
    "steps": steps,
    "ladder": ladder,
    "random": random_game,
    "random2": random_of(2),
    "random7": random_of(7),
    "random12": random_of(12),
    "random20": random_of(20),
    "wide": wide,
    "near": random_of(6, near=10),
    "loops": loops,
    "selfloops": selfloops,
    "climb": climb,
    "clique": clique,
    "pump": pump,
    "elevator": elevator,
}


def main():
    if len(sys.argv) not in (4, 5) or sys.argv[1] not in FAMILIES:
        sys.exit(__doc__)
    family, vertices, folder = sys.argv[1], int(sys.argv[2]), sys.argv[3]
    rng = random.Random(int(sys.argv[4]) if len(sys.argv) == 5 else 1)
    os.makedirs(folder, exist_ok=True)
    with open(os.path.join(folder, "diagram"), "w") as out:
        out.write(DIAGRAM)
    with open(os.path.join(folder, "script"), "w") as out:
        out.write(SCRIPT)
    rows = list(FAMILIES[family](vertices, rng))
    with open(os.path.join(folder, "game"), "w") as out:
        out.write(f"parity {len(rows) - 1};\n")
        for v, priority, owner, successors in rows:
            out.write(f"{v} {priority} {owner} {successors};\n")


if __name__ == "__main__":
    main()
