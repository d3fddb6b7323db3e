#!/usr/bin/env python3
"""Writes a game that is hard for some way of settling, or a diagram that is hard for searches.

    hard.py ladder RUNGS FILE           # Zielonka's recursion is exponential: a game of the kind of the recursive ladder of Friedmann 2011
    hard.py improvement LEVELS FILE     # strategy improvement with all switches is exponential: after Friedmann 2009, rebuilt from memory
    hard.py nested LEVELS FILE          # cycles within cycles: each level may stay on its odd priority or go on to the next
    hard.py climb LEVELS WIDTH FILE     # cycles of WIDTH vertices on each odd priority, which Even leaves for the next level at a price
    hard.py union GAME GAME.. FILE      # games side by side, as written by this script or families.py
    hard.py joined EDGES GAME GAME FILE # two games with so many edges from Odd's vertices of the first to the second, and from Even's of the second back
    hard.py pigeons HOLES ALTERNATIVES OPTIONAL FILE    # a diagram: one pigeon more than holes under an optional
                        # feature, which is in no product, or under the root if HOLES is negative; beside it a group
                        # of alternatives, and optional features

It tells the numbers of vertices and the logarithms of both tops, which may be 62 at most. At that limit: ladder 36, nested 61, improvement 9.
"""
import math
import random
import sys


def ladder(rungs):
    """Five vertices a rung: two of low priorities that form a cycle with the next rung's, and a chain of three above them."""
    game = {}
    for i in range(1, rungs + 1):
        game["a", i] = (1 - i % 2, i % 2, [("b", i), ("d", i - 1)])
        game["b", i] = (1 - i % 2, i % 2, [("a", i)] + ([("c", i)] if i < rungs else []))
    for i in range(rungs):
        game["c", i] = (3 * i + 5, i % 2, ([("b", i)] if i > 0 else []) + [("d", i)])
        down, up = [("d", i - 1)] if i > 0 else [], [("d", i + 1)] if i < rungs - 1 else []
        game["d", i] = (3 * i + 4, i % 2, [("e", i)] + down + up)
        game["e", i] = (3 * i + 3, 1 - i % 2, [("b", i + 1), ("d", i)])
    return numbered({v: game[v] for v in sorted(game)})


def improvement(levels):
    n, game = levels, {}
    game["x"] = (1, 1, ["x"])
    game["s"] = (8 * n + 6, 0, ["x"] + [("f", j) for j in range(1, n + 1)])
    game["r"] = (8 * n + 8, 0, ["x"] + [("g", j) for j in range(1, n + 1)])
    game["c"] = (8 * n + 4, 0, ["s", "r"])
    for i in range(1, 2 * n + 1):
        game["t", i] = (4 * n + 2 * i + 1, 0, ["s", "r", "c" if i == 1 else ("t", i - 1)])
        game["a", i] = (4 * n + 2 * i + 2, 1, [("t", i)])
    for i in range(1, n + 1):
        game["d", i] = (4 * i + 1, 0, ["s", ("e", i), "r"] + [("a", j) for j in range(1, 2 * i + 1)])
        game["e", i] = (4 * i + 2, 1, [("d", i), ("h", i)])
        game["g", i] = (4 * i + 3, 0, [("f", i), ("k", i)])
        game["k", i] = (8 * n + 4 * i + 7, 0, ["x"] + [("g", j) for j in range(i + 1, n + 1)])
        game["f", i] = (8 * n + 4 * i + 9, 1, [("e", i)])
        game["h", i] = (8 * n + 4 * i + 10, 1, [("k", i)])
    return numbered(game)


def nested(levels):
    game = {}
    for i in range(levels):
        on = [("o", i + 1)] if i + 1 < levels else []
        game["o", i] = (2 * i + 1, 0, [("o", i), ("e", i)] + on)
        game["e", i] = (2 * i + 2, 1, [("o", max(0, i - 1)), ("o", 0)] + [("e", w[1]) for w in on])
    return numbered(game)


def climb(levels, width):
    rng, rows = random.Random(1), []
    for level in range(levels):
        for i in range(width):
            first = level * width
            mate = first + (i + 1) % width
            if level + 1 < levels:
                rows.append((2 * level + 1, 0, sorted({mate, first + width + rng.randrange(width)})))
            else:
                rows.append((2 * level + 1, 0, [mate if mate > first else levels * width]))
    return rows + [(2 * levels, 0, [levels * width])]


def pigeons(holes, alternatives, optional):
    """Each pigeon is in exactly one hole, and no two in the same."""
    above, holes = ("p" if holes > 0 else "r"), abs(holes)
    lines = ["root r"]
    if alternatives:
        lines.append("alternative r: " + " ".join(f"a{i}" for i in range(alternatives)))
    lines += [f"optional r o{i}" for i in range(optional)]
    lines += ["optional r p"] if above == "p" else []
    lines += [f"mandatory {above} b{i}" for i in range(holes + 1)]
    lines += [f"alternative b{i}: " + " ".join(f"b{i}h{j}" for j in range(holes)) for i in range(holes + 1)]
    pairs = [(i, k) for i in range(holes + 1) for k in range(i + 1, holes + 1)]
    return lines + [f"excludes b{i}h{j} b{k}h{j}" for j in range(holes) for i, k in pairs]


def numbered(game):
    """Rows of priority, owner and successors, numbered in the order of the game."""
    number = {v: i for i, v in enumerate(game)}
    return [(priority, owner, [number[w] for w in dict.fromkeys(successors)]) for priority, owner, successors in game.values()]


def union(files):
    rows = []
    for file in files:
        first = len(rows)
        for entry in open(file).read().split(";")[1:]:
            words = entry.split()
            if words:
                moves = [w.split("[") for w in words[3].split(",")] if len(words) > 3 else []
                moved = ["[".join([str(int(to) + first), *guard]) for to, *guard in moves]
                rows.append((int(words[1]), int(words[2]), moved))
    return rows


def joined(edges, one, other):
    """No winner changes where Odd wins all of the first game and Even all of the second."""
    rows, first, rng = union([one, other]), len(union([one])), random.Random(1)
    from_one = [v for v in range(first) if rows[v][1] == 1]
    from_other = [v for v in range(first, len(rows)) if rows[v][1] == 0]
    for v in rng.sample(from_one, min(edges, len(from_one))):
        rows[v][2].append(str(first + rng.randrange(len(rows) - first)))
    for v in rng.sample(from_other, min(edges, len(from_other))):
        rows[v][2].append(str(rng.randrange(first)))
    return rows


def main():
    kind, *words, file = sys.argv[1:] or sys.exit(__doc__)
    if kind == "pigeons":
        with open(file, "w") as out:
            out.write("\n".join(pigeons(*map(int, words))) + "\n")
        return
    makers = {"ladder": ladder, "improvement": improvement, "nested": nested, "climb": climb}
    if kind in ("union", "joined"):
        rows = union(words) if kind == "union" else joined(int(words[0]), words[1], words[2])
    else:
        rows = makers[kind](*map(int, words))
    tops = []
    for parity in (1, 0):
        counts = {}
        for priority, _, _ in rows:
            if priority % 2 == parity:
                counts[priority] = counts.get(priority, 0) + 1
        tops.append(sum(math.log2(count + 1) for count in counts.values()))
    print(f"{file}: {len(rows)} vertices, tops 2^{tops[0]:.1f} and 2^{tops[1]:.1f}", file=sys.stderr)
    with open(file, "w") as out:
        out.write(f"parity {len(rows) - 1};\n")
        for v, (priority, owner, successors) in enumerate(rows):
            out.write(f"{v} {priority} {owner} {','.join(map(str, successors))};\n")


if __name__ == "__main__":
    main()
