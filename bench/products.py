#!/usr/bin/env python3
"""Who wins which vertex in which product, by brute force.

    products.py GAME DIAGRAM [VERTEX..]       one line a product: its features, and the vertices (of those named) that Even wins
    products.py --check GAME DIAGRAM OUTPUT   compares what `show` and `plan` told, in the output of a script, with that

Products are all sets of features that meet each line of the diagram as the line says; each product's plain game is solved by Zielonka's
recursion (Zielonka 1998; McNaughton 1993), which shares nothing with progress measures. For games and diagrams of a few features, well formed.
"""
import itertools
import sys

from oracle import read_game


def lines_of(diagram):
    for line in diagram.splitlines():
        words = line.replace(":", " : ").split()
        if words:
            yield words[0], words[1:]


def features_of(diagram):
    names = []
    for kind, rest in lines_of(diagram):
        if kind == "root":
            names.append(rest[0])
        elif kind in ("mandatory", "optional"):
            names.append(rest[1])
        elif kind not in ("requires", "excludes"):
            names += rest[rest.index(":") + 1:]
    return names


def meets(product, kind, rest):
    """Whether a set of features meets a line."""
    if kind == "root":
        return rest[0] in product
    if kind == "requires":
        return rest[0] not in product or rest[1] in product
    if kind == "excludes":
        return not (rest[0] in product and rest[1] in product)
    parent = rest[0]
    children = [rest[1]] if kind in ("mandatory", "optional") else rest[rest.index(":") + 1:]
    inside = sum(c in product for c in children)
    low, high = {
        "mandatory": (1, 1),
        "optional": (0, 1),
        "alternative": (1, 1),
        "or": (1, len(children)),
    }.get(kind) or (int(rest[1]), int(rest[2]))
    return low <= inside <= high if parent in product else inside == 0


def products_of(diagram):
    names = features_of(diagram)
    for bits in itertools.product([True, False], repeat=len(names)):
        product = {name for name, bit in zip(names, bits) if bit}
        if all(meets(product, kind, rest) for kind, rest in lines_of(diagram)):
            yield product


class Plain:
    """The plain game of a product: places of vertices, and the edges that are there."""

    def __init__(self, game, names, product):
        values = {name: 2 if name in product else 0 for name in names}
        self.owner = [v.owner for v in game]
        self.priority = [v.priority for v in game]
        self.edges = [[to for to, gs in v.edges if max(g(values) for g in gs) == 2] for v in game]

    def attracted(self, player, goal, inside):
        """The vertices inside from which the player can force a visit to the goal, or leave the other without a move."""
        pull = set(goal)
        while True:
            more = set()
            for v in inside - pull:
                moves = [w for w in self.edges[v] if w in inside]
                if self.owner[v] == player and any(w in pull for w in moves):
                    more.add(v)
                if self.owner[v] != player and all(w in pull for w in moves):
                    more.add(v)
            if not more:
                return pull
            pull |= more

    def solve(self, inside=None):
        """The vertices that Even and Odd win, as a pair of sets."""
        inside = set(range(len(self.owner))) if inside is None else inside
        won = [set(), set()]
        for player in (0, 1):  # a player who cannot move loses
            caught = self.attracted(player, set(), inside)
            if caught:
                won = list(self.solve(inside - caught))
                won[player] = won[player] | caught
                return tuple(won)
        if not inside:
            return set(), set()
        top = max(self.priority[v] for v in inside)
        player = top % 2
        pulled = self.attracted(player, {v for v in inside if self.priority[v] == top}, inside)
        lost = self.solve(inside - pulled)[1 - player]
        if not lost:
            won[player] = set(inside)
            return tuple(won)
        lost = self.attracted(1 - player, lost, inside)
        won = list(self.solve(inside - lost))
        won[1 - player] = won[1 - player] | lost
        return tuple(won)

    def keep_to(self, plan):
        """Leaves each vertex that the plan names its planned edge alone."""
        for v, w in plan.items():
            assert w in self.edges[v], "a plan takes an edge that the product lacks"
            self.edges[v] = [w]


def verdicts_told(output):
    """For each `show`, and each `plan` behind it: the decisions, whether full, the verdicts and the plan."""
    pages, page = [], None
    for words in map(str.split, output.splitlines()):
        if words[:1] == ["decisions"]:
            page = {"decisions": words[1:], "full": False, "verdicts": {}, "plan": None}
            pages.append(page)
        elif words[:1] == ["full"]:
            page["full"] = words[1] == "yes"
        elif len(words) == 5 and words[3] in ("hopeless", "possible"):
            page["verdicts"][int(words[0])] = (words[3], words[4])
        elif words[:1] == ["plan"]:
            page["plan"] = {**(page["plan"] or {}), int(words[1]): int(words[2])}
    return pages


def check(game, diagram, output):
    names, place = features_of(diagram), {v.identifier: i for i, v in enumerate(game)}
    won = [(p, Plain(game, names, p).solve()[0]) for p in products_of(diagram)]
    for page in verdicts_told(output):
        left = [(p, w) for p, w in won if all((d[1:] in p) == (d[0] == "+") for d in page["decisions"])]
        unseen = 0
        for identifier, told in page["verdicts"].items():
            wins = [place[identifier] in w for _, w in left]
            assert told[0] == "possible" or not any(wins), f"{identifier} is not hopeless"
            assert told[1] == "unsure" or all(wins), f"{identifier} is not sure"
            unseen += (told[0] == "possible" and not any(wins)) + (told[1] == "unsure" and all(wins))
        assert not page["full"] or (len(left) == 1 and unseen == 0), "a full settled page tells who wins"
        if page["plan"] is not None:
            (product, wins), plain = left[0], Plain(game, names, left[0][0])
            plain.keep_to({place[v]: place[w] for v, w in page["plan"].items()})
            assert plain.solve()[0] == wins, "the plan does not win"
        print(f"decisions {' '.join(page['decisions'])}: {len(left)} products, verdicts true, {unseen} more that hold and were not seen" + (", the plan wins" if page["plan"] else ""))


def main():
    if len(sys.argv) == 5 and sys.argv[1] == "--check":
        game, diagram, output = (open(path).read() for path in sys.argv[2:])
        check(read_game(game), diagram, output)
    elif len(sys.argv) >= 3:
        game, diagram = read_game(open(sys.argv[1]).read()), open(sys.argv[2]).read()
        shown = [int(v) for v in sys.argv[3:]] or [v.identifier for v in game]
        for product in products_of(diagram):
            won = Plain(game, features_of(diagram), product).solve()[0]
            wins = [str(v.identifier) for i, v in enumerate(game) if i in won and v.identifier in shown]
            print(" ".join(n for n in features_of(diagram) if n in product) + ": " + (" ".join(wins) or "none"))
    else:
        sys.exit(__doc__)


if __name__ == "__main__":
    main()
