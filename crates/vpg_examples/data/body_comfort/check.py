#!/usr/bin/env python3
"""What this family's script answers, calculated without the program.

    check.py > answers

Decisions, undo and redo, settling and texts of the page are those of bench/oracle.py, which lifts measures one by one.
What asks more of a page is found by brute force, as in bench/answers.py: all products are listed, and each one's plain
game is solved by Zielonka's recursion; so are the games of pages. Where the oracle's lifts can tell it, too, both have
to agree. Each verdict of each settled page, and the plan, are held to the products that are left. It takes minutes.
"""
import pathlib
import sys

HERE = pathlib.Path(__file__).resolve().parent
sys.path.insert(0, str(HERE.parents[3] / "bench"))

import answers
import oracle
import products

OF_PAGES = ("why", "offer", "repair")
OF_PRODUCTS = ("example", "counterexample", "needs")


def products_of(d):
    """All products, in the order of an example: feature by feature, with a feature before without it."""
    rows = [()]
    for last in range(len(d.names)):
        clauses = [clause for clause in d.clauses if max(f for f, _ in clause) == last]
        counts = [count for count in d.counts if max(count[0], *count[1]) == last]
        rows = [row + (has,) for row in rows for has in (True, False)]
        rows = [p for p in rows if all(any(p[f] == value for f, value in clause) for clause in clauses)]
        rows = [p for p in rows if all(not p[f] or low <= sum(p[c] for c in of) <= high for f, of, low, high in counts)]
    return rows


class Family(answers.Family):
    """A family whose products are too many to be picked from all sets of features."""

    def __init__(self, diagram, game):
        self.d, self.game, self.diagram = oracle.read_diagram(diagram), oracle.read_game(game), diagram
        self.products, self.closures, self.verdicts = products_of(self.d), {}, {}
        self.even = {p: self.winners(p) for p in self.products}


class Desk(oracle.Desk):
    def __init__(self, family):
        super().__init__(family.game, family.d)
        self.family = family

    def met(self, identifier, t, decided=None):
        decided = self.choices() if decided is None else decided
        return iter(self.family.met(decided, (t, self.place(identifier))))

    def hold(self):
        """Holds the page's verdicts to the products that are left."""
        left = [self.family.even[p] for p in self.family.left(self.choices())]
        for v, vertex in enumerate(self.game):
            wins, (hopeless, sure) = [v in won for won in left], self.tops(v)
            assert not (hopeless and any(wins)) and not (sure and not all(wins)), vertex.identifier
            assert not self.is_full() or (hopeless or all(wins)) and (sure or not any(wins)), vertex.identifier

    def hold_plan(self, told):
        """Holds a plan to its product: Even wins the same vertices by the moves of the plan alone."""
        (product,), place = self.family.left(self.choices()), {v.identifier: i for i, v in enumerate(self.game)}
        features = {name for name, has in zip(self.d.names, product) if has}
        plain = products.Plain(self.game, self.d.names, features)
        plain.keep_to({place[int(v)]: place[int(w)] for v, w in (line.split()[1:] for line in told.splitlines()[:-1])})
        assert plain.solve()[0] == self.family.even[product], "the plan does not win"

    def carry_out(self, words):
        if words[0] in OF_PAGES + OF_PRODUCTS:
            told = "\n".join(answers.Lines(self.family, self.choices()).line(*words))
            assert words[0] in OF_PRODUCTS or told == super().carry_out(words), words
            return told
        told = super().carry_out(words)
        if words[0] == "settle":
            assert told.startswith("settled")
            self.hold()
        if words[0] == "plan":
            self.hold_plan(told)
        return told


def main():
    diagram, game, script = ((HERE / name).read_text() for name in ("diagram", "game", "script"))
    desk = Desk(Family(diagram, game))
    for line in script.splitlines():
        words = [word for word in line.split() if not word.endswith(":")]
        if words and not line.startswith("#"):
            try:
                print(desk.carry_out(words), flush=True)
            except oracle.Refused as why:
                print(f"refused {why}")


if __name__ == "__main__":
    main()
