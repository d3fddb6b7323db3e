#!/usr/bin/env python3
"""Writes a script about each vertex and each product of a family.

    each.py GAME DIAGRAM [STEP]                      writes the script
    each.py --compare PROGRAM GAME DIAGRAM [STEP]    compares the answers of PROGRAM to it with those of oracle.py

With STEP the script takes only one of so many products, and shows no pages and plans. Those of three examples stand in
their folders as `each`, and the gate has their answers; body_comfort, with each 32nd product, is compared here alone.
Each vertex is lifted in both tables of the opening page. Then the products come one after another: decisions that are
otherwise there are taken back, those that are missing are made, and the page is settled, by `settle`, by a harvest that
is committed at once, or by one that is committed after the next product has come, late. After that the page has to be
full and settled, and each asserted verdict is what brute force finds in that product (`products.py`). The lines are
those of sessions 10 to 64 by turns. No token is given up: at the end each change is undone, which leaves the trail of
the opening page.
"""
import itertools
import subprocess
import sys
import tempfile

sys.dont_write_bytecode = True
import oracle  # noqa: E402
import products  # noqa: E402

LABELS = list(range(10, 65))


class Script:
    """The lines so far, the decisions of the page, and how many changes and harvests there were."""

    def __init__(self, game, diagram):
        self.names, self.diagram = products.features_of(diagram), oracle.read_diagram(diagram)
        self.vertices, self.text = oracle.read_game(game), diagram
        self.lines, self.decided, self.changes, self.harvests = [], {}, 0, 0
        self.labels = itertools.cycle(LABELS)

    def call(self, *words):
        self.lines.append(f"{next(self.labels)}: {' '.join(map(str, words))}")

    def change(self, *words):
        self.changes += 1
        self.call(*words)

    def go_to(self, product):
        """Makes the decisions of a product, as many as are needed for a full page."""
        for name in [name for name, value in self.decided.items() if value != (name in product)]:
            del self.decided[name]
            self.change("retract", name)
        for f, name in enumerate(self.names):
            choices = [(self.names.index(decided), value) for decided, value in self.decided.items()]
            known = oracle.closure(self.diagram, choices)
            if (f, True) not in known and (f, False) not in known:
                self.decided[name] = name in product
                self.change("select" if name in product else "exclude", name)

    def harvest(self):
        self.harvests += 1
        self.call("harvest")

    def settle(self, k):
        """Settles the page in one of three ways, by turns. The last harvest of the third comes late."""
        if k % 3 == 0 and k:
            self.call("commit", self.harvests)
        if k % 3 == 1:
            self.harvest()
            self.call("commit", self.harvests)
        else:
            self.call("settle")
        if k % 3 == 2:
            self.harvest()

    def look(self, k, product, is_short):
        won = products.Plain(self.vertices, self.names, product).solve()[0]
        self.call("assert", "full")
        self.call("assert", "settled")
        for i in range(3):
            v = (3 * k + i) % len(self.vertices)
            self.call("assert", self.vertices[v].identifier, "sure" if v in won else "hopeless")
        self.call("lift", "hopeful", self.vertices[k % len(self.vertices)].identifier)
        if not is_short:
            self.call("show")
            self.call("plan")

    def write(self, step):
        for vertex in self.vertices:
            self.call("lift", "hopeful", vertex.identifier)
            self.call("lift", "dual", vertex.identifier)
        self.call("trail")
        for k, product in enumerate(list(products.products_of(self.text))[::step]):
            self.lines.append(f"# {' '.join(name for name in self.names if name in product)}")
            self.go_to(product)
            self.settle(k)
            self.look(k, product, step > 1)
        for _ in range(self.changes):
            self.call("undo")
        self.call("trail")
        return "".join(line + "\n" for line in self.lines)


def compare(program, files, script):
    """Says whether the program answers a script as oracle.py does, and whether all that it asserts holds."""
    with tempfile.NamedTemporaryFile("w", suffix=".script", encoding="utf-8") as out:
        out.write(script)
        out.flush()
        words = [*files, out.name]
        theirs = subprocess.run([program, "run", *words], capture_output=True, encoding="utf-8", check=True).stdout
        ours = subprocess.run([sys.executable, oracle.__file__, *words], capture_output=True, encoding="utf-8",
                              check=True).stdout
    for number, (one, other) in enumerate(itertools.zip_longest(theirs.split("\n"), ours.split("\n")), 1):
        if one != other:
            sys.exit(f"line {number}: {one}, and by the oracle {other}")
    asserted, holding = script.count(": assert "), ours.split("\n").count("holds")
    if asserted != holding:
        sys.exit(f"{asserted} lines assert something, and {holding} hold")
    print(f"{len(script.splitlines())} lines, each answered as by the oracle; {asserted} assertions hold")


def main():
    words = sys.argv[1:]
    program = words[1] if words[:1] == ["--compare"] and len(words) > 1 else None
    files = words[2:] if program else words
    if len(files) not in (2, 3):
        sys.exit(__doc__)
    texts = [open(path, encoding="utf-8").read() for path in files[:2]]
    script = Script(*texts).write(int(files[2]) if len(files) > 2 else 1)
    if program:
        compare(program, files[:2], script)
    else:
        sys.stdout.write(script)


if __name__ == "__main__":
    main()
