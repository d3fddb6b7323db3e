#!/usr/bin/env python3
"""Holds the examples that are systems with requirements to brute force over their products, without the program.

    python3 bench/examples.py            each folder of examples/ with a system; it takes seconds
    python3 bench/examples.py NAME..     these alone

Each requirement is evaluated on what can be reached in the system of each product (`requirements.py`). Then these are
held to it:

- `holds`, which says in which products each requirement holds: a line `NAME: GUARD` for each, in the file's order;
- the number of products in the table of the folder's README;
- each assertion of `script` about a requirement, against the products that are left there;
- `system.aut`, where a `make.py` writes it: it is what that writes;
- the game that was written by hand for the same family, where it asks the same (`BY_HAND`).
"""
import multiprocessing
import os
import re
import subprocess
import sys

import oracle
import products
import requirements

EXAMPLES = f"{requirements.TOP}/examples"
FILES = ("system.aut", "requirements.mcf", "diagram")
# the folder of the game, the vertex of each requirement at the first state, and where it is not so: in these products
# the game has Even win, and the requirement fails
BY_HAND = {
    "vending_system": ("vending_machine", {"tea_stays": 11, "earned": 31}, {}),
    "mine_pump_system": ("mine_pump", {"well": 1000}, {"well": "alarm & high & !query & !command"}),
}


class Example:
    """A folder, and in which products each of its requirements holds."""

    def __init__(self, name, each):
        self.name, self.folder = name, f"{EXAMPLES}/{name}"
        self.family = requirements.Family(*map(self.text, FILES), each)
        self.faults = []

    def text(self, file):
        return requirements.read_file(f"{self.folder}/{file}")

    def is_in(self, product, guard):
        return requirements.guard_holds(requirements.GuardReader(guard, self.family.d.names).whole(), product)

    def expect(self, is_so, what):
        if not is_so:
            self.faults.append(f"{self.name}: {what}")

    def hold_guards(self):
        """Holds the file `holds` to the products."""
        rows = [line.split(": ") for line in self.text("holds").splitlines()]
        self.expect([row[0] for row in rows] == self.family.names, "holds: not the names of the requirements")
        for name, guard in rows:
            wrong = [p for p, held in self.family.products.items() if self.is_in(p, guard) != (name in held)]
            self.expect(not wrong, f"holds: {name} in {len(wrong)} products, as {sorted(min(wrong, default=()))}")

    def hold_table(self):
        """Holds the numbers of the page's table to the products. `none` is 0."""
        told = {}
        for line in self.text("README.md").splitlines():
            cells = [cell.strip() for cell in line.split("|")]
            if len(cells) > 4 and cells[1].startswith("`"):
                number = re.match(r"none|[a-z ]*([0-9,]+)", cells[3])
                for name in re.findall("`([a-z_0-9]+)`", cells[1]):
                    told[name] = number and int((number[1] or "0").replace(",", ""))
        for name in self.family.names:
            count = sum(name in held for held in self.family.products.values())
            self.expect(told.get(name) == count, f"README.md: {name} holds in {count}, and not in {told.get(name)}")

    def hold_script(self):
        """Holds the assertions of the script to the products. Returns how many there are."""
        rows = list(requirements.asserted(self.family, self.text("script")))
        for words, holding, left, wrong in rows:
            self.expect(not wrong, f"script: {' '.join(words)}, which holds in {holding} of {left}")
        return len(rows)

    def hold_made(self):
        """Holds the system to what `make.py` writes."""
        if os.path.exists(f"{self.folder}/make.py"):
            made = subprocess.check_output([sys.executable, f"{self.folder}/make.py"], text=True)
            self.expect(made == self.text("system.aut"), "make.py writes another system.aut")

    def hold_game(self):
        """Holds the game that was written by hand to the products."""
        folder, vertices, others = BY_HAND.get(self.name, (None, {}, {}))
        if not folder:
            return
        game = oracle.read_game(requirements.read_file(f"{EXAMPLES}/{folder}/game"))
        place = {v.identifier: i for i, v in enumerate(game)}
        for product, held in self.family.products.items():
            won = products.Plain(game, self.family.d.names, product).solve()[0]
            for name, vertex in vertices.items():
                is_other = name in others and self.is_in(product, others[name])
                is_won = place[vertex] in won
                self.expect(is_won == (name in held or is_other), f"{folder}: {vertex} in {sorted(product)}")

    def hold(self):
        self.hold_guards()
        self.hold_table()
        self.hold_made()
        self.hold_game()
        counts = {
            "states": self.family.system.states,
            "transitions": len(self.family.system.transitions),
            "features": len(self.family.d.names),
            "products": len(self.family.products),
            "requirements": len(self.family.names),
            "assertions": self.hold_script(),
        }
        return f"{self.name}: {', '.join(f'{count} {what}' for what, count in counts.items())}"


def main(words):
    names = words or sorted(it for it in os.listdir(EXAMPLES) if os.path.exists(f"{EXAMPLES}/{it}/system.aut"))
    faults = []
    with multiprocessing.Pool() as pool:
        for name in names:
            example = Example(name, lambda look, parts: pool.map(look, parts, 8))
            print(example.hold(), flush=True)
            faults += example.faults
    for fault in faults:
        print(fault)
    print(f"examples: {len(faults)} faults" if faults else "examples: ok")
    return 1 if faults else 0


if __name__ == "__main__":
    sys.exit(main(sys.argv[1:]))
