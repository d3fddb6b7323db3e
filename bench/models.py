#!/usr/bin/env python3
"""What the game of a system and its requirements costs to make, and what its guards tell on the first page.

    models.py VPGDESK [STATES [FEATURES [RUNS]]]   makes the games of random systems: one line for each kind of system
    models.py make KIND STATES FEATURES FOLDER     writes FOLDER/system, FOLDER/requirements and FOLDER/diagram alone
    models.py --pages VPGDESK FOLDER..             verdicts on the first page of examples, FOLDER/system.aut and so on

A system has STATES states (20,000 where left out) and five transitions from each, over FEATURES features (200), all but
the root optional. A third of the guards are `true`, the others a literal, or an `&` or `|` of two or three. Of the
first 13,000 states each can be reached for the most part, and of the others none, so that the game is within 65,536
vertices. Kinds:

- `single`: each transition leads to a state of its own, so guards are seldom joined;
- `joined`: the five lead to two states, so most guards are joined, of up to nine literals;
- `tangled`: the same over ten features alone, so that literals meet;
- `knotted`: as `single`, but each guard is an `|` of three exclusive ors over six features, about the worst for Blake's
  form.

The requirement alternates: `nu X. mu Y. <a>X || <!a>Y`, some run has an `a` infinitely often. A line has the vertices
and edges of the game, the bytes of its text, seconds by the clock and of the processor (least of RUNS runs, 3 where
left out) of `vpgdesk model`, its peak memory in MB, and this by the bytes of the text.

`--pages` prints how many vertices are hopeless and sure on the first page: with the guards that the program writes;
with each guard replaced by `true` or `false` where all sets of features that agree with what is known agree on it; and
where all products of the diagram do.
"""
import itertools
import os
import random
import re
import subprocess
import sys
import tempfile
import time

import oracle
import products

REACHED = 13_000
REQUIREMENT = "often = nu X. mu Y. <a>X || <!a>Y;\n"
KINDS = ("single", "joined", "tangled", "knotted")

# ---- random systems


def guard(rng, names):
    """A short guard, in brackets; or nothing, for `true`."""
    count = rng.choice((0, 0, 1, 1, 2, 3))
    if count == 0:
        return ""
    literals = [rng.choice(("", "!")) + name for name in rng.sample(names, count)]
    return f" [{rng.choice((' & ', ' | ')).join(literals)}]"


def knot(rng, names):
    """Three exclusive ors of six features, in brackets."""
    six = rng.sample(names, 6)
    return " [" + " | ".join(f"{a} & !{b} | !{a} & {b}" for a, b in zip(six[::2], six[1::2])) + "]"


def targets(rng, kind, source, states):
    """Where the five transitions from a state lead: below the bound where this state is."""
    low, high = (0, min(REACHED, states)) if source < REACHED else (REACHED, states)
    count = 5 if kind in ("single", "knotted") else 2
    # one leads to the next state, so that each is reached
    picked = [min(source + 1, high - 1)] + [rng.randrange(low, high) for _ in range(count - 1)]
    return [picked[k % count] for k in range(5)]


def make(kind, states, features, folder):
    rng = random.Random(f"{kind} {states} {features}")
    names = [f"f{k}" for k in range(features - 1)]
    used = names[:10] if kind == "tangled" else names
    lines = [f"des (0, {5 * states}, {states})"]
    for source in range(states):
        for target in targets(rng, kind, source, states):
            text = knot(rng, used) if kind == "knotted" else guard(rng, used)
            lines.append(f'({source}, "{rng.choice("abc")}{text}", {target})')
    texts = {
        "system": "\n".join(lines) + "\n",
        "requirements": REQUIREMENT,
        "diagram": "root r\n" + "".join(f"optional r {name}\n" for name in names),
    }
    for name, text in texts.items():
        with open(f"{folder}/{name}", "w") as out:
            out.write(text)


# ---- what a game costs


def spent(words, out):
    """Seconds by the clock and of the processor, and megabytes, of a run."""
    start = time.perf_counter()
    child = subprocess.Popen(words, stdout=out)
    _, status, usage = os.wait4(child.pid, 0)
    child.returncode = os.waitstatus_to_exitcode(status)
    if child.returncode:
        sys.exit(f"the program ended with {child.returncode}")
    return time.perf_counter() - start, usage.ru_utime + usage.ru_stime, usage.ru_maxrss * 1024


def measure(program, kind, states, features, runs):
    with tempfile.TemporaryDirectory() as folder:
        # by a process of its own, since a child's peak memory counts what its parent had when it began
        words = [sys.executable, os.path.abspath(__file__), "make", kind, str(states), str(features), folder]
        subprocess.run(words, check=True)
        files = [f"{folder}/{name}" for name in ("system", "requirements", "diagram")]
        with open(f"{folder}/game", "wb") as out:
            rows = [spent([program, "model", *files], subprocess.DEVNULL if run else out) for run in range(runs)]
        size = os.path.getsize(f"{folder}/game")
        words = [program, "check", f"{folder}/game", files[2]]
        counts = subprocess.run(words, capture_output=True, text=True, check=True).stdout.split()
    clock, seconds, peak = (min(column) for column in zip(*rows))
    print(f"{kind} {states} states {5 * states} transitions: {counts[1]} vertices {counts[3]} edges {size} bytes, "
          f"{clock:.2f} s by the clock, {seconds:.2f} s of the processor, {peak / 1e6:.0f} MB, "
          f"{peak / size:.1f} times the text", flush=True)


# ---- the first page


class Exact:
    """What all sets of features of some kind say of guards, those that agree with what is known on the first page."""

    def __init__(self, diagram):
        d = oracle.read_diagram(diagram)
        self.names = d.names
        self.known = {d.names[f]: 2 if value else 0 for f, value in oracle.closure(d, [])}
        self.products = [{n: 2 if n in p else 0 for n in d.names} for p in products.products_of(diagram)]

    def over_sets(self, guard, text):
        named = sorted(set(re.findall(r"[A-Za-z_][A-Za-z0-9_]*", text)) - {"true", "false"})
        choices = [(self.known[n],) if n in self.known else (0, 2) for n in named]
        return {guard(dict(zip(named, row))) for row in itertools.product(*choices)}

    def over_products(self, guard, text):
        return {guard(values) for values in self.products}


def rewritten(game, truths):
    """The game's text with `true` or `false` for each guard that has one truth alone."""
    parsed = {}

    def told(match):
        text = match[1]
        if text not in parsed:
            values = truths(oracle.parse_guard(text), text)
            parsed[text] = f"[{'true' if 2 in values else 'false'}]" if len(values) == 1 else match[0]
        return parsed[text]

    parts = re.split(r'("[^"]*")', game)
    return "".join(part if part.startswith('"') else re.sub(r"\[([^\]]*)\]", told, part) for part in parts)


def first_page(program, game, diagram):
    with tempfile.TemporaryDirectory() as folder:
        for name, text in (("game", game), ("diagram", diagram), ("script", "settle\ncount\n")):
            with open(f"{folder}/{name}", "w") as out:
                out.write(text)
        words = [program, "run", "game", "diagram", "script"]
        done = subprocess.run(words, cwd=folder, capture_output=True, text=True, check=True)
    counts = dict(line.split() for line in done.stdout.splitlines())
    return f"{counts['hopeless']} hopeless, {counts['sure']} sure"


def pages(program, folder):
    files = [f"{folder}/{name}" for name in ("system.aut", "requirements.mcf", "diagram")]
    game = subprocess.run([program, "model", *files], capture_output=True, text=True, check=True).stdout
    with open(files[2]) as file:
        diagram = file.read()
    exact = Exact(diagram)
    print(f"{os.path.basename(os.path.abspath(folder))}: as written {first_page(program, game, diagram)}; "
          f"over sets {first_page(program, rewritten(game, exact.over_sets), diagram)}; "
          f"over products {first_page(program, rewritten(game, exact.over_products), diagram)}", flush=True)


def main():
    words = sys.argv[1:]
    if words[:1] == ["make"] and len(words) == 5 and words[1] in KINDS:
        make(words[1], int(words[2]), int(words[3]), words[4])
    elif words[:1] == ["--pages"] and len(words) > 2:
        for folder in words[2:]:
            pages(os.path.abspath(words[1]), folder)
    elif words and not words[0].startswith("-") and words[0] != "make":
        states, features, runs = (int(word) for word in words[1:] + ["20000", "200", "3"][len(words) - 1:])
        for kind in KINDS:
            measure(os.path.abspath(words[0]), kind, states, features, runs)
    else:
        sys.exit(__doc__)


if __name__ == "__main__":
    main()
