#!/usr/bin/env python3
"""Random histories with many a `settle`: what they leave is what their surviving decisions alone give.

    histories.py VPGDESK COUNT [SEED]

Each is a script of 8 to 27 lines on a game of `families.py` of 64 to 3,000 vertices, with some guards negated, so that
edges come back as features are decided, by one lifter or two. It ends in `settle` and `show`. Then a script of the
decisions that stand, in their order, with one `settle`, has to show the same; and no `settle` without a number may
answer `unsettled`. Prints what differs, and how many there were; exits with 1 where anything did.
"""
import random
import subprocess
import sys
import tempfile

import families

LINES = ["settle"] * 4 + ["select f", "exclude f", "select g", "exclude g", "retract f", "retract g", "reset"]
LINES += ["undo", "undo", "redo", "harvest", "commit 1", "settle 7"]
SIZES = [64, 150, 400, 1000, 3000]


def game(family, vertices, rng):
    negated = rng.random() * 0.8
    rows = families.FAMILIES[family](vertices, random.Random(rng.random()))
    lines = []
    for v, priority, owner, successors in rows:
        turned = rng.random() < negated
        lines.append(f"{v} {priority} {owner} {successors.replace('[f]', '[!f]') if turned else successors};\n")
    return "".join([f"parity {len(lines) - 1};\n", *lines])


def run(program, folder, lines, lifters=1):
    with open(f"{folder}/script", "w") as out:
        out.write("".join(line + "\n" for line in lines))
    files = [f"{folder}/{name}" for name in ("game", "diagram", "script")]
    words = [program, "run", "--lifters", str(lifters), *files]
    done = subprocess.run(words, stdout=subprocess.PIPE, stderr=subprocess.STDOUT, check=False)
    return done.stdout.decode().split("\n")


def shown(lines):
    """What the last `show` wrote."""
    return lines[max(at for at, line in enumerate(lines) if line.split(" ")[0] == "decisions") :]


def unsettled(script, answers):
    """The lines `settle` without a number that answered `unsettled`: before `show` each answer is a line."""
    return [at for at, line in enumerate(script) if line == "settle" and answers[at].startswith("unsettled")]


def main():
    if len(sys.argv) not in (3, 4):
        sys.exit(__doc__)
    program, count = sys.argv[1], int(sys.argv[2])
    rng, names, found = random.Random(sys.argv[3] if len(sys.argv) > 3 else "1"), list(families.FAMILIES), 0
    with tempfile.TemporaryDirectory() as folder:
        with open(f"{folder}/diagram", "w") as out:
            out.write(families.DIAGRAM)
        for at in range(count):
            family, vertices = names[at % len(names)], rng.choice(SIZES)
            with open(f"{folder}/game", "w") as out:
                out.write(game(family, vertices, rng))
            script = [rng.choice(LINES) for _ in range(rng.randint(6, 25))] + ["settle", "show"]
            answers = run(program, folder, script, rng.choice([1, 1, 2]))
            stands = shown(answers)
            decided = [("select " if word[0] == "+" else "exclude ") + word[1:] for word in stands[0].split(" ")[1:]]
            why = ["does not settle"] if unsettled(script, answers) else []
            if shown(run(program, folder, [*decided, "settle", "show"])) != stands:
                why.append("shows other than its decisions alone")
            if why:
                found += 1
                print(f"{family} of {vertices}, number {at}: {', '.join(why)}: {'; '.join(script)}", flush=True)
    print(f"{count} histories, {found} with a fault")
    sys.exit(1 if found else 0)


if __name__ == "__main__":
    main()
