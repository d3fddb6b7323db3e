#!/usr/bin/env python3
"""What a line of a script costs on a large family: decisions, lifts and settling, one line at a time.

    decisions.py VPGDESK[,VPGDESK..] [VERTICES [FEATURES [GAME DIAGRAM VERTEX FEATURE..]]]
    decisions.py --instructions VPGDESK[,VPGDESK..] ..    counts instructions by callgrind: slow, and the same each time

The family has VERTICES vertices (65,536 if left out) of sixteen edges each and FEATURES optional features (200), of which each is named by about one
edge in a thousand. For each kind of line: the processor time of a script of 100 such lines, less that of the same script without them, over 100; the
least of three runs; and the peak memory. Such a difference may be a millisecond off: the rows marked long have 1,000 lines. With GAME, DIAGRAM, a VERTEX and FEATUREs these are measured in its place: each FEATURE may be decided in by itself,
out by itself, and together with the others. Several programs, as one before a change and one after it, take turns, so that they share the machine's load;
each has a column.
"""
import os
import random
import re
import subprocess
import sys
import tempfile

LINES = 100
RUNS = 3
COUNTS = sys.argv[1:2] == ["--instructions"]
if COUNTS:
    del sys.argv[1]


def write_family(folder, vertices, features):
    rng = random.Random(11)
    names = [f"f{i}" for i in range(features)]
    with open(f"{folder}/diagram", "w") as out:
        out.write("root r\n" + "".join(f"optional r {name}\n" for name in names))
    guarded = min(features / 1000, 0.9)
    with open(f"{folder}/game", "w") as out:
        out.write(f"parity {vertices - 1};\n")
        for v in range(vertices):
            edges = []
            for w in rng.sample(range(vertices), min(16, vertices)):
                guard = ""
                if rng.random() < guarded:
                    guard = f"[{rng.choice(['', '!'])}{rng.choice(names)}]"
                edges.append(f"{w}{guard}")
            out.write(f"{v} {min(int(rng.expovariate(0.6)), 6)} {rng.randrange(2)} {','.join(edges)};\n")
    return f"{folder}/game", f"{folder}/diagram", "0", names


def spent(program, game, diagram, lines):
    """Processor seconds and megabytes of a run."""
    with tempfile.NamedTemporaryFile("w") as script, open(os.devnull, "wb") as sink:
        script.write("\n".join(lines) + "\n")
        script.flush()
        child = subprocess.Popen([program, "run", game, diagram, script.name], stdout=sink)
        _, status, usage = os.wait4(child.pid, 0)
        child.returncode = os.waitstatus_to_exitcode(status)
        if child.returncode:
            sys.exit(f"the program ended with {child.returncode}")
    return usage.ru_utime + usage.ru_stime, usage.ru_maxrss / 1024


def executed(program, game, diagram, lines):
    """Thousands of millions of instructions of a run, which the rows show as millions a line, and no megabytes."""
    with tempfile.NamedTemporaryFile("w") as script:
        script.write("\n".join(lines) + "\n")
        script.flush()
        counted = ["valgrind", "--tool=callgrind", "--callgrind-out-file=/dev/null"]
        words = [program, "run", game, diagram, script.name]
        ran = subprocess.run(counted + words, stdout=subprocess.DEVNULL, stderr=subprocess.PIPE, text=True)
    if ran.returncode:
        sys.exit(f"the program ended with {ran.returncode}")
    return int(re.search(r"Collected : (\d+)", ran.stderr)[1]) / 1e9, 0


def least(programs, game, diagram, lines):
    """For each program the least seconds and the most megabytes of its runs."""
    if COUNTS:
        return [executed(program, game, diagram, lines) for program in programs]
    runs = [[spent(program, game, diagram, lines) for program in programs] for _ in range(RUNS)]
    return [(min(seconds for seconds, _ in of_one), max(memory for _, memory in of_one)) for of_one in zip(*runs)]


def told(name, figures):
    if COUNTS:
        print(f"{name:21}" + "".join(f" {millions:10.3f} million" for millions, _ in figures), flush=True)
        return
    print(f"{name:21}" + "".join(f" {milliseconds:10.3f} ms {memory:5.0f} MB" for milliseconds, memory in figures), flush=True)


def cycled(features, line):
    return [line.format(features[i % len(features)]) for i in range(LINES)]


def paired(features, first, second):
    """Pairs of lines on one feature after another, so that each can be carried out."""
    return [line.format(features[i % len(features)]) for i in range(LINES // 2) for line in (first, second)]


def cases(vertex, features):
    """The name, the lines before, and the lines that are measured."""
    yield "lift", [], [f"lift hopeful {vertex}"] * LINES
    yield "select and retract", [], paired(features, "select {}", "retract {}")
    yield "exclude and undo", [], paired(features, "exclude {}", "undo")
    if len(features) >= LINES:
        selected = cycled(features, "select {}")
        yield "select", [], selected
        yield "exclude", [], cycled(features, "exclude {}")
        yield "retract", selected, cycled(features, "retract {}")
        yield "undo", selected, ["undo"] * LINES
        yield "redo", selected + ["undo"] * LINES, ["redo"] * LINES
        retracted = cycled(features, "retract {}")
        yield "undo, redo (long)", selected, (["undo"] * LINES + ["redo"] * LINES) * 5
        yield "select, retr. (long)", [], (selected + retracted) * 5
    yield "undo and redo", [f"select {features[0]}"], ["undo", "redo"] * (LINES // 2)
    yield "settle, settled", ["settle"], ["settle"] * LINES
    yield "lift, settled", ["settle"], [f"lift hopeful {vertex}"] * LINES
    yield "sel., retr., settled", ["settle"], paired(features, "select {}", "retract {}")
    yield "excl., undo, settled", ["settle"], paired(features, "exclude {}", "undo")
    if len(features) >= LINES:
        yield "a hundred, settled", ["settle"], selected + retracted
        yield "reversed, settled", ["settle"], selected + retracted[::-1]
    yield "show", [], ["show"] * LINES
    yield "products", [], ["products"] * LINES


def main():
    if len(sys.argv) < 2:
        sys.exit(__doc__)
    programs = sys.argv[1].split(",")
    with tempfile.TemporaryDirectory() as folder:
        if len(sys.argv) > 6:
            game, diagram, vertex, features = sys.argv[4], sys.argv[5], sys.argv[6], sys.argv[7:]
        else:
            vertices = int(sys.argv[2]) if len(sys.argv) > 2 else 65536
            game, diagram, vertex, features = write_family(folder, vertices, int(sys.argv[3]) if len(sys.argv) > 3 else 200)
        reading = least(programs, game, diagram, [])
        told("reading", [(seconds * 1000, memory) for seconds, memory in reading])
        known = {(): [seconds for seconds, _ in reading]}
        for name, before, lines in cases(vertex, features):
            if tuple(before) not in known:
                known[tuple(before)] = [seconds for seconds, _ in least(programs, game, diagram, before)]
            found = zip(least(programs, game, diagram, before + lines), known[tuple(before)])
            told(name, [((seconds - without) * 1000 / len(lines), memory) for (seconds, memory), without in found])


if __name__ == "__main__":
    main()
