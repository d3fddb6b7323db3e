#!/usr/bin/env python3
"""Guesses in plain Rust, made from the text of their functions, to be measured without a proof.

    plain_copy.py make ROOT FILE                          # writes FILE, to be compiled by `rustc -O --edition 2024`
    plain_copy.py measure ZIELONKA VERTICES RUNS COPY..   # beside plain Zielonka: all families, and hard games
    plain_copy.py compare COUNT COPY COPY..               # tables of so many small games of all families

`make` takes the functions of vpg_regions, vpg_tangles, vpg_values and vpg_guess under ROOT, and of vpg_measure what
those use, without clauses, and puts `plain_copy.rs` around them. `COPY GAME zeros` raises both tables of a game from
zeros; `COPY GAME line` does as a line `settle` does, with a sweep first, and settles again after `exclude f`. Each
prints milliseconds of processor time, whether all is settled, and a number that is the same for the same tables.

`measure` prints one line for each game, each figure the least of RUNS runs, in turns: the recursion on both games
(`zielonka.rs`), and for each COPY zeros, in milliseconds and times the recursion, and for families a line, and again,
with its share of the line. `!!` stands where something is not settled, or two COPY do not have the same tables.
`compare` prints the games whose tables differ, or are open, and how many games there were.
"""
import os
import random
import re
import subprocess
import sys
import tempfile

import families
import settling

HERE = os.path.dirname(os.path.abspath(__file__))
SIDES = """
pub use crate::shim::Player;
#[derive(Clone, Copy)]
pub enum Which {
    Hopeful,
    Dual,
}
"""
MEASURE = """
pub struct Order;
pub struct Harvest;
pub use self::bounds::{Certificate, raise_to_bounds};
pub use self::lifts::is_progress;
pub use self::shape::Shape;
pub use self::table::Table;
"""
# what is not copied, and from where on a file is not
LEFT_OUT = {("vpg_guess", "at_once"), ("vpg_guess", "harvests")}
CUT = {
    ("vpg_measure", "lifts"): "// The first kept successor",
}


def without(lines, begins, ends):
    """Lines without those from one that begins so up to the one where it ends."""
    kept, skipped = [], None
    for line in lines:
        if skipped is None and begins(line.strip()):
            skipped = []
        if skipped is None:
            kept.append(line)
        else:
            skipped.append(line)
            if ends("\n".join(skipped)):
                skipped = None
    return kept


def is_balanced(text):
    return text.count("{") == text.count("}")


def plain(crate, text):
    """The text of a module in plain Rust."""
    lines = text.split("\n")
    lines = without(lines, lambda line: line.startswith("ghost use"), lambda text: text.endswith(";"))
    lines = without(lines, lambda line: re.match(r"(requires|ensures)\b.*\{", line) is not None, is_balanced)
    lines = without(lines, lambda line: re.match(r"impl(<.*?>)? (Model|Drop) for", line) is not None, is_balanced)
    left_out = ("#[tactic", "#![tactic", "#[derive(Drop)]", "#[error", "//!", "use thiserror")
    lines = [line.replace("///", "//") for line in lines if not line.strip().startswith(left_out)]
    text = "\n".join(lines).replace(", Error)]", ")]")
    text = re.sub(r"\bcrate::", f"crate::{crate}::", text)
    copied = r"^use (vpg_regions|vpg_tangles|vpg_values|vpg_measure|vpg_sides)::"
    text = re.sub(copied, r"use crate::\1::", text, flags=re.M)
    others = r"^use (vpg_game|vpg_hope(::arena)?|std::(alloc|collections))::"
    text = re.sub(others, "use crate::shim::", text, flags=re.M)
    text = re.sub(r"^use std::marker::Model;", "", text, flags=re.M)
    return re.sub(r"^use crate::shim::(\{?)(.*?)(\}?);", lambda m: used(m.group(2)), text, flags=re.M)


def used(names):
    """What a module uses of those that are not used everywhere."""
    others = [name for name in re.split(r",\s*", names) if name not in ("AllocError", "Global")]
    return f"use crate::shim::{{{', '.join(others)}}};" if others else ""


def crate_text(root, crate, names):
    base = f"{root}/crates/{crate}/src"
    modules = []
    for name in names or sorted(file[:-3] for file in os.listdir(base) if file != "lib.rt"):
        if (crate, name) not in LEFT_OUT:
            text = open(f"{base}/{name}.rt").read()
            cut = CUT.get((crate, name))
            if cut:
                text = text[: text.index(cut)]
            text = "use crate::shim::{AllocError, Global, Vec};\n" + plain(crate, text)
            modules.append(f"pub mod {name} {{\n{text}\n}}\n")
    return "".join(modules)


def passed_on(root, crate):
    """What the crate's root passes on of its modules."""
    public = re.findall(r"^pub use [^;]*;", open(f"{root}/crates/{crate}/src/lib.rt").read(), flags=re.M)
    return "\n".join(public).replace("pub use ", "pub use self::")


def copy(root):
    around = open(f"{HERE}/plain_copy.rs").read()
    head, tail = around.split("// The crates stand here.\n")
    solvers = ("vpg_regions", "vpg_tangles", "vpg_values")
    solvers = {name: crate_text(root, name, None) + passed_on(root, name) for name in solvers}
    crates = {
        "vpg_sides": SIDES,
        **solvers,
        "vpg_guess": crate_text(root, "vpg_guess", None),
        "vpg_measure": crate_text(root, "vpg_measure", ["bounds", "lifts", "shape", "table"]) + MEASURE,
    }
    return head + "".join(f"pub mod {name} {{\n{text}\n}}\n" for name, text in crates.items()) + tail


def words_of(*command):
    return subprocess.run(command, stdout=subprocess.PIPE, check=True).stdout.decode().split()


def line(name, game, is_family, zielonka, runs, copies):
    plain, zeros, lines, told = [], {}, {}, set()
    for _ in range(runs):
        if not plain or not plain[0][3].startswith("more"):
            plain.append(words_of(zielonka, game, "2"))
        for program in copies:
            words = words_of(program, game, "zeros")
            zeros.setdefault(program, []).append(float(words[0]))
            told.add(("zeros", *words[1:]))
            if is_family:
                words = words_of(program, game, "line")
                lines.setdefault(program, []).append((float(words[0]), float(words[3])))
                told.add(("line", *words[1:3], *words[4:]))
    least = min(float(words[1]) for words in plain)
    row = f"| {name} | {least:.1f}{' more' if plain[0][3].startswith('more') else ''} |"
    for program in copies:
        first = min(zeros[program])
        row += f" {first:.1f} | {first / max(least, 0.1):.1f} |" if is_family else f" {first:.1f} |"
        if is_family:
            one, again = (min(run[k] for run in lines[program]) for k in range(2))
            row += f" {one:.1f} | {again:.1f} | {again / one:.2f} |"
    differ = len(told) > (2 if is_family else 1) or any("open" in words for words in told)
    print(row + (" !!" if differ else ""), flush=True)


def tables(program, game):
    """What a copy says of a game's tables: no times."""
    zeros, lines = words_of(program, game, "zeros"), words_of(program, game, "line")
    return zeros[1], zeros[2], *lines[1:3], *lines[4:]


def small_game(family, vertices, seed, file):
    rows = families.FAMILIES[family](vertices, random.Random(seed))
    lines = [f"{v} {priority} {owner} {successors};\n" for v, priority, owner, successors in rows]
    with open(file, "w") as out:
        out.write("".join([f"parity {len(lines) - 1};\n", *lines]))


def compare(file, count, copies):
    rng = random.Random(count)
    names = list(families.FAMILIES)
    for seed in range(count):
        family, vertices = names[seed % len(names)], rng.choice([64, 100, 150, 300, 1000, 3000])
        small_game(family, vertices, seed, file)
        told = {tables(program, file) for program in copies}
        if len(told) > 1 or any("open" in words for words in told):
            print(f"{family} of {vertices}, seed {seed}: {told}", flush=True)
    print(f"{count} games compared")


def main():
    if len(sys.argv) > 4 and sys.argv[1] == "compare":
        with tempfile.TemporaryDirectory() as folder:
            compare(f"{folder}/game", int(sys.argv[2]), sys.argv[3:])
    elif len(sys.argv) == 4 and sys.argv[1] == "make":
        open(sys.argv[3], "w").write(copy(sys.argv[2]))
    elif len(sys.argv) > 5 and sys.argv[1] == "measure":
        with tempfile.TemporaryDirectory() as folder:
            for name, game, is_family in settling.games(folder, sys.argv[3]):
                line(name, game, is_family, sys.argv[2], int(sys.argv[4]), sys.argv[5:])
    else:
        sys.exit(__doc__)


if __name__ == "__main__":
    main()
