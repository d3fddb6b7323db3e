#!/usr/bin/env python3
"""Counts lines of over 120 columns, by kind and file, and holds each count to its ceiling in .ci/ceilings.

    python3 .ci/ceilings.py            names each file that has more than its ceiling allows, and exits with 1 then
    python3 .ci/ceilings.py --anew     writes the ceilings again, from the files as they are
    python3 .ci/ceilings.py --sums     prints how many lines there are of each kind

Kinds: code (of Rattle and of scripts), clauses (of contracts and models), definitions (specs/), prose (documents). Not
counted: imports, which rt fmt lays out; proofs, whose answers tools write; tables and code in documents. A line of
.ci/ceilings is a kind, a count and a path; what has no line has the ceiling 0. A ceiling may fall and not rise.
"""
import collections
import glob
import os
import re
import sys

ROOT = os.path.dirname(os.path.dirname(os.path.abspath(__file__)))
CEILINGS = f"{ROOT}/.ci/ceilings"
MOST = 120
READ = ("crates/*/src/**/*.rt", "crates/*/specs/**/*.antt", "bench/*.py", ".ci/*.py", "**/*.md")
SIGNS = re.compile("[→≡×λ∷↔⊎¬≤≢]|^ *(requires|ensures|ghost)\\b")


def kind_of(path, line):
    """The kind of an over-long line, or None where it is not counted."""
    if path.endswith(".md"):
        return None if line.startswith(("|", "    ", "```")) or re.match(r"\[.*\]: ", line) else "prose"
    if path.endswith(".py"):
        return "code"
    if re.match(r" *(pub |ghost )*use ", line):
        return None
    if path.endswith(".antt"):
        return "definitions"
    return "clauses" if SIGNS.search(line) and not line.lstrip().startswith("//") else "code"


def counts():
    """How many over-long lines of each kind each file has."""
    found = collections.Counter()
    for words in READ:
        for path in glob.glob(f"{ROOT}/{words}", recursive=True):
            short = os.path.relpath(path, ROOT)
            if "/out/" in short:
                continue
            with open(path, encoding="utf-8") as it:
                for line in it:
                    kind = kind_of(short, line) if len(line.rstrip("\n")) > MOST else None
                    if kind:
                        found[kind, short] += 1
    return found


def ceilings():
    found = collections.Counter()
    if os.path.isfile(CEILINGS):
        with open(CEILINGS, encoding="utf-8") as it:
            for line in it:
                kind, most, path = line.split()
                found[kind, path] = int(most)
    return found


def faults():
    """What has more over-long lines than its ceiling allows, a line each."""
    allowed = ceilings()
    for (kind, path), count in sorted(counts().items()):
        if count > allowed[kind, path]:
            most = allowed[kind, path]
            yield f"{path}: {count} lines of {kind} have over {MOST} columns, and {most} may (.ci/ceilings)"


def main(words):
    if words == ["--anew"]:
        with open(CEILINGS, "w", encoding="utf-8") as it:
            it.writelines(f"{kind} {count} {path}\n" for (kind, path), count in sorted(counts().items()))
        return 0
    if words == ["--sums"]:
        sums = collections.Counter()
        for (kind, _), count in counts().items():
            sums[kind] += count
        for kind in ("code", "clauses", "definitions", "prose"):
            print(kind, sums[kind])
        return 0
    found = list(faults())
    for it in found:
        print(it)
    return 1 if found else 0


if __name__ == "__main__":
    sys.exit(main(sys.argv[1:]))
