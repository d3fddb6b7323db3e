#!/usr/bin/env python3
"""Writes docs/DEFINITIONS.md: each definition that a public contract names, with the sentence over it, by file.

    python3 bench/definitions.py            writes the document
    python3 bench/definitions.py --check    names each fault, one a line, and exits with 1 where there is one

A definition is public where a clause of a public function, of a trait or of a law names it, or a model's value; in a
program, where a clause of what its modules share does. So is what PROOFS, OFFICE and GLOSSARY name beside. The
sentence is the comment right above it in crates/CRATE/specs; the comment over a `mutual` group is its first member's.
Faults: the document is not what this script writes, or a definition has no sentence.
"""
import collections
import glob
import os
import re
import sys
import textwrap

ROOT = os.path.dirname(os.path.dirname(os.path.abspath(__file__)))
TARGET = f"{ROOT}/docs/DEFINITIONS.md"
CITING = ("docs/PROOFS.md", "docs/OFFICE.md", "docs/GLOSSARY.md")
WORD = r"[^\W\d][\w']*"
IMPORT = re.compile(r"use\s+Rattle\.(vpg\w*)\.specs((?:\.\w+)+?)(?:\.\{([^}]*)\}|\s+as\s+(\w+)|\.([^\s.{;]+))")
Definition = collections.namedtuple("Definition", "name sentence line")  # a constructor stands for its type

OPENING = """\
# Definitions

Each definition that a public contract or a law names, with the sentence over it and its file under `crates/`. What
these are made of stands in the same files, or in those that they import. Files that serve private contracts and models
alone are named at each crate's head: the promise can be read without them. `bench/definitions.py` writes this page from
`specs/`; change a sentence there.

Sources: *FASE 2020*: ter Beek, van Loo, de Vink and Willemse, Family-Based SPL Model Checking Using Parity Games with
Variability. *Jurdzinski 2000*: Small Progress Measures for Solving Parity Games. *Schobbens 2007*: Schobbens, Heymans,
Trigaux and Bontemps, Generic semantics of feature diagrams. *Kang 1990*: Feature-Oriented Domain Analysis (FODA).
*Kleene 1952*: Introduction to Metamathematics. *PGSolver*: its text format for parity games. *Classen 2010*: Classen,
Heymans, Schobbens, Legay and Raskin, Model Checking Lots of Systems. *Aldebaran*: the text format of CADP for
transition systems. A file that names no source is this project's own.
"""


def text_of(path):
    with open(path, encoding="utf-8") as it:
        return it.read()


def crates():
    """The crates' names, lowest first."""
    lines = text_of(f"{ROOT}/crates.txt").split("\n")
    return [it.split(":")[0].split()[0] for it in lines if it.strip() and not it.startswith("#")]


def definitions_in(text):
    """A file's opening comment, and its definitions by name."""
    lines = text.split("\n")
    opening, found, comment, in_group, of_data = [], {}, [], False, None
    for at, line in enumerate(lines):
        if line.startswith("--") and at == len(opening):
            opening.append(line.lstrip("- "))
            continue
        bare = line.strip()
        if bare.startswith("--"):
            if not bare.startswith("-- ---"):
                comment.append(bare[2:].strip())
            continue
        if line and not line.startswith(" "):
            in_group = bool(re.match(r"(\w+ )?mutual$|module _ .* where$", line))
            comment = [] if line.startswith("module") else comment
            if in_group:
                continue
        head = re.match(r"((?:abbrev |unfoldable |opaque |pub |data |record )*)([^\s:(){}]+)(?=[\s(])", bare)
        place = len(line) - len(line.lstrip())
        kind = head and place == 0 and re.search("abbrev|unfoldable|opaque|data|record", head[1])
        if kind or (in_group and place == 2 and head and head[1]):
            found.setdefault(head[2], Definition(head[2], " ".join(comment), at + 1))
            of_data = found[head[2]] if "data" in head[1] else None
        elif of_data and re.match(r"\w+ :", bare):
            found.setdefault(bare.split()[0], of_data)
        comment = []
    return " ".join(opening), found


def names_in(words):
    """Pairs of a local name and the name that it stands for, of the list of an import."""
    for part in words.split(","):
        name, _, other = part.strip().partition(" as ")
        if name:
            yield (other or name).strip(), name.strip()


def imports_of(text):
    """What a file imports of definitions: local names, with crate, file and name; and local names of whole files."""
    names, files = {}, {}
    for crate, path, listed, alias, single in IMPORT.findall(text):
        path = path[1:].replace(".", "/")
        if alias:
            files[alias] = (crate, path)
        for local, name in names_in(listed or single):
            names[local] = (crate, path, name)
    return names, files


def exported(crate):
    """
    The names that a crate gives away, and the files whose public items are public; None for a program: all are, but for
    types of one file alone.
    """
    root = f"{ROOT}/crates/{crate}/src/lib.rt"
    if not os.path.isfile(root):
        return None
    names, files = set(), set()

    def visit(path, folder):
        files.add(path)
        text = text_of(path)
        for listed, single in re.findall(r"(?m)^pub use [\w:]+?::(?:\{([^}]*)\}|(\w+));", text):
            names.update(local for local, _ in names_in(listed or single))
        for name in re.findall(r"(?m)^pub mod (\w+);", text):
            visit(f"{folder}/{name}.rt", f"{folder}/{name}")

    visit(root, os.path.dirname(root))
    return names, files


def contracts_of(text, is_public, words):
    """The lines of a file that belong to contracts and models of what is public, by its name and these words before."""
    lines = text.split("\n")
    owner, whole, at = None, False, 0
    while at < len(lines):
        line = lines[at]
        if line and line[0] not in " })":
            block = re.match(r"(?:unsafe )?impl(?:<[^>]*>)? (?:([\w:]+)(?:<.*>)? for )?(\w+)", line)
            kind = re.match(r"pub (?:trait|struct|enum) (\w+)", line)
            name = block[2] if block else kind[1] if kind else None
            owner = name if name and is_public(name) else None
            whole = bool(owner and (kind or block[1]))
        if owner and whole and re.match(r"\s+ghost (?!use|view|invariant|coded)", line):
            yield line
        head = re.match(r"(\s*)(pub(?:\(crate\))? )?(?:const |unsafe )*fn (\w+)", line)
        if not head:
            at += 1
            continue
        is_given = head[2] in words
        is_shown = is_given and is_public(head[3]) if not head[1] else owner and (is_given or whole)
        inside = False
        while at < len(lines) and not lines[at].startswith(f"{head[1]}{{"):
            inside = inside or bool(re.match(r"\s+(requires|ensures|decreases)\b", lines[at]))
            if inside and is_shown and not lines[at].lstrip().startswith("//"):
                yield lines[at]
            if re.search(r"\};$" if inside else r"[{;}]$", lines[at]):
                break
            at += 1
        at += 1


def origin(specs, target):
    """Where the definition of this crate, file and name stands, imports followed, or None."""
    crate, file, name = target
    while (crate, file) in specs and name not in specs[crate, file][1] and name in specs[crate, file][2]:
        crate, file, name = specs[crate, file][2][name]
    found = specs.get((crate, file), ("", {}))[1].get(name)
    return (crate, file, found.name) if found else None


def collect():
    """The files of definitions, with opening, definitions and imports of each; and the public names of each."""
    specs, named = {}, collections.defaultdict(set)
    for crate in crates():
        folder = f"{ROOT}/crates/{crate}/specs"
        for path in sorted(glob.glob(f"{folder}/**/*.antt", recursive=True)):
            text = text_of(path)
            specs[crate, os.path.relpath(path, folder)[:-5]] = (*definitions_in(text), imports_of(text)[0])
    for crate in crates():
        given = exported(crate)
        for path in sorted(glob.glob(f"{ROOT}/crates/{crate}/src/**/*.rt", recursive=True)):
            text = text_of(path)
            if crate.endswith("_tests") or "#[test]" in text:
                continue
            is_public = (lambda name: True) if not given or path in given[1] else given[0].__contains__
            if not given:
                own = set(re.findall(r"(?m)^(?:struct|enum|trait) (\w+)", text))
                is_public = lambda name, own=own: name not in own
            names, files = imports_of(text)
            contracts = contracts_of(text, is_public, ("pub ",) if given else ("pub ", "pub(crate) "))
            for word in set(re.findall(rf"{WORD}(?:\.{WORD})?", "\n".join(contracts))):
                first, _, rest = word.partition(".")
                target = names.get(first) or (first in files and (*files[first], rest))
                place = origin(specs, target) if target else None
                if place:
                    named[place[:2]].add(place[2])
    cited = set(re.findall(r"`([A-Z][^\s`]+)`", "".join(text_of(f"{ROOT}/{it}") for it in CITING)))
    cited.difference_update(*named.values())
    for place, (_, found, _) in specs.items():
        named[place].update(cited & set(found))
    return specs, named


def private_files(specs, named):
    """The files that no public definition leads into, however many steps it takes."""
    bodies = {}
    for crate, file in specs:
        lines = text_of(f"{ROOT}/crates/{crate}/specs/{file}.antt").split("\n")
        found = sorted({it.line: it for it in specs[crate, file][1].values()}.values(), key=lambda it: it.line)
        for at, it in enumerate(found):
            end = found[at + 1].line - 1 if at + 1 < len(found) else len(lines)
            code = [line for line in lines[it.line - 1 : end] if not line.lstrip().startswith("--")]
            bodies[crate, file, it.name] = set(re.findall(WORD, "\n".join(code)))
    waiting = [(*place, name) for place, names in named.items() for name in names]
    reached = set(waiting)
    while waiting:
        crate, file, name = waiting.pop()
        for word in bodies.get((crate, file, name), ()):
            place = origin(specs, (crate, file, word))
            if place and place not in reached:
                reached.add(place)
                waiting.append(place)
    used = {place[:2] for place in reached}
    return [place for place, (_, found, _) in specs.items() if found and place not in used]


def wrapped(text, indent):
    return textwrap.fill(text, 120, subsequent_indent=indent, break_long_words=False, break_on_hyphens=False)


def page():
    """The text of the document, and the faults of the definitions."""
    specs, named = collect()
    private = private_files(specs, named)
    lines, faults, last = [OPENING], [], None
    for (crate, file), (opening, found, _) in specs.items():
        chosen = [it for name, it in found.items() if name == it.name and name in named[crate, file]]
        if not chosen:
            continue
        if crate != last:
            lines.append(f"## `{crate}`\n")
            inner = ", ".join(f"`specs/{other}`" for owner, other in private if owner == crate)
            lines.extend([wrapped(f"For private contracts and models alone: {inner}.", ""), ""] if inner else [])
            last = crate
        lines.append(wrapped(f"`specs/{file}`: {opening}", "") + "\n")
        for it in chosen:
            if not it.sentence:
                faults.append(f"crates/{crate}/specs/{file}.antt:{it.line}: {it.name} has no sentence over it")
            lines.append(wrapped(f"- `{it.name}`: {it.sentence}", "  "))
        lines.append("")
    return "\n".join(lines).rstrip("\n") + "\n", faults


def main(words):
    text, faults = page()
    if words == ["--check"]:
        if not os.path.isfile(TARGET) or text_of(TARGET) != text:
            faults.append("docs/DEFINITIONS.md is not what bench/definitions.py writes: run it")
        for it in faults:
            print(it)
        return 1 if faults else 0
    with open(TARGET, "w", encoding="utf-8") as it:
        it.write(text)
    for it in faults:
        print(it)
    return 0


if __name__ == "__main__":
    sys.exit(main(sys.argv[1:]))
