#!/usr/bin/env python3
"""Writes docs/API.md: each public call, type and trait of each library crate, with its contract.

    python3 bench/reference.py            writes the document
    python3 bench/reference.py --check    names each fault, one a line, and exits with 1 where there is one

Crates come in the order of crates.txt. Of each crate: a table of contracts, with each call, the first sentence of its
doc comment and the names of its clauses; then each item with its doc comment and its contract as the source has it. A
clause's words are the comment over it; where there is none, the sentences of the crate's definitions that it names.
Faults: the document is not what this script writes, or a claim of PROOFS names a call or a clause that is not there.
"""
import collections
import os
import re
import sys
import textwrap

import definitions

ROOT = definitions.ROOT
TARGET, PROOFS = f"{ROOT}/docs/API.md", f"{ROOT}/docs/PROOFS.md"
HEAD = re.compile(r"( *)(pub )?(?:const |unsafe )*fn (\w+)")
KIND = re.compile(r"pub (struct|enum|trait|type|const|static) (\w+)")
BLOCK = re.compile(r"(?:unsafe )?impl(?:<.*?>)? (?:([\w:]+)(?:<.*>)? for )?(\w+)")
FIELD = re.compile(r"    pub (\w+: .*?),?$")
VARIANT = re.compile(r"    (\w+(?:\(.*\)| \{ .* \})?)(?:,| \{)?$")
ERRORS = re.compile(
    r"(?:It is |It's )?[Rr]efused|(?:The|An?|Any) (?:one |first |only )?(?:errors?|faults?|refusals?)|Errors?|"
    r"`\w+` (?:comes|only)|Out of memory"
)
Clause = collections.namedtuple("Clause", "word name comment text")
# kind: fn, ghost, struct, enum, trait, type, const or static; parts: public fields or variants, with their sentences
Item = collections.namedtuple("Item", "kind name doc code clauses parts")

OPENING = """\
# Public calls and their contracts

Each public call, type and trait of each library crate, lowest crate first. `bench/reference.py` writes this page from
the sources; change a sentence there. [PROOFS](PROOFS.md) says in plain words what the contracts promise together,
[DEFINITIONS](DEFINITIONS.md) has a sentence for each definition that a clause names.

Each crate has a table of contracts: its calls, what each returns or does, and the names of its clauses. Clauses that
have no name are counted by their place: `1`, `2`. Below the table each item stands with its contract as it is proved:
`requires` is what a caller has to show, `ensures` what holds after the call. In a clause `x.old` and `x.new` are a
changed argument before and after, `x.now` is one that is only lent, and `result` is what the call returns. Where a
clause names definitions of its own crate, their sentences follow. A law is a call that does nothing; its clauses are
theorems over definitions alone.
"""


def lines_of(path):
    return definitions.text_of(path).split("\n")


def skip_attribute(lines, at):
    """The place after the attribute that begins here."""
    depth = 0
    while at < len(lines):
        depth += lines[at].count("[") - lines[at].count("]")
        at += 1
        if depth <= 0:
            return at
    return at


def contract_at(lines, at, indent):
    """The lines of a function's head and contract from here on, and the place after them."""
    start = at
    while at < len(lines):
        line = lines[at]
        if line.startswith(f"{indent}{{"):
            return lines[start:at], at
        at += 1
        if line.endswith(" {") and not re.match(r" *(requires|ensures|decreases)\b", line):
            return [*lines[start : at - 1], line[:-2]], at
        is_inner = at < len(lines) and re.match(rf"{indent}    (requires|ensures|decreases|//|$)", lines[at])
        if line.endswith((";", "{}")) and not (is_inner and lines[at].strip()):
            return [*lines[start : at - 1], re.sub(r"(;| \{\})$", "", line)], at
    return lines[start:at], at


def clauses_in(code):
    """The clauses of a contract, each with the comment right above it."""
    found, comment = [], []
    for line in code:
        bare = line.strip()
        head = re.match(r"(requires|ensures|decreases) ?(\w*) ?\{(.*)", bare)
        if head:
            found.append(Clause(head[1], head[2], " ".join(comment), head[3]))
            comment = []
        elif bare.startswith("//"):
            comment.append(bare.lstrip("/ "))
        elif bare and found:
            found[-1] = found[-1]._replace(text=f"{found[-1].text} {bare}")
    return [it._replace(text=re.sub(r"\s*\};?$", "", it.text).strip()) for it in found]


def parts_in(lines, kind):
    """The public fields or the variants of a type, with their sentences."""
    found, doc = [], []
    for line in lines:
        bare = line.strip()
        if line.startswith("    ///"):
            doc.append(bare[3:].strip())
            continue
        head = (FIELD if kind == "struct" else VARIANT).match(line)
        if head:
            found.append((head[1], " ".join(doc)))
        if not bare.startswith("#["):
            doc = []
    return found


class File:
    """The items of a source file: those at the top by name, and those of each type."""

    def __init__(self, path):
        self.top, self.of_type, self.traits, self.values = {}, collections.defaultdict(list), [], {}
        self.opening = []
        self.lines, self.at, self.doc, self.owner, self.trait = lines_of(path), 0, [], None, None
        while self.at < len(self.lines):
            self.step()

    def step(self):
        line = self.lines[self.at]
        bare = line.strip()
        if bare.startswith("//!"):
            self.opening.append(bare[3:].strip())
        elif bare.startswith("///"):
            self.doc.append(bare[3:].strip())
        elif bare.startswith("#["):
            self.at = skip_attribute(self.lines, self.at)
            return
        elif HEAD.match(line):
            self.take_function(HEAD.match(line))
            return
        elif line.startswith("    ghost "):
            self.take_ghost(bare)
        elif line and line[0] not in " })/":
            self.take_head(line)
        elif not bare.startswith("//"):
            self.doc = []
        self.at += 1

    def take_function(self, head):
        code, self.at = contract_at(self.lines, self.at, head[1])
        code = textwrap.dedent("\n".join(code)).rstrip("\n").split("\n")
        item = Item("fn", head[3], self.doc, code, clauses_in(code), [])
        if not head[1] and head[2]:
            self.top[head[3]] = item
        elif len(head[1]) == 4 and self.owner and (head[2] or self.trait == "" or (self.trait and item.clauses)):
            self.of_type[self.owner].append((self.trait, item))
        self.doc = []

    def take_ghost(self, bare):
        """A definition that a trait asks for, or the value by which contracts see a type."""
        value = re.match(r"ghost Value = \{ (.*) \};$", bare)
        asked = re.match(r"ghost (\w+): \{", bare)
        if value and self.trait == "Model":
            self.values[self.owner] = value[1]
        elif asked and self.trait is not None:
            code = [bare]
            while not self.lines[self.at].endswith(";"):
                self.at += 1
                code.append(self.lines[self.at][4:])
            self.of_type[self.owner].append((self.trait, Item("ghost", asked[1], self.doc, code, [], [])))
        self.doc = []

    def take_head(self, line):
        """The head of a type, a trait or an impl."""
        block, kind = BLOCK.match(line), KIND.match(line)
        self.owner, self.trait = (block[2], block[1]) if block else (None, None)
        # (a type of another crate has the name of one of this crate's perhaps)
        foreign = block and re.search(rf"(?m)^use vpg_\w+::[^;]*\b{block[2]}\b", "\n".join(self.lines))
        if block and block[1] and not foreign:
            self.traits.append((block[2], block[1]))
        if kind and kind[1] == "trait":
            self.owner, self.trait = kind[2], ""
        if kind:
            end = self.at
            while kind[1] in ("struct", "enum") and not re.search(r"^\}|;$|\}$", self.lines[end]):
                end += 1
            is_whole = kind[1] == "type" or (line.endswith(";") and not self.owner)
            code = [line.rstrip(";") if is_whole else re.sub(r"( = .*| \{.*|\()$", "", line)]
            parts = parts_in(self.lines[self.at : end], kind[1])
            self.top[kind[2]] = Item(kind[1], kind[2], self.doc, code, [], parts)
        self.doc = []


class Crate:
    """The public items of a crate, in the order in which its root names them."""

    def __init__(self, name):
        self.name, self.files, self.shown, self.passed, self.laws = name, {}, {}, [], {}
        self.source = f"{ROOT}/crates/{name}/src"
        self.visit((), "")

    def file(self, module):
        """The file of a module, or None where the crate has none of that name."""
        if module not in self.files:
            path = f"{self.source}/{'/'.join(module) or 'lib'}.rt"
            self.files[module] = File(path) if os.path.isfile(path) else None
        return self.files[module]

    def exports(self, module):
        """What a module names for those outside: the module that it is from, its name there, and its name here."""
        text = "\n".join(self.file(module).lines)
        for path, listed, single in re.findall(r"(?m)^pub use ([\w:]+?)::(?:\{([^}]*)\}|(\w+));", text):
            segments = tuple(path.split("::"))
            origin = segments[1:] if segments[0] == "crate" else module + segments
            for local, name in definitions.names_in(listed or single):
                yield origin, name, local, path

    def visit(self, module, prefix):
        for origin, name, local, path in self.exports(module):
            if self.file(origin):
                self.show(origin, name, prefix + local)
            else:
                self.passed.append(f"`{path}::{name}`")
        for name in self.file(module).top:
            self.show(module, name, prefix + name)
        for inner in re.findall(r"(?m)^pub mod (\w+);", "\n".join(self.file(module).lines)):
            self.visit((*module, inner), f"{prefix}{inner}::")

    def show(self, module, name, shown):
        file = self.file(module)
        if name in file.top:
            self.shown.setdefault((module, name), shown)
            return
        for origin, inner, local, _ in self.exports(module):
            if local == name and self.file(origin):
                self.show(origin, inner, shown)

    def methods(self, name):
        """The calls of a type or a trait, those of the type that it stands for among them."""
        alias = [it.top[name].code[0] for it in self.files.values() if it and name in it.top]
        head = re.match(r"pub type \w+(?:<.*?>)? = (\w+)", alias[0]) if alias else None
        names = {name, head[1]} if head and not any(shown == head[1] for _, shown in self.shown) else {name}
        return [it for file in self.all_files() for owner in sorted(names) for it in file.of_type[owner]]

    def all_files(self):
        """All files of the crate, those that the root names first."""
        inner = []
        for folder, _, names in sorted(os.walk(self.source)):
            path = os.path.relpath(folder, self.source)
            inner.extend((() if path == "." else tuple(path.split("/"))) + (it[:-3],) for it in sorted(names))
        return [self.file(it) for it in inner if it != ("lib",) and self.file(it)]

    def value(self, name):
        return next((it.values[name] for it in self.all_files() if name in it.values), None)


def sentences(text):
    text = " ".join(text.split())
    return re.split(r"(?<=[.!?])\s+(?=[A-Z`\[(])", text) if text else []


def summary(item):
    return (sentences(" ".join(item.doc)) or [""])[0]


def wrapped(text, indent=""):
    return textwrap.fill(text, 120, subsequent_indent=indent, break_long_words=False, break_on_hyphens=False)


def clause_words(item, told):
    """A line for each definition that a clause without a comment names: the clause, the name and its sentence."""
    seen = set()
    for it in item.clauses:
        if it.word != "ensures" or it.comment:
            continue
        for word in re.findall(definitions.WORD, it.text):
            if word[0].isupper() and told.get(word) and word not in seen:
                seen.add(word)
                name = f"`{it.name}`, " if it.name else ""
                yield wrapped(f"- {name}`{word}`: {told[word]}", "  ")


def clause_names(item):
    """The names of what a call ensures, or its places in the contract."""
    given = [it for it in item.clauses if it.word == "ensures"]
    return ", ".join(f"`{it.name or at}`" for at, it in enumerate(given, 1))


def row(shown, item):
    words = summary(item).replace("|", "\\|")
    return f"| `{shown}` | {words} | {clause_names(item)} |"


def entry(shown, item, told, depth):
    """The lines of one call, under a heading of so many signs."""
    said = sentences(" ".join(item.doc))
    errors = [it for it in said[1:] if ERRORS.match(it)] if item.kind == "fn" else []
    rest = " ".join(it for it in said[1:] if it not in errors)
    lines = [f"{depth} `{shown}`", ""]
    fails = re.sub(r"^Errors, in", "In", " ".join(errors))
    for words in (said[0] if said else "", rest, fails and f"Errors: {fails}"):
        lines.extend([wrapped(words), ""] if words else [])
    lines.extend(f"    {line}".rstrip() for line in item.code)
    lines.append("")
    lines.extend(clause_words(item, told))
    lines.extend([""] if lines[-1] else [])
    return lines


def type_entry(crate, shown, item):
    """The lines of a type or a trait, without its calls."""
    lines = [f"### `{shown}`", ""]
    lines.extend([wrapped(" ".join(" ".join(item.doc).split())), ""] if item.doc else [])
    lines.extend(f"    {line}" for line in item.code)
    value = crate.value(item.name)
    lines.extend(["", wrapped(f"Contracts see it as `{value}`.")] if value else [])
    others = sorted({it for file in crate.all_files() for name, it in file.traits if name == item.name})
    others = [f"`{it}`" for it in others if it not in ("Drop", "Model", "From")]
    lines.extend(["", wrapped(f"It implements {', '.join(others)}.")] if others else [])
    lines.append("")
    lines.extend(wrapped(f"- `{name}`: {doc}" if doc else f"- `{name}`", "  ") for name, doc in item.parts)
    return [*lines, ""] if item.parts else lines


def told_by(specs, crate):
    """The sentences of a crate's own definitions, by name."""
    found = {}
    for (owner, _), (_, inside, _) in specs.items():
        if owner == crate:
            found.update({name: it.sentence for name, it in inside.items() if name == it.name})
    return found


def crate_page(name, specs):
    """The lines of one crate."""
    crate = Crate(name)
    told = told_by(specs, name)
    rows, body = [], []
    for (module, inner), shown in crate.shown.items():
        item = crate.file(module).top[inner]
        if item.kind == "fn":
            rows.append(row(shown, item))
            body.extend(entry(shown, item, told, "###"))
            continue
        body.extend(type_entry(crate, shown, item))
        for trait, call in crate.methods(inner):
            path = f"{shown}::{call.name}" if not trait else f"{shown} as {trait}::{call.name}"
            rows.extend([row(path, call)] if call.kind == "fn" else [])
            body.extend(entry(path, call, told, "####"))
    opening = " ".join(crate.file(()).opening)
    lines = [f"## `{name}`", "", wrapped((sentences(opening) or [""])[0]), ""]
    lines.extend([wrapped(f"It passes on {', '.join(crate.passed)}."), ""] if crate.passed else [])
    if rows:
        lines.extend(["| Call | What it returns or does | Clauses |", "|---|---|---|", *rows, ""])
    return [*lines, *body]


def page():
    """The text of the document."""
    specs = definitions.collect()[0]
    lines = [OPENING]
    for name in definitions.crates():
        if os.path.isfile(f"{ROOT}/crates/{name}/src/lib.rt") and not name.endswith("_tests"):
            lines.extend(crate_page(name, specs))
    return re.sub(r"\n{3,}", "\n\n", "\n".join(lines)).rstrip("\n") + "\n"


def calls_in(text):
    """Each call of the document's tables, by its name and by that after its crate, with its clauses."""
    found, crate = collections.defaultdict(set), ""
    for line in text.split("\n"):
        head = re.match(r"## `(\w+)`", line)
        crate = head[1] if head else crate
        shown = re.match(r"\| `([^`]+)` \| .* \| (.*) \|$", line)
        if shown:
            for name in (shown[1], f"{crate}::{shown[1]}", shown[1].rpartition("::")[0]):
                found[name].update(re.findall(r"`([^`]+)`", shown[2]))
    return found


def names_of(calls):
    """The names of calls in backticks, `Desk::{undo, redo}` taken apart."""
    for code in re.findall(r"`([^`]+)(?:`|$)", calls):
        path, _, listed = code.partition("{")
        yield from (path + it.strip(" }") for it in listed.split(","))


def of_claims(text):
    """The calls and clauses that a claim of PROOFS names and that are not there."""
    known = calls_in(text)
    claims = re.findall(r"(?m)^Contracts: ((?:.+\n)+)", definitions.text_of(PROOFS))
    for part in [part for claim in claims for part in " ".join(claim.split()).split(";")]:
        calls, _, clauses = part.partition("`: ")
        for name in names_of(calls):
            missing = set(re.findall(r"`([^`]+)`", clauses)) - known.get(name, set())
            if name not in known or missing:
                yield f"docs/PROOFS.md: no contract {name} {' '.join(sorted(missing))}".rstrip()


def main(words):
    text = page()
    if words == ["--check"]:
        faults = [*of_claims(text)]
        if not os.path.isfile(TARGET) or definitions.text_of(TARGET) != text:
            faults.append("docs/API.md is not what bench/reference.py writes: run it")
        for it in faults:
            print(it)
        return 1 if faults else 0
    with open(TARGET, "w", encoding="utf-8") as it:
        it.write(text)
    return 0


if __name__ == "__main__":
    sys.exit(main(sys.argv[1:]))
