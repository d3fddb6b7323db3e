#!/usr/bin/env python3
"""What can be told of the repository in seconds, before the gate: each wrong body fits its text, each link leads
somewhere, each name that a document cites stands in the code, docs/DEFINITIONS.md is that of specs/ and docs/API.md
that of src/, no file has more over-long lines than its ceiling allows, the stored play of crates/vpg_play is as an
independent book answers it, crates.txt has the groups of docs/ARCHITECTURE.md, each crate names only crates above it
there, each module that a proof uses is there, as is each name of the prelude in a clause, each file is laid out.

    python3 .ci/quick.py        names each fault, one a line, and exits with 1 where there is one

A wrong body is a file NAME.edit in crates/CRATE/must-fail (tried by the gate) or crates/CRATE/wrong-bodies (tried by
bench/wrong_bodies.py): a line 'file: PATH', and then pairs of lines 'old: TEXT' and 'new: TEXT', applied in turn; each
old text stands in that file exactly once. A first line that begins with '# ' is a comment.
"""
import glob
import os
import re
import shutil
import subprocess
import sys

ROOT = os.path.dirname(os.path.dirname(os.path.abspath(__file__)))
FOLDERS = ("must-fail", "wrong-bodies")
CITING = ("README.md", "CONTRIBUTING.md", "docs/PROOFS.md", "docs/DEFINITIONS.md", "docs/ARCHITECTURE.md")
READ = ("README.md", "docs/*.md", "bench/*.md", "examples/**/README.md", "clients/**/README.md")
READ += ("crates/*/data/**/README.md",)


def text_of(path):
    with open(path, encoding="utf-8") as it:
        return it.read()


def fault_of(edit, crate):
    """Says why the edit does not fit the crate's text, or returns None."""
    lines = text_of(edit).split("\n")
    if lines[-1] or len(lines) < 2:
        return "its last line does not end"
    path, old, texts = "", None, {}
    for number, line in enumerate(lines[:-1], 1):
        word, _, rest = line.partition(" ")
        if word == "#" and number == 1:
            continue
        if word == "file:" and rest and old is None:
            path = rest
            if os.path.normpath(path) != path or not path.startswith(("src/", "specs/", "proofs/")):
                return f"line {number}: {path} is no file below src/, specs/ or proofs/"
            if not os.path.isfile(f"{crate}/{path}"):
                return f"line {number}: there is no file {path}"
            texts.setdefault(path, text_of(f"{crate}/{path}"))
        elif word == "old:" and rest and path and old is None:
            old = rest
        elif word == "new:" and old is not None:
            found = texts[path].count(old)
            if found != 1:
                return f"line {number - 1}: the old text stands in {path} {found} times, and not once"
            texts[path], old = texts[path].replace(old, rest), None
        else:
            return f"line {number} is no line 'file: PATH', 'old: TEXT' or 'new: TEXT' in its place"
    if old is not None or all(text == text_of(f"{crate}/{path}") for path, text in texts.items()):
        return "it changes nothing"
    return None


def of_edits():
    for crate in sorted(glob.glob(f"{ROOT}/crates/*")):
        names = [os.path.basename(it) for folder in FOLDERS for it in glob.glob(f"{crate}/{folder}/*")]
        for folder in FOLDERS:
            for path in sorted(glob.glob(f"{crate}/{folder}/*")):
                name = os.path.basename(path)
                short = os.path.relpath(path, ROOT)
                if not re.fullmatch(r"[a-z0-9_]+\.edit", name) or not os.path.isfile(path):
                    yield f"{short} is no edit: its name is of a to z, digits and _, and ends in .edit"
                    continue
                if names.count(name) > 1:
                    yield f"{short}: a wrong body stands in one of the two folders"
                why = fault_of(path, crate)
                if why:
                    yield f"{short}: {why}"


def of_links():
    for path in sorted({it for words in READ for it in glob.glob(f"{ROOT}/{words}", recursive=True)}):
        for link in re.findall(r"\]\(([^)\s]+)\)", text_of(path)):
            target = link.partition("#")[0]
            is_file = target and not re.match(r"[a-z]+:", target)
            if is_file and not os.path.exists(f"{os.path.dirname(path)}/{target}"):
                yield f"{os.path.relpath(path, ROOT)}: the link {link} leads nowhere"


def of_names():
    """Looks up the names that documents cite: in backticks, with `_` or a second capital, or in a path by `::`."""
    known = set()
    # (a check writes into out/ meanwhile)
    folders = [it for it in glob.glob(f"{ROOT}/crates/*/*") if os.path.basename(it) != "out"]
    inside = [path for it in folders for path in glob.glob(f"{it}/**/*", recursive=True)]
    for path in [*inside, *glob.glob(f"{ROOT}/bench/*")]:
        if path.endswith((".rt", ".antt", ".py")):
            known.update(re.findall(r"\w+", text_of(path)), re.findall(r"\w+", os.path.relpath(path, ROOT)))
        elif path.endswith(".edit"):
            known.add(os.path.basename(path)[: -len(".edit")])
    for short in CITING:
        for number, line in enumerate(text_of(f"{ROOT}/{short}").split("\n"), 1):
            for code in re.findall(r"`([^`]+)`", "" if line.startswith("    ") else line):
                for word in re.findall(r"[A-Za-z]\w+", "" if "*" in code else code):
                    is_name = "::" in code or re.search(r"\w_\w|[a-z][A-Z]", word)
                    if is_name and word not in known:
                        yield f"{short}:{number}: no code has the name {word}"


def of_scripts():
    """What the scripts find that count and write by themselves, and that replay a stored play."""
    played = ["bench/replay.py", "--check", "crates/vpg_play/stdout"]
    checks = ["bench/definitions.py", "--check"], ["bench/reference.py", "--check"], [".ci/ceilings.py"], played
    for words in checks:
        ran = subprocess.run([sys.executable, *words], stdout=subprocess.PIPE, text=True, cwd=ROOT)
        if ran.returncode:
            yield from ran.stdout.strip().split("\n")


def of_groups():
    """What is wrong with the groups of crates.txt: they are those of docs/ARCHITECTURE.md, lowest first."""
    groups, named, group = {}, set(), ""
    for line in text_of(f"{ROOT}/crates.txt").split("\n")[1:]:
        crate, _, below = line.partition(":")
        if line.startswith("# "):
            group = line[2:]
        elif line:
            groups.setdefault(group, []).append(crate)
            above = [it for it in below.split() if it.startswith("vpg") and it not in named]
            yield from (f"crates.txt: {crate} names {it}, which does not stand before it" for it in above)
            named.add(crate)
    rows = re.findall(r"^\| ([\w ]+) \| (`vpg_.*?) \| .* \|$", text_of(f"{ROOT}/docs/ARCHITECTURE.md"), re.M)
    told = {group: re.findall(r"`(\w+)`", crates) for group, crates in rows}
    for group in sorted({**told, **groups}):
        if told.get(group) != groups.get(group):
            yield f"docs/ARCHITECTURE.md: the crates of the group {group} are not those of crates.txt"


def module_of(parts):
    """The source module in which rattle makes what this path of a definition or proof leads to, or None."""
    at = next((i for i, it in enumerate(parts) if it[0].isupper() or it == "fn"), len(parts))
    return parts[: at - 1] if parts[at:] in (["Goals"], ["Given"]) else parts[:at] if parts[at:] else None


def of_uses():
    """Looks for the modules that definitions and proofs use, and for the prelude's names in clauses."""
    uses = r"^(?:pub )?use Rattle\.(vpg_\w+)\.(specs|proofs)\.([\w.+-]+)"
    for path in sorted(glob.glob(f"{ROOT}/crates/*/[sp]*/**/*.antt", recursive=True)):
        for crate, kind, use in re.findall(uses, text_of(path), re.M):
            parts = use.strip(".").split(".")
            within, source = f"{ROOT}/crates/{crate}/{kind}/", f"{ROOT}/crates/{crate}/src/"
            made = module_of(parts[1:] if parts[0] in ("declared", "contracts") else parts)
            is_made = made == [] or made and os.path.exists(f"{source}{'/'.join(made)}.rt")
            if not os.path.exists(f"{within}{'/'.join(parts)}.antt") and not is_made:
                yield f"{os.path.relpath(path, ROOT)}: there is no module {crate}.{kind}.{use}"
    prelude = r"^ *ghost use Rattle\.std\.specs\.Prelude\.\{(.*)\};"
    sources = {path: text_of(path) for path in sorted(glob.glob(f"{ROOT}/crates/*/src/**/*.rt", recursive=True))}
    names = {it for text in sources.values() for line in re.findall(prelude, text, re.M) for it in line.split(", ")}
    names = {it for it in names if re.fullmatch(r"[A-Z]\w+", it)} - {"Ok", "Err", "Some", "None"}
    for path, text in sources.items():
        clauses = " ".join(re.findall(r"^ *(?:requires|ensures)\b([^;{]*\{(?:[^{}]|\{[^{}]*\})*\})", text, re.M))
        used = " ".join(re.findall(r"^ *ghost use .*", text, re.M)) + " ".join(re.findall(r"\bghost (\w+)", text))
        named = set(re.findall(r"(?<![.\w])[A-Z]\w+(?![.\w])", clauses))
        for it in sorted(names & named - set(re.findall(r"\w+", used))):
            yield f"{os.path.relpath(path, ROOT)}: no use brings {it} of the prelude into scope"


def of_layout():
    rt = shutil.which("rt")
    if not rt:
        yield "the command rt is not there, so no layout was looked at"
        return
    rattle = f"{os.path.dirname(os.path.realpath(rt))}/rattle"
    for crate in sorted(glob.glob(f"{ROOT}/crates/*")):
        found = [it for part in ("src", "specs", "proofs") for it in glob.glob(f"{crate}/{part}/**/*", recursive=True)]
        files = sorted(it for it in found if it.endswith((".rt", ".antt")))
        words = [rattle, "fmt", "--check", *files]
        ran = subprocess.run(words, stdout=subprocess.PIPE, stderr=subprocess.STDOUT, text=True) if files else None
        if ran and ran.returncode:
            yield f"{os.path.relpath(crate, ROOT)}: run rt fmt there: {ran.stdout.strip()[:300]}"


def main():
    faults = [*of_edits(), *of_links(), *of_names(), *of_scripts(), *of_groups(), *of_uses(), *of_layout()]
    for it in faults:
        print(f"quick: {it}")
    print(f"quick: {len(faults)} faults" if faults else "quick: ok")
    return 1 if faults else 0


if __name__ == "__main__":
    sys.exit(main())
