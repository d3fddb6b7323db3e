#!/usr/bin/env python3
"""Counts what a newcomer stumbles over: long documents, sentences and lines, words of a dialect, things said twice.

    python3 bench/house.py [COMMIT..]       at the top of the repository: of the files as they are and as they were

A line of the table for each count, a column for each commit, the last for the files as they are. Documents are all .md
files but docs/DEFINITIONS.md and docs/API.md, which scripts write, and bench/log, which is kept as it was written. A
sentence ends at `.`, `:`, `;`, `?` or `!` before a capital letter; tables, code and headings are left out. Words of the
dialect (none in code), and what to say instead:

    told, tell, tells       report, say, return, know       first table, second table   the hopeful table, the dual one
    behind, of order        after, beside                   the same of                 name the thing again
    anew                    again, from nothing             to let go                   drop, discard
    so many                 the number, N                   want of memory, is wanting  out of memory, lacks
"""
import collections
import os
import re
import subprocess
import sys

LONG_SENTENCE, MOST_WORDS, LONG_LINE = 40, 30, 120
DIALECT = re.compile(
    r"\b(told|tells?|behind|anew|so\s+many|want\s+of\s+memory|is\s+wanting|(?:first|second)\s+table|"
    r"the\s+same\s+of|lets?\s+go)\b",
    re.IGNORECASE,
)
GENERATED = ("docs/DEFINITIONS.md", "docs/API.md")
BARS = (
    (("README.md",), 800),
    (("docs/FORMATS.md",), 6500),
    (("docs/PROOFS.md",), 2600),
    (("docs/DECISIONS.md",), 4800),
    (("docs/ARCHITECTURE.md",), 3550),
    (("docs/HOSTILE.md", "docs/OFFICE.md"), 2500),
    (("docs/GLOSSARY.md",), 1300),
    (("bench/README.md",), 2500),
)
SIGNS = re.compile("[→≡×λ∷↔⊎¬≤≢]|^ *(requires|ensures|ghost)\\b")
IMPORT = re.compile(r" *(pub |ghost )*use ")


def files_at(commit):
    """The texts of a commit's files by their paths, or of those that git tracks as they are now."""
    words = ["git", "ls-tree", "-r", "-z", "--name-only", commit or "HEAD"]
    names = subprocess.run(words, stdout=subprocess.PIPE, check=True).stdout.decode().split("\0")
    wanted = [it for it in names if it.endswith((".md", ".rt", ".antt"))]
    if not commit:
        return {it: open(it, encoding="utf-8").read() for it in wanted if os.path.isfile(it)}
    asked = "".join(f"{commit}:{it}\n" for it in wanted).encode()
    words = ["git", "cat-file", "--batch"]
    said = subprocess.run(words, input=asked, stdout=subprocess.PIPE, check=True).stdout
    found, at = {}, 0
    for it in wanted:
        end = said.index(b"\n", at)
        size = int(said[at:end].split()[2])
        found[it] = said[end + 1 : end + 1 + size].decode()
        at = end + 2 + size
    return found


def sentences(text):
    """The sentences of a document's prose: no code, no tables, no headings."""
    lines = [it for it in text.split("\n") if not it.startswith(("    ", "|", "#", "```"))]
    parts = re.split(r"\n\s*\n|\n\s*(?:- |\d+\. )", "\n".join(lines))
    ends = r"(?<=[.:;?!])\**\s+(?=\**[A-Z`(])"
    return [it.split() for part in parts for it in re.split(ends, part) if it.split()]


def over_long(texts, folder, ending):
    """The lines of over 120 columns of some files, imports left out."""
    inside = [it for it in texts if it.startswith("crates/") and f"/{folder}/" in it and it.endswith(ending)]
    lines = [line for path in inside for line in texts[path].split("\n")]
    return [line for line in lines if len(line) > LONG_LINE and not IMPORT.match(line)]


def defined_twice(texts):
    """How many names two files of definitions or more define."""
    defined = collections.defaultdict(set)
    head = r"(?m)^(?:(?:pub|abbrev|unfoldable|opaque|data|record)\s+)*([^\s:(){},]+)\s*(?:\{[^}]*\}\s*)*:(?=\s)"
    for path, text in texts.items():
        if path.startswith("crates/") and "/specs/" in path:
            for name in re.findall(head, text):
                defined[name].add(path)
    return sum(len(it) > 1 for it in defined.values())


def is_document(path):
    """Whether a path is that of a document written by hand."""
    return path.endswith(".md") and path not in GENERATED and not path.startswith("bench/log/")


def comments(texts, folder):
    """The comments of the crates' files in a folder, src or specs, as one text a file."""
    inside = [it for it in texts if it.startswith("crates/") and f"/{folder}/" in it]
    return ["\n".join(re.findall(r"(?m)^\s*(?://[/!]?|--) ?(.*)$", texts[it])) for it in inside]


def first_lines(texts):
    """The first line of each doc comment of an item in the crates' code."""
    for path, text in texts.items():
        if path.startswith("crates/") and "/src/" in path and path.endswith(".rt"):
            lines = [it.lstrip() for it in text.split("\n")]
            for line, before in zip(lines, ["", *lines]):
                if line.startswith("/// ") and not before.startswith("///"):
                    yield line[4:]


def of_words(texts):
    """The words of each document with a bar."""
    for paths, most in BARS:
        words = sum(len(texts.get(it, "").split()) for it in paths)
        yield f"words of {' and '.join(paths)}, at most {most:,}", words


def without_code(text):
    """The text without its lines of code and its code in backticks."""
    lines = [it for it in text.split("\n") if not it.startswith("    ")]
    return re.sub(r"`[^`]*`", "", "\n".join(lines))


def of_speech(texts):
    """Sentences that are too long, and words of the dialect."""
    by_hand = [it for path, it in texts.items() if is_document(path)]
    said = [it for text in by_hand for it in sentences(text)]
    yield f"sentences of documents of over {MOST_WORDS} words", sum(len(it) > MOST_WORDS for it in said)
    yield "words of the dialect in documents", sum(len(DIALECT.findall(without_code(it))) for it in by_hand)
    for folder in ("src", "specs"):
        yield f"words of the dialect in comments in {folder}", sum(
            len(DIALECT.findall(without_code(it))) for it in comments(texts, folder)
        )
    firsts = list(first_lines(texts))
    for words in ("What", "The same"):
        name = f"doc comments in src with a first line that begins with {words}"
        yield name, sum(it.startswith(f"{words} ") for it in firsts)


def of_documents(texts):
    """What README, CONTRIBUTING and docs/ have, generated pages but DEFINITIONS left out."""
    docs = {
        path: it
        for path, it in texts.items()
        if re.match("README|CONTRIB|docs/", path) and (is_document(path) or path == "docs/DEFINITIONS.md")
    }
    by_hand = [it for path, it in docs.items() if is_document(path)]
    rows = re.findall(r"(?m)^\| (`[^|]*) \|", docs.get("docs/DEFINITIONS.md", ""))
    readme = texts.get("README.md", "")
    lines = [line for text in docs.values() for line in text.split("\n")]
    long_sentences = [it for text in docs.values() for it in sentences(text) if len(it) > LONG_SENTENCE]
    return {
        "definitions said in two places: names in a table kept by hand": sum(it.count("`") // 2 for it in rows),
        "names that two files of definitions or more define": defined_twice(texts),
        "words of README, CONTRIBUTING and docs, generated pages left out": sum(len(it.split()) for it in by_hand),
        f"README's sentences of over {LONG_SENTENCE} words": sum(len(it) > LONG_SENTENCE for it in sentences(readme)),
        f"sentences of README, CONTRIBUTING and docs of over {LONG_SENTENCE} words": len(long_sentences),
        f"lines of prose of over {LONG_LINE} columns": sum(
            len(line) > LONG_LINE and not line.startswith(("|", "    ", "```")) for line in lines
        ),
    }


def counts(texts):
    """The counts, by what they are of."""
    src = over_long(texts, "src", ".rt")
    clauses = [it for it in src if SIGNS.search(it) and not it.lstrip().startswith("//")]
    return {
        **dict(of_words(texts)),
        **dict(of_speech(texts)),
        **of_documents(texts),
        f"lines of clauses of over {LONG_LINE} columns": len(clauses),
        f"lines of code of over {LONG_LINE} columns": len(src) - len(clauses),
        f"lines of definitions of over {LONG_LINE} columns": len(over_long(texts, "specs", ".antt")),
        f"lines of proofs of over {LONG_LINE} columns": len(over_long(texts, "proofs", ".antt")),
    }


def main(commits):
    columns = [*commits, ""]
    found = [counts(files_at(it)) for it in columns]
    print("\t".join(["count", *commits, "now"]))
    for name in found[-1]:
        print("\t".join([name, *[str(it[name]) for it in found]]))


main(sys.argv[1:])
