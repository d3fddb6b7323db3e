#!/usr/bin/env python3
"""Breaks lines of over 120 columns of clauses, definitions, comments and documents, where that changes no token.

    python3 bench/break_lines.py CRATE.. FILE.md..      names each line that is left, and why a file was left as it was

A line is broken at the least nesting: after `=`, an arrow or a product, else before an operator, else before a
parenthesis. rt fmt lays the file out, and what it reads of the file before and after has to be the same, token for
token; else the file is put back. In documents prose and lists are wrapped. Not broken: imports, which rt fmt lays out;
record literals and tuples, which get one more separator where they are broken; and lines that a wrong body names.
"""
import glob
import json
import os
import re
import subprocess
import sys
import textwrap

ROOT = os.path.dirname(os.path.dirname(os.path.abspath(__file__)))
MOST = 120
# how far right of a line's beginning a part has to end, so that none is a word alone
LEAST, LEAST_OPERATOR = 12, 24
AFTER = {"→", "×", "⊎", "↔", "=", ";"}
BEFORE = {"++", "∷", "≡", "≢", "&&", "||", "else"}
OPEN, CLOSE = ("(", "{", "[", "⟨"), (")", "}", "]", "⟩")
IMPORT = re.compile(r" *(pub |ghost )*use ")
ITEM = re.compile(r"( *)([-*] |\d+\. )?")
ALL_MARKS, SAFE_MARKS = "--|///|//!|//", "--|//!|//"


def text_of(path):
    with open(path, encoding="utf-8") as it:
        return it.read()


def write(path, text):
    with open(path, "w", encoding="utf-8") as it:
        it.write(text)


def rattle(*words):
    return subprocess.run(["rattle", "fmt", *words], stdout=subprocess.PIPE, stderr=subprocess.STDOUT, text=True)


def tokens_of(path):
    """The tokens by line: columns where each begins and ends, its kind and its text."""
    ran = rattle("--tokens", path)
    if ran.returncode:
        raise ValueError(f"{path}: {ran.stdout.strip()[:200]}")
    bytes_of = [line.encode() for line in text_of(path).split("\n")]
    starts = [0]
    for line in bytes_of:
        starts.append(starts[-1] + len(line) + 1)
    found = {}
    for it in ran.stdout.split("\n"):
        part = re.match(r'(\d+) (\d+) (\d+) (\w+) (".*")$', it)
        if part:
            number = int(part[1])
            line, start = bytes_of[number - 1], starts[number - 1]
            column = lambda at: len(line[: int(at) - start].decode())
            found.setdefault(number, []).append((column(part[2]), column(part[3]), part[4], json.loads(part[5])))
    return found


def as_read(path):
    """What is compared: the kinds and texts of all tokens in order."""
    return [(kind, text) for _, line in sorted(tokens_of(path).items()) for _, _, kind, text in line]


def unbreakable(tokens):
    """The columns of record literals and tuples on a line."""
    found, waiting = [], []
    for start, end, kind, text in tokens:
        if text in OPEN:
            waiting.append([start, text == "{" and kind == "Antt"])
        elif text == "," and waiting:
            waiting[-1][1] = True
        elif text in CLOSE and waiting:
            begun, is_one = waiting.pop()
            found.extend([(begun, end)] if is_one else [])
    return found + [(begun, sys.maxsize) for begun, is_one in waiting if is_one]


def place_to_break(line, tokens, indent):
    """The column at which the rest of an over-long line begins, or None. The least nesting wins, then the kind."""
    closed, places, depth = unbreakable(tokens), [], 0
    for at, (start, end, kind, text) in enumerate(tokens):
        after = tokens[at + 1][0] if at + 1 < len(tokens) else end
        if text in OPEN:
            if kind == "Antt" and text == "(" and at and line[start - 1] == " " and start > indent + LEAST_OPERATOR:
                places.append((depth, 3, start))
            depth += 1
        elif text in CLOSE:
            depth -= 1
        elif kind in ("Antt", "Text") and after > end:
            if text in AFTER and after > indent + LEAST:
                places.append((depth, -1 if text == "=" and not depth else 0, after))
            elif text in BEFORE and start > indent + LEAST_OPERATOR and line[start - 1] == " ":
                places.append((depth, 2 if text == "∷" else 1, start))
            elif text == "." and after > indent + LEAST_OPERATOR:
                places.append((depth, 2, after))
    fitting = [it for it in places if it[2] <= MOST + 1 and not any(a < it[2] < b for a, b in closed)]
    return min(fitting, key=lambda it: (it[0], it[1], -it[2]))[2] if fitting else None


def with_comments_wrapped(lines, marks, kept):
    """The lines, where each comment that has an over-long line is wrapped from that line on."""
    found, at = [], 0
    while at < len(lines):
        head = re.match(rf"( *)({marks}) ", lines[at])
        end = at
        while head and end < len(lines) and re.match(rf"{re.escape(head[0])}(?!- |```)[^\s|#]", lines[end]):
            end += 1
        block = lines[at : max(end, at + 1)]
        long = [number for number, line in enumerate(block) if len(line) > MOST]
        if end > at and long and not any(it in line for line in block for it in kept):
            words = " ".join(line[len(head[0]) :].strip() for line in block[long[0] :])
            options = {"break_long_words": False, "break_on_hyphens": False}
            wrapped = textwrap.wrap(words, MOST, initial_indent=head[0], subsequent_indent=head[0], **options)
            if not any(re.match(rf"{re.escape(head[0])}([|#]|- |```)", line) for line in wrapped[1:]):
                block = block[: long[0]] + wrapped
        found.extend(block)
        at = max(end, at + 1)
    return found


def break_once(path, kept):
    """Breaks each over-long line of clauses and definitions in two, and says whether there was one."""
    tokens, found, changed = tokens_of(path), [], False
    for number, line in enumerate(text_of(path).split("\n"), 1):
        here = tokens.get(number, [])
        is_kept = IMPORT.match(line) or re.match(r" *(--|//)", line) or any(it in line for it in kept)
        at, indent = None, len(line) - len(line.lstrip())
        if len(line) > MOST and not is_kept and any(kind == "Antt" for _, _, kind, _ in here):
            at = place_to_break(line, here, indent)
        if at is None:
            found.append(line)
            continue
        is_first = any(kind == "Head" for _, _, kind, _ in here)
        if path.endswith(".antt"):
            is_first = indent in (0, 2) or re.match(r" +(pub |abbrev |\w+ : )", line)
        found += [line[:at].rstrip(), " " * (indent + 4 if is_first else indent) + line[at:]]
        changed = True
    if changed:
        write(path, "\n".join(found))
        rattle("--write", path)
    return changed


def break_file(path, kept):
    """Breaks a file's lines, and yields why it was put back."""
    old = text_of(path)
    if all(len(line) <= MOST for line in old.split("\n")):
        return
    before = as_read(path)
    for marks in (ALL_MARKS, SAFE_MARKS):  # a macro may read a comment on a type
        write(path, "\n".join(with_comments_wrapped(old.split("\n"), marks, kept)))
        while break_once(path, kept):
            pass
        rattle("--write", path)
        if not rattle("--check", path).returncode and as_read(path) == before:
            return
        write(path, old)
    yield f"{os.path.relpath(path, ROOT)}: left as it was, since its tokens would change"


def wrap_document(path):
    """Wraps each paragraph and each item of a list that has an over-long line, from that line on."""
    is_prose = lambda line: line.strip() and not line.startswith(("|", "#", "    ", "```", "!["))
    lines, found, at = text_of(path).split("\n"), [], 0
    while at < len(lines):
        end = at + 1
        while is_prose(lines[at]) and end < len(lines) and is_prose(lines[end]) and not ITEM.match(lines[end])[2]:
            end += 1
        block = lines[at:end]
        long = [number for number, line in enumerate(block) if len(line) > MOST]
        if is_prose(lines[at]) and long:
            head = ITEM.match(block[0])
            hang = " " * len(head[0])
            begin = hang if long[0] else head[0]
            words = " ".join(line.strip() for line in [block[long[0]][len(begin) :], *block[long[0] + 1 :]])
            words = re.sub("`[^`]+`", lambda it: it[0].replace(" ", "\0"), words)
            options = {"break_long_words": False, "break_on_hyphens": False}
            wrapped = textwrap.wrap(words, MOST, initial_indent=begin, subsequent_indent=hang, **options)
            block = block[: long[0]] + [line.replace("\0", " ") for line in wrapped]
        found.extend(block)
        at = end
    write(path, "\n".join(found))


def main(words):
    for path in (it for it in words if it.endswith(".md")):
        wrap_document(path)
    for crate in (it for it in words if not it.endswith(".md")):
        folder = f"{ROOT}/crates/{crate}"
        edits = glob.glob(f"{folder}/must-fail/*.edit") + glob.glob(f"{folder}/wrong-bodies/*.edit")
        kept = [line[5:] for edit in edits for line in text_of(edit).split("\n") if line.startswith("old: ")]
        specs = glob.glob(f"{folder}/specs/**/*.antt", recursive=True)
        for path in sorted(specs + glob.glob(f"{folder}/src/**/*.rt", recursive=True)):
            for it in break_file(path, kept):
                print(it)
            for number, line in enumerate(text_of(path).split("\n"), 1):
                if len(line) > MOST and not IMPORT.match(line):
                    print(f"{os.path.relpath(path, ROOT)}:{number}: {len(line)} columns")


if __name__ == "__main__":
    main(sys.argv[1:])
