#!/usr/bin/env python3
"""Configurations in FeatureIDE's XML, read by Python's own parser.

    configurations.py VPGDESK CASES [SEED]

Over random diagrams and scripts: `export --xml` says of each feature what `show` and `products` say of it, and `run
--config` makes the same decisions again. Mutated documents are read or refused as here.
"""
import os
import random
import subprocess
import sys
import tempfile
import xml.etree.ElementTree as tree

NAMES = [f"f{i}" for i in range(9)]
WORDS = ("selected", "unselected", "undefined")


def random_diagram(rng):
    lines = ["root f0"]
    for at, name in enumerate(NAMES[1:], 1):
        lines.append(f"{rng.choice(('mandatory', 'optional', 'optional'))} {NAMES[rng.randrange(at)]} {name}")
    for _ in range(rng.randint(0, 3)):
        a, b = rng.sample(NAMES, 2)
        lines.append(f"{rng.choice(('requires', 'excludes'))} {a} {b}")
    return "\n".join(lines) + "\n"


def random_script(rng):
    lines = []
    for _ in range(rng.randint(0, 6)):
        word = rng.choice(("select", "select", "exclude", "exclude", "retract", "known"))
        lines.append(f"{word} {rng.choice(NAMES)}")
    return "\n".join(lines + rng.choice(([], ["settle"], ["undo", "redo"]))) + rng.choice(("", "\n"))


def decided(text):
    """The lines that a document decides, `None` if it is none."""
    try:
        root = tree.fromstring(text)
    except tree.ParseError:
        return None
    if root.tag != "configuration" or any(child.tag != "feature" for child in root):
        return None
    lines = []
    for child in root:
        if any(child.get(key, "undefined") not in WORDS for key in ("manual", "automatic")):
            return None
        name = child.get("name")
        if name is None or not name.isidentifier() or name in ("true", "false") or len(name) > 64:
            return None
        word = {"selected": "select ", "unselected": "exclude "}.get(child.get("manual"))
        lines += [word + name] if word else []
    return lines


def mutated(rng, text):
    pieces = ("<feature/>", 'manual="', "undefined", "selected", "<!-- x -->", "<", ">", '"', "/", "\n", "x", "&lt;",
              '<feature name="f1" manual="selected"/>', "<configuration>", "</configuration>", "feature", " ", "<a/>")
    for _ in range(rng.randint(1, 2)):
        at = rng.randint(0, len(text))
        text = text[:at] + (rng.choice(pieces) if rng.random() < 0.6 else "") + text[at + rng.choice((0, 0, 1, 5)):]
    return text


def page(lines):
    """The decisions, and the features that are in, out and open, by the last lines of a run."""
    words = [line.split() for line in lines]
    shown = [line[1:] for line in words if line[:1] == ["decisions"]][-1]
    return shown, [line[1:] for line in words[-3:]]


def compare(program, cases, seed):
    differences = refused = 0
    with tempfile.TemporaryDirectory() as folder:
        path = {name: os.path.join(folder, name) for name in ("game", "diagram", "script", "asked", "page.xml")}

        def put(name, text):
            with open(path[name], "w", encoding="utf-8") as file:
                file.write(text)

        def run(*words):
            return subprocess.run([program, *words], capture_output=True, check=False, text=True)

        put("game", "parity 0;\n0 0 0 0;\n")
        put("asked", "show\nproducts\n")
        for case in range(seed, seed + cases):
            rng = random.Random(case)
            script = random_script(rng)
            put("diagram", random_diagram(rng))
            put("script", script + "\nshow\nproducts\n")
            done = run("run", path["game"], path["diagram"], path["script"])
            if done.returncode:
                continue
            decisions, (in_, out, open_) = page(done.stdout.splitlines())
            put("script", script)
            written = run("export", "--xml", path["game"], path["diagram"], path["script"]).stdout
            said = [(e.get("name"), e.get("automatic"), e.get("manual")) for e in tree.fromstring(written.encode())]
            by_hand = {word[1:]: WORDS[word[0] == "-"] for word in decisions}
            own = [(name, "undefined" if name in by_hand else known, by_hand.get(name, "undefined"))
                   for names, known in zip((in_, out, open_), WORDS) for name in names]
            put("page.xml", written)
            again = run("run", path["game"], path["diagram"], path["asked"], "--config", path["page.xml"])
            same = said == own and page(again.stdout.splitlines())[1] == [in_, out, open_]
            same = same and sorted(page(again.stdout.splitlines())[0]) == sorted(decisions)
            text = mutated(rng, written.split("\n", 1)[1])
            put("page.xml", text)
            got = run("run", path["game"], path["diagram"], path["asked"], "--config", path["page.xml"], "--keep-going")
            lines = decided(text.encode())
            if lines is None:
                refused += 1
                same = same and got.returncode == 1 and got.stderr.startswith("vpgdesk: configuration ")
            else:
                put("script", "\n".join(lines + ["show", "products"]) + "\n")
                plain = run("run", path["game"], path["diagram"], path["script"], "--keep-going")
                same = same and got.stdout == plain.stdout
            if not same:
                differences += 1
                print(f"case {case}:\n{written}\n-- mutated\n{text}\n-- {got.stderr}")
    print(f"{cases} pages, {refused} documents refused, {differences} differences")
    return differences


if __name__ == "__main__":
    sys.exit(compare(sys.argv[1], int(sys.argv[2]), int(sys.argv[3]) if len(sys.argv) > 3 else 0) > 0)
