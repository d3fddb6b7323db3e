#!/usr/bin/env python3
"""Reads FeatureIDE's model.xml plainly, by Python's own reader of XML, and writes random models. It shares nothing with
the crates: comparisons of what they read use it.

    python3 bench/featureide.py FILE..              writes the feature diagram of each model, or why it is none
    python3 bench/featureide.py --random SEED COUNT FOLDER      writes random models, and beside each its diagram
    python3 bench/featureide.py --documents SEED COUNT FOLDER   writes random documents, and beside each its elements
    python3 bench/featureide.py --compare PROGRAM COUNT [SEED]  compares `PROGRAM diagram` with this reading on random
                                                                models, half of them mutated; of faults the word alone
"""
import os
import random
import re
import subprocess
import sys
import tempfile
from xml.parsers import expat

import uvl

KINDS = ("and", "or", "alt", "feature")
OPERATORS = ("var", "not", "conj", "disj", "imp", "eq")
OVER = ("calculations", "comments", "featureOrder", "properties")
NAME = re.compile(rb"[A-Za-z_][A-Za-z0-9_]{0,63}\Z")
MOST_FEATURES, MOST_OPEN, MOST_ATTRIBUTES = 512, 64, 64


class Refused(Exception):
    """Why a text is no model: a word, and the element's number in the document, or nothing."""


class Node:
    def __init__(self, number, tag, attributes):
        self.number, self.tag, self.attributes, self.text, self.children = number, tag, attributes, b"", []


def document(text):
    """The outermost element of a document, and its elements in the order of their start tags."""
    found, around = [], []

    def start(tag, attributes):
        pairs = list(zip(attributes[::2], attributes[1::2]))
        node = Node(len(found), tag.encode(), [(a.encode(), b.encode()) for a, b in pairs])
        node.parent = around[-1].number if around else None
        if around:
            around[-1].children.append(node)
        found.append(node)
        around.append(node)
        if len(around) > MOST_OPEN or len(pairs) > MOST_ATTRIBUTES:
            raise Refused("limit")

    def said(data):
        around[-1].text += data.encode()

    def beyond(*_):
        raise Refused("XML beyond the subset")

    reader = expat.ParserCreate("UTF-8")
    reader.ordered_attributes = True
    reader.buffer_text = True
    reader.StartElementHandler, reader.EndElementHandler = start, lambda tag: around.pop()
    reader.CharacterDataHandler = said
    reader.ProcessingInstructionHandler = reader.StartDoctypeDeclHandler = reader.StartCdataSectionHandler = beyond
    try:
        reader.Parse(text, True)
    except (expat.ExpatError, LookupError, ValueError) as fault:
        raise Refused(f"XML {fault}") from fault
    return found


def value(node, name):
    return dict(node.attributes).get(name)


def flag(node, name):
    given = value(node, name)
    if given not in (None, b"true", b"false"):
        raise Refused(f"UnknownValue {node.number}")
    return given == b"true"


class Model:
    def __init__(self):
        self.names, self.kinds, self.members, self.rules = [], [], [], []

    def add(self, node):
        for key, _ in node.attributes:
            if key in (b"mandatory", b"abstract", b"hidden"):
                flag(node, key)
        name = value(node, b"name")
        if name is None:
            raise Refused(f"NoName {node.number}")
        if not NAME.match(name) or name in (b"true", b"false"):
            raise Refused(f"BadName {node.number}")
        if name in self.names:
            raise Refused(f"Twice {node.number}")
        if len(self.names) == MOST_FEATURES:
            raise Refused(f"TooMany {node.number}")
        self.names.append(name)
        return len(self.names) - 1

    def feature(self, node, parent):
        """The feature of an element, and those below it."""
        kind = node.tag.decode()
        number = self.add(node)
        self.kinds.append(kind)
        if parent is not None:
            self.members.append((parent, flag(node, b"mandatory")))
        for child in node.children:
            tag = child.tag.decode()
            if tag in KINDS and kind != "feature":
                self.feature(child, number)
            elif tag not in ("graphics", "description", "attribute"):
                raise Refused(f"UnknownElement {child.number}")

    def formula(self, node):
        tag = node.tag.decode()
        if tag not in OPERATORS:
            raise Refused(f"UnknownElement {node.number}")
        if tag == "var":
            if node.children:
                raise Refused(f"UnknownElement {node.children[0].number}")
            name = node.text.strip(b" \t\r\n")
            if name not in self.names:
                raise Refused(f"UnknownName {node.number}")
            return ("var", self.names.index(name))
        parts = [self.formula(it) for it in node.children]
        wanted = {"not": (1, 1), "imp": (2, 2), "eq": (2, 2)}.get(tag, (1, len(parts)))
        if not wanted[0] <= len(parts) <= wanted[1]:
            raise Refused(f"Operands {node.number}")
        return parts[0] if tag in ("conj", "disj") and len(parts) == 1 else (tag, *parts)

    def rule(self, node):
        formulas = []
        for child in node.children:
            if child.tag not in (b"description", b"tags", b"graphics"):
                formulas.append(self.formula(child))
        if len(formulas) != 1:
            raise Refused(f"Operands {node.number}")
        if opened(formulas[0]) > MOST_OPEN:
            raise Refused(f"TooDeep {node.number}")
        self.rules.append(formulas[0])


def read(text):
    """The model of a text, or `Refused`."""
    root = document(text)[0]
    if root.tag not in (b"featureModel", b"extendedFeatureModel"):
        raise Refused("UnknownElement 0")
    model, rules = Model(), []
    for child in root.children:
        tag = child.tag.decode()
        if tag == "struct":
            for it in child.children:
                if it.tag.decode() not in KINDS:
                    raise Refused(f"UnknownElement {it.number}")
                if model.names:
                    raise Refused(f"SecondRoot {it.number}")
                model.feature(it, None)
        elif tag == "constraints":
            for it in child.children:
                if it.tag != b"rule":
                    raise Refused(f"UnknownElement {it.number}")
                rules.append(it)
        elif tag not in OVER:
            raise Refused(f"UnknownElement {child.number}")
    if not model.names:
        raise Refused("NoRoot")
    for it in rules:
        model.rule(it)
    return model


# ---- diagrams

CLOSENESS = {"var": 4, "not": 4, "conj": 3, "disj": 2, "imp": 1, "eq": 0}


def shown(names, f, least=0):
    tag = f[0]
    if tag == "var":
        return names[f[1]].decode()
    if tag == "not":
        text = "!" + shown(names, f[1], 4)
    elif tag in ("conj", "disj"):
        text = (" & " if tag == "conj" else " | ").join(shown(names, it, CLOSENESS[tag] + 1) for it in f[1:])
    else:
        level = CLOSENESS[tag]
        text = shown(names, f[1], level + 1) + (" => " if tag == "imp" else " <=> ") + shown(names, f[2], level)
    return f"({text})" if CLOSENESS[tag] < least else text


def opened(f, least=0):
    """The most of `(`, `!`, `=>` and `<=>` that are open at one place of a formula as it is shown."""
    tag, level = f[0], CLOSENESS[f[0]]
    if tag == "var":
        most = 0
    elif tag == "not":
        most = 1 + opened(f[1], 4)
    elif tag in ("conj", "disj"):
        most = max(opened(it, level + 1) for it in f[1:])
    else:
        most = max(opened(f[1], level + 1), 1 + opened(f[2], level))
    return most + (level < least)


def diagram(model):
    """The lines of the diagram: for each feature those of its children, mandatory ones first, and then constraints."""
    lines = ["root " + model.names[0].decode()]
    for number, kind in enumerate(model.kinds):
        children = [(i + 1, flagged) for i, (parent, flagged) in enumerate(model.members) if parent == number]
        above = model.names[number].decode()
        if kind == "and":
            for wanted, word in ((True, "mandatory"), (False, "optional")):
                lines += [f"{word} {above} {model.names[i].decode()}" for i, flagged in children if flagged == wanted]
        elif children:
            word = "alternative" if kind == "alt" else "or"
            lines.append(f"{word} {above}: " + " ".join(model.names[i].decode() for i, _ in children))
    for f in model.rules:
        if f[0] == "imp" and f[1][0] == "var" and f[2][0] == "var":
            lines.append(f"requires {shown(model.names, f[1])} {shown(model.names, f[2])}")
        elif f[0] == "imp" and f[1][0] == "var" and f[2][0] == "not" and f[2][1][0] == "var":
            lines.append(f"excludes {shown(model.names, f[1])} {shown(model.names, f[2][1])}")
        else:
            lines.append("rule " + shown(model.names, f))
    return "\n".join(lines) + "\n"


def elements(found):
    """A line for each element: its name, its attributes, its parent, its text."""
    lines = []
    for it in found:
        pairs = " ".join(f"{name.decode()}={content.hex()}" for name, content in it.attributes)
        lines.append(f"{it.tag.decode()} [{pairs}] {'-' if it.parent is None else it.parent} {it.text.hex()}")
    return "\n".join(lines) + "\n"


# ---- random models

class Writer:
    def __init__(self, seed):
        self.r = random.Random(seed)

    def gap(self):
        return self.r.choice(["", "", "\n", "\n\t", " ", "\n<!-- a & b < c -->\n", "\t\t"])

    def quoted(self, text):
        quote = self.r.choice("\"\"'")
        text = text.replace("&", "&amp;").replace("<", "&lt;").replace(quote, "&quot;" if quote == '"' else "&apos;")
        if text and self.r.random() < 0.05:
            text = f"&#{ord(text[0])};" + text[1:] if text[0] not in "&" else text
        return quote + text + quote

    def tag(self, name, attributes, inner):
        pairs = [f" {key}{self.r.choice(['', '', ' '])}={self.quoted(text)}" for key, text in attributes]
        self.r.shuffle(pairs)
        if not inner and self.r.random() < 0.8:
            return f"<{name}{''.join(pairs)}{self.r.choice(['', ' '])}/>"
        return f"<{name}{''.join(pairs)}>{inner}{self.gap()}</{name}{self.r.choice(['', '', ' '])}>"

    def feature(self, depth):
        self.count += 1
        pairs = [("name", f"F{self.count}")]
        for key, chance in (("mandatory", 0.4), ("abstract", 0.2), ("hidden", 0.1)):
            if self.r.random() < chance:
                pairs.append((key, self.r.choice(["true", "true", "false"])))
        inner = ""
        if self.r.random() < 0.1:
            inner += self.gap() + self.tag("description", [], "a &amp; b &lt; c")
        if self.r.random() < 0.1:
            inner += self.gap() + self.tag("graphics", [("key", "x"), ("value", "a<b&\"c'")], "")
        kind = self.r.choice(["and", "or", "alt"]) if depth and self.r.random() < 0.7 else "feature"
        if kind != "feature":
            for _ in range(self.r.randint(1, 4)):
                if self.count < 60:
                    inner += self.gap() + self.feature(depth - 1)
        return self.tag(kind, pairs, inner)

    def formula(self, depth):
        tag = self.r.choice(OPERATORS) if depth else "var"
        if tag == "var":
            return self.tag("var", [], self.r.choice(["", " "]) + f"F{self.r.randint(1, self.count)}")
        number = {"not": 1, "imp": 2, "eq": 2}.get(tag) or self.r.randint(1, 3)
        return self.tag(tag, [], "".join(self.gap() + self.formula(depth - 1) for _ in range(number)))

    def deep(self):
        """A formula near the limit of open signs."""
        inner = self.formula(0)
        for _ in range(self.r.randint(15, 25)):
            inner = self.tag("not", [], self.tag("imp", [], self.formula(0) + inner))
        return inner

    def rule(self):
        inner = self.deep() if self.r.random() < 0.05 else self.formula(self.r.randint(0, 4))
        return self.tag("rule", [], self.gap() + inner)

    def model(self):
        self.count = 0
        struct = self.tag("struct", [], self.gap() + self.feature(self.r.randint(0, 4)))
        parts = [struct]
        if self.r.random() < 0.8:
            number = self.r.randint(0, 4)
            rules = [self.rule() for _ in range(number)]
            parts.append(self.tag("constraints", [], self.gap() + self.gap().join(rules)))
        if self.r.random() < 0.3:
            parts.insert(0, self.tag("properties", [], self.gap() + self.tag("graphics", [("key", "k")], "")))
        if self.r.random() < 0.3:
            parts.append(self.tag("calculations", [("Auto", "true")], ""))
        head = self.r.choice(['<?xml version="1.0" encoding="UTF-8" standalone="no"?>', ""])
        root = self.tag(self.r.choice(["featureModel", "extendedFeatureModel"]), [], self.gap().join([""] + parts))
        return head + self.gap() + root + self.gap()

    def mutated(self, text):
        """The text with one to three small changes."""
        for _ in range(self.r.randint(1, 3)):
            at = self.r.randrange(len(text))
            kind = self.r.randrange(4)
            if kind == 0:
                text = text[:at] + text[at + 1 :]
            elif kind == 1:
                text = text[:at] + self.r.choice("<>&;/\"'= -!?xaF\n") + text[at:]
            elif kind == 2:
                end = at + self.r.randint(1, 12)
                text = text[:at] + text[end:]
            else:
                other = self.r.randrange(len(text))
                text = text[:at] + text[other : other + 8] + text[at:]
        return text


def answer(text, of):
    try:
        return of(text)
    except Refused as why:
        return f"refused {why}\n"


def told_by(program, path):
    """The diagram that the program tells of a model, or the word of its fault."""
    ran = subprocess.run([program, "diagram", path], capture_output=True, check=False)
    if not ran.returncode:
        return ran.stdout.decode()
    words = ran.stderr.decode().removeprefix("vpgdesk: ").split()
    return f"refused {words[1]}" if words[0] == "featureide" else " ".join(words) + "\n"


DECLARATION = re.compile(rb"""\A<\?xml(\s+[A-Za-z_:][A-Za-z0-9_:.-]*\s*=\s*("[^"<&]*"|'[^'<&]*'))*\s*\?>""")


def own_answer(text):
    """The diagram, the program's fault for it, or the word of the model's fault. Which attributes a declaration has is
    not asked."""
    text = DECLARATION.sub(b'<?xml version="1.0"?>', text, count=1)
    own = answer(text, lambda it: diagram(read(it)))
    if own.startswith("refused "):
        return f"refused {own.split()[1].capitalize() if own.split()[1] == 'XML' else own.split()[1]}"
    return uvl.refused(own) or own


def compare(program, count, seed):
    """The number of models of which the program says something else."""
    differences = refusals = 0
    with tempfile.TemporaryDirectory() as folder:
        path = os.path.join(folder, "model.xml")
        for i in range(seed, seed + count):
            writer = Writer(i)
            text = writer.model()
            text = (writer.mutated(text) if i % 2 else text).encode()
            with open(path, "wb") as it:
                it.write(text)
            own, told = own_answer(text), told_by(program, path)
            refusals += own.startswith("refused ")
            if own != told:
                differences += 1
                print(f"model {i}:\n{text.decode()}\n-- here\n{own}\n-- there\n{told}")
    print(f"{count} models, {refusals} refused, {differences} differences")
    return differences


def main(words):
    if words[:1] == ["--compare"]:
        return compare(words[1], int(words[2]), int(words[3]) if words[3:] else 0) > 0
    if words[:1] in (["--random"], ["--documents"]):
        seed, count, folder = int(words[1]), int(words[2]), words[3]
        of = (lambda it: diagram(read(it))) if words[0] == "--random" else (lambda it: elements(document(it)))
        for i in range(count):
            writer = Writer(seed + i)
            text = writer.model()
            if words[0] == "--documents" and i % 2:
                text = writer.mutated(text)
            for end, content in ((".xml", text.encode()), (".txt", answer(text.encode(), of).encode())):
                with open(os.path.join(folder, f"{seed + i}{end}"), "wb") as it:
                    it.write(content)
        return 0
    for path in words:
        with open(path, "rb") as it:
            sys.stdout.write(answer(it.read(), lambda text: diagram(read(text))))
    return 0


if __name__ == "__main__":
    sys.exit(main(sys.argv[1:]))
