#!/usr/bin/env python3
"""An independent reading of rules and of their clauses, and a comparison with a program on random texts.

    rules.py NAME .. < RULES                 writes for each line its clauses, or why it is refused
    rules.py --program                       writes the text of PROGRAM, which no crate keeps: the src/main.rt of one
                                             that uses vpg_features, vpg_rules and anyhow
    rules.py --compare PROGRAM CASES [SEED]  compares PROGRAM with that on random rules over `a b c d e`, each third
                                             one damaged; PROGRAM reads the names, and then a rule on each line

A clause is written as its literals, `+2` for the feature 2 in and `-2` for it out, and ends in `;`. Each list of
clauses is also compared with the rule's truth in each set of features. Written from docs/DEFINITIONS.md.
"""
import itertools
import random
import re
import subprocess
import sys

DEEPEST, MOST = 64, 64
BLANKS = " \t\r\n"
MARKS = ("<=>", "=>", "|", "&")  # loosest first

PROGRAM = r"""//! Reads names on the first line, and a rule on each other; writes clauses, or why there are none.
#![tactic(auto)]

use anyhow::Result;
use std::io::Read;
use vpg_rules::{Names, parse_rule};

fn main(rt: HostRuntime) -> Result<()> {
    let alloc = rt.alloc();
    let mut text = Vec::new(alloc);
    let mut input = rt.stdin();
    input.read_to_end(&mut text)?;
    let mut names = Names::new(alloc)?;
    let mut lines = text.split(|b| *b == b'\n');
    let Some(first) = lines.next() else {
        return Ok(());
    };
    for name in first.split(|b| *b == b' ') {
        let Ok(_) = names.add(alloc, name) else {
            return Ok(());
        };
    }
    for line in lines {
        match parse_rule(alloc, line, &names) {
            Err(fault) => println!(rt; "{fault}")?,
            Ok(rule) if !rule.is_below(names.len()) => println!(rt; "UnknownFeature")?,
            Ok(rule) => match rule.clauses(alloc) {
                Err(fault) => println!(rt; "{fault}")?,
                Ok(clauses) => {
                    let mut out = String::new(alloc);
                    for clause in &clauses {
                        for literal in clause.literals() {
                            let sign = if literal.value { "+" } else { "-" };
                            let number = format!(in alloc; "{}", literal.feature)?;
                            out.push_str(sign)?;
                            out.push_str(&number)?;
                        }
                        out.push_str(";")?;
                    }
                    println!(rt; "{out}")?;
                }
            },
        }
    }
    Ok(())
}
"""


class Fault(Exception):
    pass


# ---- reading: a rule is True, False, the index of a feature in a tuple, or an operator and its parts


class Reader:
    def __init__(self, text, names):
        self.text, self.names, self.at = text, names, 0
        self.is_known = True

    def skip(self):
        while self.at < len(self.text) and self.text[self.at] in BLANKS:
            self.at += 1

    def comes(self, mark):
        self.skip()
        return self.text.startswith(mark, self.at)

    def takes(self, mark):
        if self.comes(mark):
            self.at += len(mark)
            return True
        return False

    def deeper(self, left):
        """One more sign is open, the one that comes next."""
        if left == 0:
            raise Fault(f"TooDeep {self.at}")
        return left - 1

    def level(self, number, left):
        if number == len(MARKS):
            return self.factor(left)
        mark = MARKS[number]
        first = self.level(number + 1, left)
        if number < 2:
            if not self.comes(mark):
                return first
            inner = self.deeper(left)
            self.takes(mark)
            return (mark, first, self.level(number, inner))
        parts = [first]
        while self.takes(mark):
            parts.append(self.level(number + 1, left))
        return (mark, *parts) if len(parts) > 1 else first

    def factor(self, left):
        for sign in "!(":
            if self.comes(sign):
                inner = self.deeper(left)
                self.takes(sign)
                if sign == "!":
                    return ("!", self.factor(inner))
                inside = self.level(0, inner)
                if not self.takes(")"):
                    raise Fault(f"Syntax {self.at}")
                return inside
        word = re.match(r"[A-Za-z0-9_]*", self.text[self.at :])[0]
        if word in ("true", "false"):
            rule = word == "true"
        elif word in self.names:
            rule = ("name", self.names.index(word))
        elif re.match("[A-Za-z_]", word) and len(word) <= 64:
            rule = ("name", len(self.names))
            self.is_known = False
        else:
            raise Fault(f"Syntax {self.at}")
        self.at += len(word)
        return rule


def read_rule(text, names):
    reader = Reader(text, names)
    rule = reader.level(0, DEEPEST)
    reader.skip()
    if reader.at < len(text):
        raise Fault(f"Syntax {reader.at}")
    if not reader.is_known:
        raise Fault("UnknownFeature")
    return rule


def truth(rule, chosen):
    if isinstance(rule, bool):
        return rule
    if rule[0] == "name":
        return chosen[rule[1]]
    values = [truth(part, chosen) for part in rule[1:]]
    return {
        "!": lambda: not values[0],
        "&": lambda: all(values),
        "|": lambda: any(values),
        "=>": lambda: values[1] if values[0] else True,
        "<=>": lambda: values[0] is values[1],
    }[rule[0]]()


# ---- clauses: how many there are, of a rule and of its negation, and then the clauses themselves


def numbers(rule):
    """The numbers of clauses of a rule and of its negation, each 65 if it is greater."""
    if isinstance(rule, bool):
        return (0, 1) if rule else (1, 0)
    if rule[0] == "name":
        return 1, 1
    met, unmet = zip(*map(numbers, rule[1:]))
    if rule[0] == "!":
        found = unmet[0], met[0]
    elif rule[0] == "&":
        found = sum(met), product(unmet)
    elif rule[0] == "|":
        found = product(met), sum(unmet)
    elif rule[0] == "=>":
        found = unmet[0] * met[1], met[0] + unmet[1]
    else:
        found = unmet[0] * met[1] + met[0] * unmet[1], met[0] * met[1] + unmet[0] * unmet[1]
    return tuple(min(number, MOST + 1) for number in found)


def product(factors):
    whole = 1
    for factor in factors:
        whole *= factor
    return whole


def plain(rule, value):
    """The outermost operator of a rule or its negation (`literal`, `all`, `any`), and its parts with their values."""
    if isinstance(rule, bool):
        return "all" if rule is value else "any", []
    kind, parts = rule[0], rule[1:]
    if kind == "name":
        return "literal", [(parts[0], value)]
    if kind == "!":
        return plain(parts[0], not value)
    if kind in "&|":
        return "all" if (kind == "&") is value else "any", [(part, value) for part in parts]
    left, right = parts
    if kind == "=>":
        return "any" if value else "all", [(left, not value), (right, value)]
    return plain(("&", ("|", ("!", left), right), ("|", left, ("!", right))), True) if value else plain(
        ("&", ("|", left, right), ("|", ("!", left), ("!", right))), True
    )


def clauses_when(rule, value):
    """The clauses that the rule has the value, if there are 64 at most."""
    kind, parts = plain(rule, value)
    if kind == "literal":
        return [parts]
    if kind == "all":
        return [clause for part in parts for clause in clauses_when(*part)]
    if any(numbers(part)[not wanted] == 0 for part, wanted in parts):
        return []
    lists = [clauses_when(*part) for part in parts]
    return [list(dict.fromkeys(sum(choice, []))) for choice in itertools.product(*lists)]


def clauses_of(rule):
    """The clauses, or None if there are more than 64."""
    return clauses_when(rule, True) if numbers(rule)[0] <= MOST else None


def answer(text, names):
    try:
        rule = read_rule(text, names)
    except Fault as fault:
        return str(fault)
    clauses = clauses_of(rule)
    if clauses is None:
        return "TooMany"
    for chosen in itertools.product((False, True), repeat=len(names)) if len(names) <= 6 else ():
        met = all(any(chosen[f] is value for f, value in clause) for clause in clauses)
        assert met is truth(rule, chosen), text
    return "".join("".join(f"{'+' if value else '-'}{f}" for f, value in clause) + ";" for clause in clauses)


# ---- random texts


def blanks(rng):
    return rng.choice(("", "", "", " ", "  ", "\t"))


def random_text(rng, names, size):
    if size <= 1:
        word = rng.choice(names) if rng.random() < 0.95 else rng.choice(("true", "false"))
        return blanks(rng) + word
    kind = rng.random()
    if kind < 0.2:
        return blanks(rng) + "!" + inner(rng, names, size - 1)
    mark = rng.choice(MARKS)
    number = rng.choice((2, 2, 3)) if mark in "|&" else 2
    parts = [random_text(rng, names, max(1, size // number)) for _ in range(number)]
    whole = (blanks(rng) + mark).join(parts)
    return f"{blanks(rng)}({whole}{blanks(rng)})" if rng.random() < 0.4 else whole


def inner(rng, names, size):
    text = random_text(rng, names, size)
    return f"({text})" if rng.random() < 0.6 else text


def damaged(rng, text):
    for _ in range(rng.choice((1, 1, 2))):
        at = rng.randrange(len(text) + 1)
        piece = rng.choice(("", "", "=", ">", "<", "=>", "<=>", "&", "|", "!", "(", ")", "z", "9", " ", "&&", "x y"))
        text = text[:at] + piece + text[at + rng.choice((0, 1, 1, 2)) :]
    return text


def deep(rng, names):
    """Signs that are open at one place, about as many as may be."""
    number = rng.randrange(60, 68)
    signs = rng.choice(("(", "!", "=>", "<=>", "mixed"))
    text = rng.choice(names)
    for _ in range(number):
        sign = rng.choice(("(", "!", "=>", "<=>")) if signs == "mixed" else signs
        text = {"(": f"({text})", "!": f"!{text}"}.get(sign, f"{rng.choice(names)} {sign} {text}")
    return text


def random_rules(rng, names, number):
    for case in range(number):
        if case % 50 == 0:
            yield deep(rng, names)
            continue
        text = random_text(rng, names, rng.choice((1, 2, 3, 4, 5, 6, 8, 10, 12, 16)))
        yield damaged(rng, text) if case % 3 == 0 else text


def compare(program, number, seed):
    rng = random.Random(seed)
    names = "a b c d e".split()
    texts = [text.replace("\n", " ") for text in random_rules(rng, names, number)]
    data = "\n".join([" ".join(names), *texts])
    ran = subprocess.run([program], input=data.encode(), stdout=subprocess.PIPE, check=True)
    found = ran.stdout.decode().split("\n")[: len(texts)]
    wrong, kinds = 0, {}
    for text, line in zip(texts, found, strict=True):
        want = answer(text, names)
        kind = want.split(" ")[0] if want[:1].isalpha() else "clauses"
        kinds[kind] = kinds.get(kind, 0) + 1
        if want != line:
            wrong += 1
            print(f"{text!r}: {line!r} and not {want!r}")
    print(f"{len(texts)} rules, {wrong} differ: {kinds}")
    return 1 if wrong else 0


def main():
    sys.setrecursionlimit(10000)
    if sys.argv[1:] == ["--program"]:
        sys.stdout.write(PROGRAM)
        return 0
    if sys.argv[1:2] == ["--compare"]:
        return compare(sys.argv[2], int(sys.argv[3]), int(sys.argv[4]) if len(sys.argv) > 4 else 1)
    for text in sys.stdin.read().split("\n")[:-1]:
        print(answer(text, sys.argv[1:]))
    return 0


if __name__ == "__main__":
    sys.exit(main())
