#!/usr/bin/env python3
"""What `vpgdesk lint` warns of in a system and its requirements, independently of the program: plain Python.

    python3 bench/warned.py SYSTEM REQUIREMENTS DIAGRAM      # the warnings of the two files, as `lint` writes them
    python3 bench/warned.py --lint VPGDESK CASES SEED        # random families: whether `lint` writes these lines

Actions are those of the formulas that are read (`formulas.py`), states are found by a search of paths, and guards are
decided by propagation (`oracle.py`). Each guard that is warned of is held to the diagram's products. So is a warning
that the diagram has none; its other warnings are not compared, and neither is the nearest name behind a word.
"""
import random
import re
import sys
import tempfile

import oracle
import requirements
from formulas import RequirementsReader, read_requirements, without_blanks

MOST_TRIED = 6
MOST_TOLD = 10
MORE = {
    "NoPath": "states that cannot be reached from the first state",
    "Unmet": "guards that are true in no product",
    "Unasked": "actions that no requirement names",
    "NoAction": "actions that no transition has",
}


# ---- actions

def leaves(formula):
    """The leaves of the action and regular formulas in a formula, and their complements, in the order of the text."""
    for part in formula[1:]:
        if isinstance(part, tuple):
            if part[0] == "other":
                yield ("other",)
            if part[0] in ("any", "none", "action"):
                yield part
            yield from leaves(part)


def names(leaf, action):
    if leaf[0] != "action":
        return False
    return leaf[2] == action if leaf[1] else without_blanks(leaf[2]) == without_blanks(action)


class Placed(RequirementsReader):
    """Reads requirements, and notes where the words stand that are actions."""

    def __init__(self, text):
        super().__init__(text)
        self.places = []

    def regular_operand(self):
        word, at = self.peek(), self.place()
        operand = super().regular_operand()
        if operand[0] == "action" and word not in ("(", "!"):
            self.places.append(at)
        return operand


def places_of(text):
    """Where the actions stand, in order."""
    reader = Placed(text)
    reader.whole()
    return reader.places


# ---- states and guards

def unreached(system):
    reached, waiting = {system.first}, [system.first]
    while waiting:
        s = waiting.pop()
        for source, _, _, target in system.transitions:
            if source == s and target not in reached:
                reached.add(target)
                waiting.append(target)
    return [s for s in range(system.states) if s not in reached]


def named_in(guard):
    if guard[0] == "feature":
        return [guard[1]]
    if guard[0] in ("true", "false"):
        return []
    parts = [guard[1]] if guard[0] == "not" else guard[1]
    return [name for part in parts for name in named_in(part)]


def value(guard, known):
    """The three-valued value: True, False, or None where it is not known."""
    kind = guard[0]
    if kind in ("true", "false"):
        return kind == "true"
    if kind == "feature":
        return known.get(guard[1])
    if kind == "not":
        inner = value(guard[1], known)
        return None if inner is None else not inner
    values = [value(part, known) for part in guard[1]]
    ends = kind == "or"
    if ends in values:
        return ends
    return None if None in values else not ends


def is_refuted(d, guard, tried, choices=()):
    known = oracle.closure(d, list(choices))
    if oracle.has_conflict(known):
        return True
    if value(guard, {d.names[f]: is_in for f, is_in in known}) is False:
        return True
    if not tried:
        return False
    f = d.names.index(tried[0])
    return all(is_refuted(d, guard, tried[1:], choices + ((f, is_in),)) for is_in in (True, False))


def unmet(d, system):
    if oracle.has_conflict(oracle.closure(d, [])):
        return []
    found = []
    for number, (_, _, guard, _) in enumerate(system.transitions):
        tried = list(dict.fromkeys(named_in(guard)))[:MOST_TRIED]
        if is_refuted(d, guard, tried):
            found.append(number)
    return found


# ---- lines

def place(text, at):
    before = text[:at]
    return before.count("\n") + 1, at - (before.rfind("\n") + 1) + 1


def transition_lines(text):
    """The numbers of the lines of the header and the transitions, and the lines."""
    lines = requirements.lines_of(text)
    return [(number, line) for number, line in enumerate(lines, 1) if line.strip(requirements.BLANKS)]


def sort_lines(file, sort, told):
    """The lines of a sort, of pairs of a place and words."""
    lines = [f"{file}:{line}:{column}: warning: {words}" for (line, column), words in told[:MOST_TOLD]]
    if len(told) > MOST_TOLD:
        lines.append(f"{file}: warning: {MORE[sort]}: {len(told) - MOST_TOLD} more")
    return lines


def begin(line):
    return len(line) - len(line.lstrip(requirements.BLANKS)) + 1


def shown(text, most=60):
    """A name as it is shown: control characters as `?`, and cut behind so many bytes."""
    shown_text = "".join("?" if ord(b) < 32 or ord(b) == 127 else b for b in text)
    return shown_text if len(shown_text) <= most else shown_text[:most] + ".."


def system_warnings(file, texts):
    system_text, requirements_text, diagram_text = texts
    d = oracle.read_diagram(diagram_text)
    system = requirements.read_system(system_text, d.names)
    rows = transition_lines(system_text)
    leaving, using = {}, {}
    for number, (source, name, _, _) in enumerate(system.transitions, 1):
        leaving.setdefault(source, number)
        using.setdefault(name, number)

    def at(number):
        return rows[number][0], begin(rows[number][1])

    states = [(at(leaving.get(s, 0)), f"state {s} cannot be reached from the first state") for s in unreached(system)]
    guards = []
    for number in unmet(d, system):
        line, text = rows[number + 1]
        column = text.rindex("[") + 2 if "[" in text else begin(text)
        guards.append(((line, column), "this guard is true in no product"))
    asked = [leaf for _, formula in read_requirements(requirements_text) for leaf in leaves((0, formula))]
    actions = []
    if not any(leaf[0] in ("any", "other") for leaf in asked):
        for name in system.actions():
            if not any(names(leaf, name) for leaf in asked):
                actions.append((at(using[name]), f"`{shown(name)}` is named by no requirement"))
    sorts = (("NoPath", states), ("Unmet", guards), ("Unasked", actions))
    return [sort_lines(file, sort, told) for sort, told in sorts], len(states) + len(guards) + len(actions)


def requirements_warnings(file, texts):
    system_text, requirements_text, diagram_text = texts
    system = requirements.read_system(system_text, oracle.read_diagram(diagram_text).names)
    labels = [leaf for _, formula in read_requirements(requirements_text) for leaf in leaves((0, formula))
              if leaf[0] == "action"]
    told = []
    for leaf, at in zip(labels, places_of(requirements_text)):
        if not any(names(leaf, name) for name in system.actions()):
            told.append((place(requirements_text, at), f"`{shown(leaf[2])}` is the action of no transition"))
    return sort_lines(file, "NoAction", told), len(told)


def warnings_of(texts, files=("system", "requirements")):
    """The lines of both files, and how many warnings they are."""
    of_system, count = system_warnings(files[0], texts)
    of_requirements, more = requirements_warnings(files[1], texts)
    return [line for lines in of_system for line in lines] + of_requirements, count + more


def spoiled(rng, texts):
    """The texts with an action renamed, or a guard and its opposite, now and then."""
    system, asked, diagram = texts
    if rng.random() < 0.3:
        asked = re.sub(r"\ba\b", "aa", asked)
    if rng.random() < 0.3:
        system = re.sub(r"\[([^\]]*)\]", r"[(\1) & !(\1)]", system, count=1)
    return system, asked, diagram


def compare(path, cases, seed):
    counts = {}
    for case in range(cases):
        rng = random.Random(f"{seed} {case}")
        texts = spoiled(rng, requirements.any_family(rng))
        try:
            wanted, count = warnings_of(texts)
        except requirements.Fault:
            continue
        with tempfile.TemporaryDirectory() as folder:
            program = requirements.Program(path, folder)
            for name, text in zip(requirements.FILES, texts):
                program.put(name, text)
            done = program.carried_out("lint", "--system", "system", "--requirements", "requirements", "diagram")
        lines = [re.sub("; is `.*` meant\\?$", "", line) for line in done.stdout.splitlines()]
        told = [line for line in lines if line.startswith(("system:", "requirements:"))]
        of_diagram = [line for line in lines if line.startswith("diagram:")]
        last = f"warnings {count + len(of_diagram)}"
        d = oracle.read_diagram(texts[2])
        without = [line for line in of_diagram if " no product: " in line]
        is_empty = not requirements.products_of(d)
        is_right = len(without) == is_empty and all("has no product" in line for line in without)
        if done.returncode or told != wanted or lines[-1:] != [last] or not is_right:
            print(f"case {case} of seed {seed}", *texts, "wanted", *wanted, last, "got", *lines, done.stderr, sep="\n")
            return 1
        system = requirements.read_system(texts[0], d.names)
        for number in unmet(d, system):
            guard = system.transitions[number][2]
            assert not any(requirements.guard_holds(guard, p) for p in requirements.products_of(d)), texts
        for line in told:
            words = re.sub("`.*`|[0-9]+", "..", line.split("warning: ")[1])
            counts[words] = counts.get(words, 0) + 1
    print(f"{cases} cases, seed {seed}, no difference; {sorted(counts.items())}")
    return 0


def main(words):
    if words[:1] == ["--lint"] and len(words) == 4:
        return compare(words[1], int(words[2]), words[3])
    if len(words) == 3:
        texts = [requirements.read_file(path) for path in words]
        lines, count = warnings_of(texts, words)
        print(*lines, f"warnings {count}", sep="\n")
        return 0
    return __doc__


if __name__ == "__main__":
    sys.exit(main(sys.argv[1:]))
