#!/usr/bin/env python3
"""Transition systems and requirements, independently of the program: plain Python, written from docs/FORMATS.md.

    python3 requirements.py system SYSTEM FEATURE..             # what is read, as it is written; or the fault
    python3 requirements.py --rows < ROWS                       # each row of vpg_text_rows/data/systems with its answer
    python3 requirements.py --compare VPG_TEXT_ROWS CASES SEED  # random texts, most with a slip, against the program
    python3 requirements.py products SYSTEM REQUIREMENTS DIAGRAM          # in which products each requirement holds
    python3 requirements.py asserts SYSTEM REQUIREMENTS DIAGRAM SCRIPT    # the assertions of a script, against that
    python3 requirements.py --games VPGDESK CASES SEED  # the games and verdicts of random families, against that
    python3 requirements.py --slips VPGDESK CASES SEED  # files with a slip: the same fault, or the same meaning
    python3 requirements.py --faults VPGDESK CASES SEED # random words of formulas: the same fault, or none

`--games` and `--slips` hold `vpgdesk model` to that, and `vpgdesk run` on the game that it writes, this of each tenth
family, and with slips of each hundredth. A word `--direct` at their end lets `run --system SYSTEM --requirements
REQUIREMENTS` make the game.
Where a requirement holds is calculated on the system of each product, by `formulas.py`.
"""
import functools
import os
import random
import re
import subprocess
import sys
import tempfile

import oracle
import products
from formulas import MOST_OPEN, NAME_BYTES, RULES, RULES_OF, Chart, Fault, PlainSystem, read_requirements

MOST_STATES = 65536
MOST_TRANSITIONS = 1048576
BLANKS = " \t"
TOP = os.path.dirname(os.path.dirname(os.path.abspath(__file__)))
# the features of the rows
FEATURES = ("r", "f", "g")


class GuardReader:
    """A guard as a tree: (`true`,), (`false`,), (`feature`, name), (`not`, guard), (`and`, guards), (`or`, guards)."""

    def __init__(self, text, features):
        self.text, self.features, self.at, self.open = text, features, 0, 0

    def fail(self, word):
        raise Fault(f"{word} {self.at}")

    def blanks(self):
        while self.at < len(self.text) and self.text[self.at] in " \t\r\n":
            self.at += 1

    def whole(self):
        guard = self.any()
        if self.at < len(self.text):
            self.fail("Syntax")
        return guard

    def joined(self, sign, kind, inner):
        parts = [inner()]
        while self.at < len(self.text) and self.text[self.at] == sign:
            self.at += 1
            parts.append(inner())
        if len(parts) == 1:
            return parts[0]
        flat = []
        for part in parts:
            flat += part[1] if part[0] == kind else [part]
        return (kind, flat)

    def any(self):
        return self.joined("|", "or", self.all)

    def all(self):
        return self.joined("&", "and", self.factor)

    def factor(self):
        self.blanks()
        if self.at >= len(self.text):
            self.fail("Syntax")
        sign = self.text[self.at]
        if sign in "!(":
            return self.opened(sign)
        word = re.compile("[A-Za-z_][A-Za-z0-9_]*").match(self.text, self.at)
        if not word:
            self.fail("Syntax")
        if word.group() in ("true", "false"):
            guard = (word.group(),)
        elif word.group() in self.features:
            guard = ("feature", word.group())
        else:
            self.fail("UnknownFeature")
        self.at = word.end()
        self.blanks()
        return guard

    def opened(self, sign):
        if self.open == MOST_OPEN:
            self.fail("TooDeep")
        self.open += 1
        self.at += 1
        guard = ("not", self.factor()) if sign == "!" else self.any()
        if sign == "(":
            if self.at >= len(self.text) or self.text[self.at] != ")":
                self.fail("Syntax")
            self.at += 1
            self.blanks()
        self.open -= 1
        return guard


def guard_text(guard):
    kind = guard[0]
    if kind in ("true", "false"):
        return kind
    if kind == "feature":
        return guard[1]
    if kind == "not":
        inner = guard_text(guard[1])
        return f"!({inner})" if guard[1][0] in ("and", "or") else f"!{inner}"
    if kind == "and":
        return " & ".join(f"({guard_text(part)})" if part[0] == "or" else guard_text(part) for part in guard[1])
    return " | ".join(guard_text(part) for part in guard[1])


class System:
    """The first state, how many states, and transitions: source, name of the action, guard, target."""

    def __init__(self, first, states, transitions):
        self.first, self.states, self.transitions = first, states, transitions

    def actions(self):
        """The names of the actions, in the order of their first use."""
        return list(dict.fromkeys(name for _, name, _, _ in self.transitions))

    def text(self):
        lines = [f"des ({self.first},{len(self.transitions)},{self.states})"]
        for source, name, guard, target in self.transitions:
            has_brackets = guard != ("true",) or name.endswith("]")
            label = f"{name} [{guard_text(guard)}]" if has_brackets else name
            lines.append(f'({source},"{label}",{target})')
        return "\n".join(lines) + "\n"


HEADER = re.compile(r"[ \t]*des[ \t]*\([ \t]*([0-9]+)[ \t]*,[ \t]*([0-9]+)[ \t]*,[ \t]*([0-9]+)[ \t]*\)[ \t]*")
TRANSITION = re.compile(r"[ \t]*\([ \t]*([0-9]+)[ \t]*,(.*),[ \t]*([0-9]+)[ \t]*\)[ \t]*", re.DOTALL)


def lines_of(text):
    """The lines, each without the carriage return before its line feed."""
    *ended, last = text.split("\n")
    return [line[:-1] if line.endswith("\r") else line for line in ended] + ([last] if last else [])


def header_of(line, number):
    header = HEADER.fullmatch(line)
    if not header:
        raise Fault(f"NoHeader {number}")
    first, count, states = map(int, header.groups())
    if states > MOST_STATES or count > MOST_TRANSITIONS:
        raise Fault(f"TooMany {number}")
    if first >= states:
        raise Fault(f"NoState {number}")
    return first, count, states


def form_of(line, number):
    form = TRANSITION.fullmatch(line)
    if not form:
        raise Fault(f"Syntax {number}")
    text = form.group(2).strip(BLANKS)
    if len(text) > 1 and text[0] == text[-1] == '"':
        label = text[1:-1]
    elif '"' in text or "," in text:
        raise Fault(f"Syntax {number}")
    else:
        label = text
    return int(form.group(1)), label, int(form.group(3))


def name_of(label, number):
    """The name, and the text of the guard, None where there is none."""
    text = label.strip(BLANKS)
    guard = None
    if text.endswith("]"):
        text, opened, guard = text[:-1].rpartition("[")
        if not opened:
            raise Fault(f"Label {number}")
    name = text.strip(BLANKS)
    if not name:
        raise Fault(f"Label {number}")
    return name, guard


def read_transition(line, number, header, before, features):
    source, label, target = form_of(line, number)
    _, count, states = header
    if before == count:
        raise Fault(f"WrongCount {number}")
    name, text = name_of(label, number)
    if source >= states or target >= states:
        raise Fault(f"NoState {number}")
    guard = ("true",)
    if text is not None:
        try:
            guard = GuardReader(text, features).whole()
        except Fault as fault:
            raise Fault(f"Guard {number} {line.rindex('[') + 1} {fault}") from None
    return source, name, guard, target


def read_system(text, features):
    """The system of a text, whose bytes are its characters. A fault is raised as it is told."""
    lines = lines_of(text)
    header = None
    transitions = []
    for number, line in enumerate(lines, 1):
        if not line.strip(BLANKS):
            continue
        if header is None:
            header, header_line = header_of(line, number), number
        else:
            transitions.append(read_transition(line, number, header, len(transitions), features))
    if header is None:
        raise Fault(f"NoHeader {max(1, len(lines))}")
    if len(transitions) < header[1]:
        raise Fault(f"WrongCount {header_line}")
    return System(header[0], header[2], transitions)


# ---- rows of facts of texts

PICTURES = {"\n": "/", "\t": "␉", "\r": "␍"}


def bytes_of(row):
    """The text that a row writes, its bytes as characters."""
    text = re.sub(r"<([0-9]+)\|([^>]*)>", lambda m: m.group(2) * int(m.group(1)), row)
    for byte, picture in list(PICTURES.items()) + [(" ", "␠")]:
        text = text.replace(picture, byte)
    return text.encode().decode("latin-1")


def answer_of(word, row):
    """What the program answers to a row."""
    text = bytes_of(row)
    name, _, rest = text.partition("~")
    try:
        system = read_system(rest if word == "find" else text, FEATURES)
    except Fault as fault:
        return str(fault)
    if word == "find":
        actions = system.actions()
        return f"Some({actions.index(name)})" if name in actions else "None"
    if word == "look":
        actions = system.actions()
        steps = [f"; {source} {actions.index(name)} {target}" for source, name, _, target in system.transitions]
        names = "".join(f" {name}" for name in actions)
        return f"{system.first} of {system.states}, {len(actions)} actions{names}{''.join(steps)}"
    return "read" if word == "read" else "system: " + system.text().replace("\n", "/")


def answered(row):
    if not row or row.startswith("#"):
        return row
    word, _, text = row.partition(" ")
    return f"{row} = {answer_of(word, text).encode('latin-1').decode()}"


# ---- random texts

NAMES = ("a", "take", "insert_coin", "send(d1, true)", "send([1, 2])", "a|b(1)", "PUT !1 !TRUE", "tau", "i")
NAMES += ('S !\\"x\\"', "f ![1]", "true", "a [x] b")
GUARDS = ("true", "f", "!f", "f & !g", "f|g", "!(f & g) | r", " f ", "false", "h", "f &", "", "((g))")
BYTES = "()\",[]!&| \t\r\n01299des_aftruex\\"


def random_label(rng):
    name = rng.choice(NAMES)
    guard = rng.choice(GUARDS[:8] if rng.random() < 0.9 else GUARDS)
    brackets = f"{rng.choice(('', ' '))}[{guard}]{rng.choice(('', ' '))}"
    label = name + (brackets if name.endswith("]") or rng.random() < 0.4 else "")
    if any(sign in label for sign in '",') or rng.random() < 0.7:
        return f'"{rng.choice(("", "", " "))}{label}"'
    return label


def random_text(rng):
    states, count = rng.randint(1, 12), rng.randint(0, 6)
    told = count if rng.random() < 0.95 else rng.randint(0, 7)

    def spread(*parts):
        """The parts, with blanks between them and at both ends."""
        return "".join(rng.choice(("", "", " ", "\t")) + str(part) for part in (*parts, ""))

    lines = [spread("des", "(", rng.randrange(states), ",", told, ",", states, ")")]
    for _ in range(count):
        lines.append(spread("(", rng.randrange(states), ",", random_label(rng), ",", rng.randrange(states), ")"))
        if rng.random() < 0.05:
            lines.append(spread())
    return "".join(line + rng.choice(("\n", "\n", "\n", "\r\n")) for line in lines)


def mutated(rng, text, bytes_=BYTES):
    for _ in range(rng.choice((0, 1, 1, 1, 2, 3))):
        at, end = rng.randrange(len(text) + 1), rng.randint(0, 2)
        text = text[:at] + rng.choice(("", rng.choice(bytes_), rng.choice(bytes_))) + text[at + end:]
    return text


def row_of(text):
    for byte, picture in PICTURES.items():
        text = text.replace(byte, picture)
    return text[:-1] + "␠" if text.endswith(" ") else text


def compare(program, cases, seed):
    """Lets the program answer the rows of random texts, and tells where the answers differ."""
    rng = random.Random(seed)
    rows = ["write " + row_of(mutated(rng, random_text(rng))) for _ in range(cases)]
    with tempfile.TemporaryDirectory() as folder:
        for table in os.listdir(f"{TOP}/crates/vpg_text_rows/data"):
            open(f"{folder}/{table}", "w").close()
        with open(f"{folder}/systems", "w") as file:
            file.write("".join(row + "\n" for row in rows))
        done = subprocess.run([os.path.abspath(program)], cwd=folder, capture_output=True, check=True)
    told = [line for line in done.stdout.decode().split("\n") if line.startswith("write ")]
    wanted = [answered(row) for row in rows]
    faults = {}
    for row, want in zip(rows, wanted):
        kind = want[len(row) + 3:].split()[0]
        faults[kind] = faults.get(kind, 0) + 1
    different = [(a, b) for a, b in zip(told, wanted) if a != b]
    print(f"{cases} texts, seed {seed}: {len(told)} answers, {len(different)} differences; {sorted(faults.items())}")
    for got, want in different[:10]:
        print(f"got    {got}\nwanted {want}")
    return 1 if different or len(told) != cases else 0


# ---- products

def guard_holds(guard, product):
    kind = guard[0]
    if kind == "feature":
        return guard[1] in product
    if kind == "not":
        return not guard_holds(guard[1], product)
    if kind in ("and", "or"):
        return (all if kind == "and" else any)(guard_holds(part, product) for part in guard[1])
    return kind == "true"


def reachable_part(system, product):
    """What can be reached in the system of a product: how many states, numbered as they are found, and the steps."""
    outgoing = {}
    for s, name, guard, t in system.transitions:
        if guard_holds(guard, product):
            outgoing.setdefault(s, []).append((name, t))
    numbers, found, steps = {system.first: 0}, [system.first], []
    for s in found:
        for name, t in outgoing.get(s, ()):
            if t not in numbers:
                numbers[t] = len(numbers)
                found.append(t)
            steps.append((numbers[s], name, numbers[t]))
    return len(found), tuple(steps)


def held_at_first(part, requirements):
    """The requirements that hold at the first state of such a part."""
    sets = PlainSystem(*part).entries(requirements)
    return {name for name, where in sets.items() if where & 1}


def products_of(d):
    """The products of a diagram, as sets of names, feature by feature, with a feature before without it."""
    rows = [()]
    for last in range(len(d.names)):
        clauses = [clause for clause in d.clauses if max(f for f, _ in clause) == last]
        counts = [count for count in d.counts if max(count[0], *count[1]) == last]
        rows = [row + (has,) for row in rows for has in (True, False)]
        rows = [p for p in rows if all(any(p[f] == value for f, value in clause) for clause in clauses)]
        rows = [p for p in rows if all(not p[f] or low <= sum(p[c] for c in of) <= high for f, of, low, high in counts)]
    return [frozenset(name for name, has in zip(d.names, p) if has) for p in rows]


class FileFault(Exception):
    pass


def read_as(word, reader, *texts):
    """What is read; its fault stands behind the word of the file."""
    try:
        return reader(*texts)
    except Fault as fault:
        raise FileFault(f"{word} {fault}") from None


class Family:
    """A system and its requirements, and in which products each holds at the first state. Products in which the same
    can be reached are looked at once; `each` may look at several systems at a time."""

    def __init__(self, system, requirements, diagram, each=map):
        self.d = oracle.read_diagram(diagram)
        self.system = read_as("system", read_system, system, self.d.names)
        self.requirements = read_as("requirements", read_requirements, requirements)
        self.names = [name for name, _ in self.requirements]
        parts = {product: reachable_part(self.system, product) for product in products_of(self.d)}
        different = list(dict.fromkeys(parts.values()))
        held = dict(zip(different, each(functools.partial(held_at_first, requirements=self.requirements), different)))
        self.products = {product: held[part] for product, part in parts.items()}

    def left(self, choices):
        """The products that agree with these decisions, and what holds in each."""
        signs = [(self.d.names[f], value) for f, value in choices]
        return {p: held for p, held in self.products.items() if all((name in p) == value for name, value in signs)}


def read_file(path):
    with open(path, encoding="latin-1", newline="") as file:
        return file.read()


def tell_products(paths):
    family = Family(*map(read_file, paths))
    count = len(family.products)
    print(f"{family.system.states} states, {len(family.system.transitions)} transitions, {count} products")

    def shared(sets):
        """The features that all these products have, or lack, and not all of the family."""
        names = [name for name in family.d.names if len({name in p for p in family.products}) == 2]
        signs = {name: {name in p for p in sets} for name in names}
        return "".join(f" {'+' if True in signs[name] else '-'}{name}" for name in names if len(signs[name]) == 1)

    for name in family.names:
        holds = [p for p, held in family.products.items() if name in held]
        fails = [p for p, held in family.products.items() if name not in held]
        print(f"{name}: holds in {len(holds)}; all of them{shared(holds)}; all others{shared(fails)}")


def asserted(family, script):
    """For each assertion of a script about an entry: its words, in how many products it holds and how many are left
    there, and those of its words that are wrong."""
    desk = oracle.Desk([], family.d)
    for line in script.splitlines():
        words = [word for word in line.split() if not word.endswith(":")]
        if words[:1] == ["assert"] and words[1] in family.names:
            left = family.left(desk.choices())
            holding = sum(words[1] in held for held in left.values())
            true = {"hopeless": holding == 0, "possible": holding > 0, "sure": holding == len(left)}
            true["unsure"] = not true["sure"]
            yield words, holding, len(left), [word for word in words[2:] if not true[word]]
        elif words[:1] and words[0] in ("select", "exclude", "retract", "reset", "undo", "redo", "keep", "forget"):
            desk.carry_out(words)


def tell_asserts(paths):
    """Holds each assertion of a script about an entry to the products that are left there."""
    faults = 0
    for words, holding, left, wrong in asserted(Family(*map(read_file, paths[:3])), read_file(paths[3])):
        faults += len(wrong)
        print(f"{' '.join(words)}: holds in {holding} of {left}{', WRONG' if wrong else ''}")
    return 1 if faults else 0


# ---- random families

# names of actions, and how formulas may write them
ACTIONS = {
    "a": ("a", '"a"'),
    "b": ("b",),
    "can": ("can", '"can"'),
    "send(d1, true)": ("send(d1, true)", "send(d1,true)", "send( d1 ,\ttrue )", '"send(d1, true)"'),
    "send(d1,true)": ("send(d1, true)", '"send(d1,true)"'),
    "a|b(1)": ("a|b(1)", '"a|b(1)"'),
    "PUT !1 !TRUE": ('"PUT !1 !TRUE"',),
    'S !\\"x\\"': ('"S !\\"x\\""',),
    "f ![1]": ('"f ![1]"',),
    "7": ('"7"',),
}
FORMULA_BYTES = "()<>[]!&|=+*.;\"%\\ \n\tXYab1_,mutrue"
PREFIXES = ("always", "never", "possibly", "inevitably", "again")


def random_system(rng, names):
    """The text of a small system over these features, and the actions that it may have."""
    states, actions = rng.randint(1, 5), rng.sample(sorted(ACTIONS), rng.randint(1, 3))
    actions += ["send(d1,true)"] * ("send(d1, true)" in actions and "send(d1,true)" not in actions)
    lines = []
    for _ in range(rng.randint(0, 2 * states + 2)):
        label = rng.choice(actions)
        if rng.random() < 0.5 or label.endswith("]"):
            label += f" [{oracle.random_guard(rng, names, 1) if rng.random() < 0.8 else 'true'}]"
        lines.append(f'({rng.randrange(states)}, "{label}", {rng.randrange(states)})')
    return "".join(line + "\n" for line in [f"des ({rng.randrange(states)}, {len(lines)}, {states})"] + lines), actions


def random_action(rng, actions, depth=1):
    kind = rng.random()
    if kind < 0.25 or depth < 0:
        return ("any",)
    if kind < 0.75:
        name = rng.choice(ACTIONS[rng.choice(actions)])
        return ("action", True, name[1:-1]) if name[0] == '"' else ("action", False, name)
    if kind < 0.8:
        return ("none",)
    if kind < 0.9:
        return ("other", random_action(rng, actions, depth - 1))
    return (rng.choice(("both", "either")), *(random_action(rng, actions, depth - 1) for _ in range(2)))


def random_path(rng, actions, depth=2):
    kind = rng.random()
    if kind < 0.5 or depth == 0:
        return random_action(rng, actions)
    if kind < 0.75:
        return (rng.choice(("star", "star", "plus")), random_path(rng, actions, depth - 1))
    return (rng.choice(("sequence", "choice")), *(random_path(rng, actions, depth - 1) for _ in range(2)))


def random_formula(rng, depth, actions, earlier, signs=(), sign=False):
    """A formula in which a variable stands under an even number of negations. `signs` has the pairs of the variables
    that are bound here and whether that was under an odd number, the innermost first."""
    kind, more = rng.random(), lambda *at: random_formula(rng, depth - 1, actions, earlier, *(at or (signs, sign)))
    usable = [name for name, bound in dict(reversed(signs)).items() if bound == sign]
    if depth == 0 or kind < 0.1:
        if usable and rng.random() < 0.85:
            return ("named", rng.choice(usable), 0)
        if earlier and rng.random() < 0.5 and not signs:
            return ("named", rng.choice(earlier), 0)
        action = random_action(rng, actions)
        return rng.choice((("true",), ("false",), ("can", action), ("will", action), ("deadlock_free",)))
    if kind < 0.18:
        return ("not", more(signs, not sign))
    if kind < 0.25:
        return ("implies", more(signs, not sign), more())
    if kind < 0.4:
        return (rng.choice(("and", "or")), more(), more())
    if kind < 0.65:
        return (rng.choice(("some", "every")), random_path(rng, actions), more())
    if kind < 0.75:
        word = rng.choice(PREFIXES)
        return (word, more(signs, sign != (word == "never")))
    if kind < 0.8:
        return ("after", random_action(rng, actions), more())
    name = rng.choice("XYZ")
    return (rng.choice(("mu", "nu")), name, more(((name, sign),) + signs, sign))


def path_words(rng, path, level=0):
    """The words of a regular formula where those of this level stand without parentheses."""
    kind = path[0]
    if kind in ("any", "none"):
        return ["true" if kind == "any" else "false"]
    if kind == "action":
        return [f'"{path[2]}"' if path[1] else path[2]]
    own, sign = {"choice": (0, "+"), "sequence": (1, "."), "star": (2, "*"), "plus": (2, "+"), "either": (3, "||"),
                 "both": (4, "&&"), "other": (5, "!")}[kind]
    if own < level or rng.random() < 0.05:
        return ["(", *path_words(rng, path), ")"]
    if kind == "other":
        return ["!", *path_words(rng, path[1], 5)]
    if kind in ("star", "plus"):
        return [*path_words(rng, path[1], 2), sign]
    return [*path_words(rng, path[1], own), sign, *path_words(rng, path[2], own + 1)]


def formula_words(rng, f, level=0, is_last=True):
    """The words of a formula. A fixpoint stands without parentheses only where nothing follows it."""
    kind, words = f[0], []
    own = {"implies": 0, "or": 1, "and": 2}.get(kind, 3)
    if own < level or kind in ("mu", "nu") and not is_last or rng.random() < 0.05:
        return ["(", *formula_words(rng, f), ")"]
    if own < 3:
        left, right = (1, 0) if kind == "implies" else (own, own + 1)
        sign = {"implies": "=>", "or": "||", "and": "&&"}[kind]
        return [*formula_words(rng, f[1], left, False), sign, *formula_words(rng, f[2], right, is_last)]
    if kind == "named":
        return [f[1]]
    if kind in ("true", "false"):
        return [kind]
    if kind == "deadlock_free":
        return ["deadlock", "free"]
    if kind in ("mu", "nu"):
        return [kind, f[1], ".", *formula_words(rng, f[2])]
    if kind in ("some", "every"):
        opening, closing = "<>" if kind == "some" else "[]"
        words = [opening, *path_words(rng, f[1]), closing]
    elif kind in ("can", "will", "after"):
        words = [kind, *path_words(rng, f[1], 5)]
    else:
        words = {"not": ["!"], "again": ["again", "and", "again"]}.get(kind, [kind])
    return words if kind in ("can", "will") else words + formula_words(rng, f[-1], 3, is_last)


def spaced(rng, words):
    """The text of these words, with blanks and comments where they are free."""
    text = ""
    for word in words:
        must = text and (text[-1] in NAME_BYTES or text[-1] == ")") and (word[0] in NAME_BYTES or word[0] == "(")
        gap = rng.choice(("", "", " ", " ", "\n", "\t", " % 7 \" ( \n"))
        text += (gap or " " if must else gap) + word
    return text + rng.choice(("", "\n", " % the end"))


def bare(f):
    """The formula without the places of its names."""
    return (*f[:2], 0) if f[0] == "named" else tuple(bare(it) if isinstance(it, tuple) else it for it in f)


def random_requirements(rng, actions):
    """The text of one formula, or of some entries."""
    count = rng.choice((0, 1, 2, 3))
    entries = []
    for k in range(count or 1):
        earlier = [name for name, _ in entries]
        name = rng.choice(("safe", "live", "r1", "X", "Y")) + str(k) if count else "requirement"
        entries.append((name, random_formula(rng, rng.randint(1, 5), actions, earlier)))
    words = []
    for name, f in entries:
        words += [name, "=", *formula_words(rng, f), ";"] if count else formula_words(rng, f)
    text = spaced(rng, words)
    assert [(name, bare(f)) for name, f in read_requirements(text)] == entries, text
    return text


def any_family(rng):
    """The texts of a system, its requirements and a diagram that has products."""
    while True:
        diagram, names = oracle.random_diagram(rng)
        d = oracle.read_diagram(diagram)
        if products_of(d) and not oracle.has_conflict(oracle.closure(d, [])):
            system, actions = random_system(rng, names)
            return system, random_requirements(rng, actions), diagram


def is_divided(texts):
    """Whether some requirement holds in some products and not in all."""
    family = Family(*texts)
    counts = [sum(name in held for held in family.products.values()) for name in family.names]
    return any(0 < count < len(family.products) for count in counts)


def random_family(rng):
    """Such texts; most often with a requirement that divides the products, which few do."""
    texts, tries = any_family(rng), rng.choice((0, 40, 40))
    while tries and not is_divided(texts):
        texts, tries = any_family(rng), tries - 1
    return texts


OPENINGS = (("(", ")"), ("!", ""), ("[a]", ""), ("mu Q.(", ")"), ("always ", ""), ("true=>", ""))


def opened_often(rng, requirements):
    """The requirements with a formula in front in which about as many parts are open as may be."""
    (opening, closing), count = rng.choice(OPENINGS), rng.randint(55, 70)
    at = requirements.find("=") + 1 if re.match(r"\w+\s*=[^>]", requirements) else 0
    return f"{requirements[:at]} ({opening * count}true{closing * count}) && {requirements[at:]}"


def with_entries(rng, requirements):
    """The requirements with about as many entries as there may be, and now and then a name that is there twice."""
    names = [f"e{k}" for k in range(rng.randint(60, 66))]
    names[rng.randrange(len(names))] = rng.choice(("safe0", "live1", "e7", "more"))
    return requirements + "".join(f"\n{name} = true;" for name in names)


def with_negations(rng, requirements):
    """The requirements with some of their variables negated, once or twice."""
    often = lambda m: rng.choice((m[0], m[0], f"!{m[0]}", f"(!{m[0]} => {m[0]})"))
    return re.sub(r"\b[XYZ]\b(?! *[.=])", often, requirements)


def with_slip(rng, texts):
    """The texts of a family with a slip in the system or in the requirements, most often bytes that are changed."""
    system, requirements, diagram = texts
    kind = rng.randrange(16)
    if kind < 3:
        requirements = (opened_often, with_entries, with_negations)[kind](rng, requirements)
    elif kind == 3:
        system = system.replace("[", "[" + rng.choice("(!") * rng.randint(60, 70), 1)
    elif kind == 4:
        system = re.sub(r"\bf[0-9]\b", lambda m: m[0] * rng.choice((1, 1, 1, 2)), system)
    elif kind < 10:
        system = mutated(rng, system)
    else:
        requirements = mutated(rng, requirements, FORMULA_BYTES)
    return system, requirements, diagram


# ---- random words

STANDING_FOR = {"NAME": ("X", "Y"), "ACTION": ("a", "b", '"a"', "send(d1)", "a|b(1)", "mu")}
FORMULA_WORDS = sorted(it for symbol in {part.strip("^") for rule in RULES for part in rule if part not in RULES_OF}
                       for it in STANDING_FOR.get(symbol, (symbol,)))
OTHER_WORDS = ("&", "|", "=", ";", '"', "7", "_" * 65, "f", "Z", "a|b(", "b(1)|a(" + "(" * 64)
FRONTS = ("!", "(", "[ a ]", "< a >", "mu X .", "nu Y .", "true =>", "always", "again and again", "after a")
LAST_FRONTS = ("[", "can", "after", "will", "!", "mu", "again")


def random_front(rng):
    """Words behind which about as many parts are open as may be."""
    words, count, of_paths = [], rng.randint(58, 66), rng.randint(0, 9)
    fronts = rng.sample(FRONTS, rng.randint(1, 3))
    for _ in range(count - of_paths):
        words += rng.choice(fronts).split()
    return words + [rng.choice(LAST_FRONTS)] + [rng.choice("(!") for _ in range(of_paths)]


def goes_on_by(rng, chart):
    """A word with which the words of a chart go on."""
    while True:
        word = rng.choice(FORMULA_WORDS)
        if chart.step(word):
            return word


def random_words(rng):
    """Words of which most go on to a formula, and in which names are most often bound."""
    words = "nu X . nu Y .".split() if rng.random() < 0.8 else []
    words += random_front(rng) if rng.random() < 0.3 else []
    chart, is_right = Chart(1000), True
    for word in words:
        chart.step(word)
    while not (chart.is_formula and rng.random() < 0.3) and rng.random() < 0.97:
        is_right = is_right and rng.random() < 0.96
        words.append(goes_on_by(rng, chart) if is_right else rng.choice((*FORMULA_WORDS, *OTHER_WORDS)))
    return words


def random_text(rng):
    """The text of such words, now and then with entries around them."""
    words = random_words(rng)
    if rng.random() < 0.3:
        names = [f"e{k}" for k in range(rng.choice((1, 2, 62, 63, 64)))]
        entries = [word for name in names for word in (name, "=", "true", ";")]
        words = entries + [rng.choice(("f", "f", "f", "f", "e0", "7")), "=", *words, *rng.choice(([], [";"]))]
    return spaced(rng, words)


# ---- the program's games and verdicts

FILES = ("system", "requirements", "diagram")


class Wrong(Exception):
    """Says what the program did that it should not."""


def expect(is_so, *words):
    if not is_so:
        raise Wrong(" ".join(map(str, words)))


class Program:
    """A program, carried out on texts in a folder."""

    def __init__(self, path, folder):
        self.path, self.folder = os.path.abspath(path), folder

    def put(self, name, text):
        with open(f"{self.folder}/{name}", "w", encoding="latin-1", newline="") as file:
            file.write(text)

    def carried_out(self, *words):
        words = [self.path, *words]
        return subprocess.run(words, cwd=self.folder, capture_output=True, encoding="latin-1", timeout=600)

    def model(self, texts):
        for name, text in zip(FILES, texts):
            self.put(name, text)
        return self.carried_out("model", *FILES)

    def answers(self, words, script):
        self.put("script", script)
        done = self.carried_out(*words, "script")
        expect(done.returncode == 0, "run ends with", done.returncode, done.stderr)
        return done.stdout.splitlines()


def roots_of(game, family):
    """The identifiers of the entries' first vertices, by their names: `STATE ENTRY: PART`. One that an earlier entry
    has too, or that is `true` or `false`, has not the entry's name."""
    roots, first = {}, f"{family.system.first} "
    for identifier, name in oracle.read_names(game).items():
        entry = name.removeprefix(first).partition(":")[0]
        if name.startswith(first) and entry in family.names and entry not in roots:
            roots[entry] = identifier
    return {**roots, family.names[0]: "0"} if len(family.names) == 1 else roots


def hold_game(game, roots, family):
    """Holds the game of each product to the product's system."""
    read = oracle.read_game(game)
    place = {str(v.identifier): i for i, v in enumerate(read)}
    for product, held in family.products.items():
        won = products.Plain(read, family.d.names, product).solve()[0]
        for name, root in roots.items():
            expect((place[root] in won) == (name in held), name, "at", root, "in", *sorted(product))


def verdicts_in(lines, names):
    """The verdicts that were shown last, of the entries of these names in their order."""
    rows = [line.split() for line in lines]
    shown = [row[3:5] for row in rows if len(row) == 5 and row[0].isdigit()]
    return dict(zip(names, shown[-len(names):]))


def hold_verdicts(program, words, family, shown, rng):
    """Holds verdicts and examples of a run to the products that are left: at first, and of one product alone."""
    asked = [f"show {' '.join(shown.values())}"] + [f"example {it}" for it in shown.values()]
    lines = program.answers(words, "\n".join(["settle"] + asked) + "\n")
    examples = [line.split() for line in lines if line == "none" or line.startswith("product ")]
    expect(len(examples) == len(shown), "an example for each entry", *lines)
    for (name, verdict), example in zip(verdicts_in(lines, shown).items(), examples):
        holding = [p for p, held in family.products.items() if name in held]
        expect(verdict[0] == "possible" or not holding, name, "is not hopeless")
        expect(verdict[1] == "unsure" or len(holding) == len(family.products), name, "is not sure")
        expect(holding if example[0] == "product" else not holding, name, "has the example", *example)
        expect(not holding or frozenset(example[1:]) in holding, name, "fails in the example", *example)
    product = rng.choice(sorted(family.products, key=sorted))
    script = [f"{'select' if name in product else 'exclude'} {name}" for name in family.d.names]
    lines = program.answers(words, "\n".join(script + ["settle", "assert full", asked[0]]) + "\n")
    expect("holds" in lines, "the page is full", *lines)
    for name, verdict in verdicts_in(lines, shown).items():
        wanted = ["possible", "sure"] if name in family.products[product] else ["hopeless", "unsure"]
        expect(verdict == wanted, name, "in", *sorted(product), "is shown as", *verdict)


def hold_family(program, texts, rng, is_run, is_direct):
    """Compares what the program makes of three texts with what is right; returns its fault, or how many roots were
    found. `is_direct`: the script names requirements, and the program makes the game of the run itself."""
    done = program.model(texts)
    try:
        family = Family(*texts)
    except FileFault as fault:
        told = done.stderr.split("\n")[0]
        expect((done.returncode, done.stdout, told) == (1, "", f"vpgdesk: {fault}"), "wanted", fault, "got", told)
        return str(fault).split()[:2]
    expect(done.returncode == 0, "model ends with", done.returncode, done.stderr)
    roots = roots_of(done.stdout, family)
    hold_game(done.stdout, roots, family)
    if is_run and is_direct:
        words = ("run", "--system", "system", "--requirements", "requirements", "diagram")
        hold_verdicts(program, words, family, {name: name for name in family.names}, rng)
    elif is_run and roots:
        program.put("game", done.stdout)
        hold_verdicts(program, ("run", "game", "diagram"), family, roots, rng)
    return ["read", str(len(roots))]


def compare_all(path, cases, seed, has_slips, is_direct):
    """Random families against the program; each tenth, or with slips each hundredth, is run."""
    counts, runs = {}, 100 if has_slips else 10
    for case in range(cases):
        rng = random.Random(f"{seed} {case}")
        texts = random_family(rng)
        if has_slips:
            texts = with_slip(rng, texts)
        with tempfile.TemporaryDirectory() as folder:
            try:
                kind = hold_family(Program(path, folder), texts, rng, case % runs == 0, is_direct)
            except Wrong as why:
                print(f"case {case} of seed {seed}: {why}", *texts, sep="\n")
                return 1
        kind = " ".join(kind) if has_slips else kind[0]
        counts[kind] = counts.get(kind, 0) + 1
    print(f"{cases} cases, seed {seed}, no difference; {sorted(counts.items())}")
    return 0


def hold_fault(program, text):
    """Compares the program's fault of a text of requirements with what is right; returns it."""
    done = program.model(("des (0, 1, 1)\n(0, a, 0)\n", text, "root r\n"))
    try:
        read_requirements(text)
    except Fault as fault:
        told = done.stderr.split("\n")[0]
        expect((done.returncode, told) == (1, f"vpgdesk: requirements {fault}"), "wanted", fault, "got", told)
        return str(fault).split()[0]
    expect(done.returncode == 0, "model ends with", done.returncode, done.stderr)
    return "read"


def compare_faults(path, cases, seed):
    """Random words against the program."""
    counts = {}
    with tempfile.TemporaryDirectory() as folder:
        for case in range(cases):
            text = random_text(random.Random(f"{seed} {case}"))
            try:
                kind = hold_fault(Program(path, folder), text)
            except Wrong as why:
                print(f"case {case} of seed {seed}: {why}", text, sep="\n")
                return 1
            counts[kind] = counts.get(kind, 0) + 1
    print(f"{cases} cases, seed {seed}, no difference; {sorted(counts.items())}")
    return 0


def main():
    words = sys.argv[1:]
    if words[:1] == ["system"]:
        with open(words[1], encoding="latin-1", newline="") as file:
            try:
                sys.stdout.write(read_system(file.read(), words[2:]).text())
            except Fault as fault:
                print(fault)
    elif words == ["--rows"]:
        for row in sys.stdin.read().splitlines():
            print(answered(row))
    elif words[:1] == ["--compare"]:
        sys.exit(compare(words[1], int(words[2]), int(words[3])))
    elif words[:1] == ["products"] and len(words) == 4:
        tell_products(words[1:])
    elif words[:1] == ["asserts"] and len(words) == 5:
        sys.exit(tell_asserts(words[1:]))
    elif words[:1] == ["--faults"] and len(words) == 4:
        sys.exit(compare_faults(words[1], int(words[2]), words[3]))
    elif words[:1] in (["--games"], ["--slips"]) and words[4:] in ([], ["--direct"]):
        sys.exit(compare_all(words[1], int(words[2]), words[3], words[0] == "--slips", len(words) == 5))
    else:
        sys.exit(__doc__)


if __name__ == "__main__":
    main()
