"""Reads requirements and says where they hold, independently of the program; `requirements.py` uses it.

A requirement is a state formula of mCRL2 without data, with regular formulas and this project's words. What it means is
calculated on the system of one product, by what its words say: a regular formula is a relation between states, `always`
asks of all that can be reached, `inevitably` looks for a run that never comes there. Only `mu` and `nu` are iterated.
No game and no normal form is made, so nothing is shared with what is compared.
"""
import functools
import re

MOST_OPEN = 64


class Fault(Exception):
    pass


# ---- requirements: words

KEYWORDS = "true false mu nu always never possibly inevitably again and deadlock free can after will".split()
NAME_BYTES = frozenset("ABCDEFGHIJKLMNOPQRSTUVWXYZabcdefghijklmnopqrstuvwxyz0123456789_")
MOST_ENTRIES = 64
GAP = re.compile(r"(?:[ \t\r\n]|%[^\n]*)*")
RUN = re.compile("[A-Za-z0-9_]*")
VARIABLE = re.compile("[A-Za-z_][A-Za-z0-9_]{0,63}")


def action_end(text, at):
    """Where the action ends that begins here, with arguments and others behind `|`: in front of arguments that do not
    close."""
    opened, before = 0, None
    while at < len(text):
        byte = text[at]
        if opened == 0:
            if byte == "(":
                opened, before = 1, at
            elif byte not in NAME_BYTES and not (byte == "|" and text[at + 1:at + 2] in NAME_BYTES):
                return at
        elif byte == "\n" or byte == "(" and opened == MOST_OPEN:
            return before
        else:
            opened += {"(": 1, ")": -1}.get(byte, 0)
        at += 1
    return before if opened else at


def quote_end(text, at):
    """Where the quotes end that open here; a quote behind `\\` closes nothing, and none may span lines."""
    for end in range(at + 1, len(text)):
        if text[end] == "\n":
            return None
        if text[end] == '"' and (end == at + 1 or text[end - 1] != "\\"):
            return end + 1
    return None


def word_end(text, at):
    """Where the word ends that begins here. It is as long as it can be."""
    if text[at] in NAME_BYTES:
        end = RUN.match(text, at).end()
        return end if text[at:end] in KEYWORDS else action_end(text, at)
    if text[at] == '"':
        return quote_end(text, at) or at + 1
    return at + (2 if text[at:at + 2] in ("=>", "&&", "||") else 1)


def words_of(text):
    """The words and where they begin; last the empty word at the text's end."""
    words, at = [], GAP.match(text).end()
    while at < len(text):
        end = word_end(text, at)
        words.append((text[at:end], at))
        at = GAP.match(text, end).end()
    return words + [("", len(text))]


def is_variable(word):
    return bool(VARIABLE.fullmatch(word)) and word not in KEYWORDS


def label_of(word):
    """The action that a word names: whether it is in quotes, and its bytes; or None."""
    if word.startswith('"'):
        return ("action", True, word[1:-1]) if len(word) > 2 else None
    return ("action", False, word) if word and word[0] in NAME_BYTES and not word[0].isdigit() else None


# ---- requirements: grammar
#
# A line has a form and what it may be. Words in capitals stand for names of variables, and for actions, `true` and
# `false`; behind `^` stands a word that opens a part. A line with `~` is two: without it, and with `'` in its place,
# for what does not end with a fixpoint. So a fixpoint is as long as it can be.

GRAMMAR = """
whole formula
formula disjunction
formula disjunction' ^=> formula
disjunction~ conjunction~
disjunction~ disjunction' || conjunction~
conjunction~ operand~
conjunction~ conjunction' && operand~
operand~ true
operand~ false
operand~ NAME
operand~ deadlock free
operand~ ^( formula )
operand~ ^can action
operand~ ^will action
operand~ ^! operand~
operand~ ^always operand~
operand~ ^never operand~
operand~ ^possibly operand~
operand~ ^inevitably operand~
operand~ ^again and again operand~
operand~ ^after action operand~
operand~ ^< regular > operand~
operand~ ^[ regular ] operand~
operand ^mu NAME . formula
operand ^nu NAME . formula
regular sequence
regular regular + sequence
sequence repetition
sequence sequence . repetition
repetition actions
repetition ^( regular )
repetition repetition *
repetition repetition +
actions conjoined
actions actions || conjoined
conjoined action
conjoined conjoined && action
action ACTION
action ^! action
action ^( actions )
"""
RULES = [tuple(line.replace("~", mark).split())
         for line in GRAMMAR.split("\n")[1:-1] for mark in ("", "'")[:1 + ("~" in line)]]
RULES_OF = {form: [rule for rule in RULES if rule[0] == form] for form, *_ in RULES}


def accepts(symbol, word):
    """Whether a word of the grammar stands for this one."""
    if symbol == "NAME":
        return is_variable(word)
    if symbol == "ACTION":
        return word in ("true", "false") or label_of(word) is not None
    return symbol.removeprefix("^") == word


class Chart:
    """Whether words can go on to a formula with at most so many open parts: Earley's sets, one after each word.

    An item is a rule, how much of it is read, behind which word it began, and how many parts are open there. A set has
    the items that are not yet read, by what comes next and by the number of open parts."""

    def __init__(self, most):
        self.most, self.sets, self.is_formula = most, [], False
        self.add([(RULES[0], 1, 0, 0)])

    def step(self, word):
        """Whether the words can go on with this one behind them. It is then one of them."""
        read = [(rule, dot + 1, start, opened + (symbol[0] == "^"))
                for (symbol, opened), items in self.sets[-1].items() if symbol not in RULES_OF
                if accepts(symbol, word) and (symbol[0] != "^" or opened < self.most)
                for rule, dot, start, _ in items]
        if read:
            self.add(read)
        return bool(read)

    def add(self, items):
        """A set with these items, and with what begins or ends where they stand."""
        awaited, here, todo = {}, len(self.sets), list(items)
        self.sets.append(awaited)
        known = set(todo)
        while todo:
            rule, dot, start, opened = item = todo.pop()
            if dot < len(rule):
                awaited.setdefault((rule[dot], opened), []).append(item)
                more = [(other, 1, here, opened) for other in RULES_OF.get(rule[dot], ())]
            else:
                before = opened - sum(symbol[0] == "^" for symbol in rule)
                more = [(other, at + 1, *rest) for other, at, *rest in self.sets[start].get((rule[0], before), ())]
            todo += [it for it in more if it not in known]
            known.update(more)
        self.is_formula = (RULES[0], 2, 0, 0) in known


def goes_on(words, most):
    return all(map(Chart(most).step, words))


def stop_in(words, end):
    """How many words are right where a formula begins that should end in front of this one, and what is wrong with the
    next; nothing if it is right. The last of the words is the empty one, at the text's end."""
    chart, right = Chart(MOST_OPEN), 0
    while chart.step(words[right]):
        right += 1
    if chart.is_formula and words[right] == end:
        return []
    if goes_on(words[:right + 1], MOST_OPEN + 1):
        return [(right, "TooDeep")]
    assert not goes_on(words[:right + 1], MOST_OPEN + len(words)), words
    return [(right, "Syntax")]


# ---- requirements: trees
#
# Formulas: true, false, named (a variable or an entry, and its place), deadlock_free, can and will (an action formula),
# not, always, never, possibly, inevitably and again (a formula), after, some and every (a regular formula and a
# formula), and, or, implies, mu and nu (a name and a formula). Regular formulas: any, none, action, other, both,
# either; these are the action formulas; sequence, choice, star, plus.

ACTION_FORMULAS = ("any", "none", "action", "other", "both", "either")
IN_FRONT = {"!": "not", "always": "always", "never": "never", "possibly": "possibly", "inevitably": "inevitably"}


class RequirementsReader:
    def __init__(self, text):
        self.words, self.at, self.open = words_of(text), 0, 0
        self.entries, self.scope = [], []

    def peek(self, ahead=0):
        return self.words[min(self.at + ahead, len(self.words) - 1)][0]

    def place(self):
        return self.words[self.at][1]

    def fail(self, at=None, word="Syntax"):
        raise Fault(f"{word} {self.place() if at is None else at}")

    def take(self, word):
        if self.peek() != word or not word:
            self.fail()
        self.at += 1

    def takes(self, word):
        if self.peek() == word:
            self.at += 1
            return True
        return False

    def opened(self, at, inner):
        """What stands inside a part that opens at this place."""
        if self.open == MOST_OPEN:
            self.fail(at, "TooDeep")
        self.open += 1
        read = inner()
        self.open -= 1
        return read

    # entries

    def whole(self):
        """The entries, as pairs of a name and a formula."""
        if not (is_variable(self.peek()) and self.peek(1) == "="):
            self.entries.append(("requirement", self.formula_before("")))
        while self.peek():
            self.entry()
        places = [place for _, f in self.entries for place in negated(f)]
        if places:
            self.fail(min(places), "NegatedVariable")
        return self.entries

    def entry(self):
        name, at = self.peek(), self.place()
        if not is_variable(name):
            self.fail()
        if any(name == other for other, _ in self.entries):
            self.fail(at, "Twice")
        if len(self.entries) == MOST_ENTRIES:
            self.fail(at, "TooMany")
        self.at += 1
        self.take("=")
        formula = self.formula_before(";")
        self.take(";")
        self.entries.append((name, formula))

    # formulas

    def formula_before(self, end):
        """The formula that ends in front of this word. If it goes wrong, the leftmost fault is told: the first unknown
        name, or the word with which no formula goes on."""
        begin, found = self.at, []
        try:
            formula = self.formula()
            if self.peek() == end:
                return formula
        except Fault as fault:
            if str(fault).startswith("UnknownVariable"):
                found = [(self.at - begin, "UnknownVariable")]
        right, word = min(found + stop_in([word for word, _ in self.words[begin:]], end))
        self.fail(self.words[begin + right][1], word)

    def formula(self):
        left = self.joined("||", "or", lambda: self.joined("&&", "and", self.operand))
        at = self.place()
        if not self.takes("=>"):
            return left
        return ("implies", left, self.opened(at, self.formula))

    def joined(self, sign, kind, item):
        left = item()
        while self.takes(sign):
            left = (kind, left, item())
        return left

    def operand(self):
        word, at = self.peek(), self.place()
        if word in ("true", "false"):
            self.at += 1
            return (word,)
        if word == "deadlock":
            self.at += 1
            self.take("free")
            return ("deadlock_free",)
        if word in ("can", "will", "(", "<", "[", "again", "after", "mu", "nu") or word in IN_FRONT:
            self.at += 1
            return self.opened(at, lambda: self.part(word))
        if not is_variable(word):
            self.fail()
        if word not in self.scope and all(word != name for name, _ in self.entries):
            self.fail(at, "UnknownVariable")
        self.at += 1
        return ("named", word, at)

    def part(self, word):
        """What stands behind the word that opens a part."""
        if word in IN_FRONT:
            return (IN_FRONT[word], self.operand())
        if word == "(":
            inner = self.formula()
            self.take(")")
            return inner
        if word in ("<", "["):
            path = self.regular()
            self.take(">" if word == "<" else "]")
            return ("some" if word == "<" else "every", path, self.operand())
        if word == "again":
            self.take("and")
            self.take("again")
            return ("again", self.operand())
        if word in ("mu", "nu"):
            return self.fixpoint(word)
        at = self.place()
        action = self.regular_operand()
        if action[0] not in ACTION_FORMULAS:
            self.fail(at)
        return (word, action, self.operand()) if word == "after" else (word, action)

    def fixpoint(self, kind):
        name = self.peek()
        if not is_variable(name):
            self.fail()
        self.at += 1
        self.take(".")
        self.scope.append(name)
        body = self.formula()
        self.scope.pop()
        return (kind, name, body)

    # regular formulas

    def regular(self):
        return self.joined("+", "choice", lambda: self.joined(".", "sequence", self.repetition))

    def repetition(self):
        inner = self.of_actions("||", "either", lambda: self.of_actions("&&", "both", self.regular_operand))
        while self.peek() == "*" or self.peek() == "+" and not self.starts_operand(1):
            inner = ("star" if self.peek() == "*" else "plus", inner)
            self.at += 1
        return inner

    def starts_operand(self, ahead):
        word = self.peek(ahead)
        return word in ("!", "(") or label_of(word) is not None

    def of_actions(self, sign, kind, item):
        """Items joined by a sign that stands with action formulas alone."""
        left = item()
        while self.peek() == sign:
            if left[0] not in ACTION_FORMULAS:
                self.fail()
            self.at += 1
            at = self.place()
            right = item()
            if right[0] not in ACTION_FORMULAS:
                self.fail(at)
            left = (kind, left, right)
        return left

    def regular_operand(self):
        word, at = self.peek(), self.place()
        if word == "!":
            self.at += 1
            inner_at = self.place()
            inner = self.opened(at, self.regular_operand)
            if inner[0] not in ACTION_FORMULAS:
                self.fail(inner_at)
            return ("other", inner)
        if word == "(":
            self.at += 1
            inner = self.opened(at, self.regular)
            self.take(")")
            return inner
        found = ("any",) if word == "true" else ("none",) if word == "false" else label_of(word)
        if not found:
            self.fail()
        self.at += 1
        return found


def read_requirements(text):
    """The entries of a text, whose bytes are its characters. A fault is raised as it is told."""
    return RequirementsReader(text).whole()


def parts_of(f):
    """The formulas in a formula, and whether each stands under a negation."""
    kind = f[0]
    if kind in ("not", "never"):
        return [(f[1], True)]
    if kind == "implies":
        return [(f[1], True), (f[2], False)]
    if kind in ("and", "or"):
        return [(f[1], False), (f[2], False)]
    if kind in ("some", "every", "after", "mu", "nu"):
        return [(f[2], False)]
    return [(f[1], False)] if kind in ("always", "possibly", "inevitably", "again") else []


def negated(f, signs=(), sign=False):
    """The places of variables under an odd number of negations within their fixpoint. `signs` has the pairs of the
    variables that are bound here and whether that was under an odd number, the innermost first."""
    if f[0] == "named":
        return [f[2]] if dict(reversed(signs)).get(f[1], sign) != sign else []
    if f[0] in ("mu", "nu"):
        signs = ((f[1], sign),) + signs
    return [place for part, turns in parts_of(f) for place in negated(part, signs, sign != turns)]


# ---- meanings

def without_blanks(text):
    return "".join(byte for byte in text if byte not in " \t\r\n")


@functools.lru_cache(maxsize=None)
def permits(formula, action):
    """Whether an action formula permits an action. In quotes bytes are compared, without them all but blanks."""
    kind = formula[0]
    if kind == "action":
        return formula[2] == action if formula[1] else without_blanks(formula[2]) == without_blanks(action)
    if kind == "other":
        return not permits(formula[1], action)
    if kind == "both":
        return permits(formula[1], action) and permits(formula[2], action)
    if kind == "either":
        return permits(formula[1], action) or permits(formula[2], action)
    return kind == "any"


def members(states):
    """The numbers in a set of states, which is the sum of their powers of two."""
    while states:
        lowest = states & -states
        yield lowest.bit_length() - 1
        states ^= lowest


ALL_STEPS = ("any",)


class PlainSystem:
    """The system of a product. A set of states is a number, and a relation has one for each state: where it leads."""

    def __init__(self, states, steps):
        self.states, self.steps = states, steps
        self.all = (1 << states) - 1
        self.singles = [1 << s for s in range(states)]
        self.relations = {}

    def relation(self, path):
        """Between which states the words of a regular formula lead."""
        if path not in self.relations:
            self.relations[path] = self.made(path)
        return self.relations[path]

    def made(self, path):
        kind = path[0]
        if kind == "choice":
            return [a | b for a, b in zip(self.relation(path[1]), self.relation(path[2]))]
        if kind == "sequence":
            return self.through(self.relation(path[1]), self.relation(path[2]))
        if kind == "star":
            return [1 << s | row for s, row in enumerate(closed(self.relation(path[1])))]
        if kind == "plus":
            return closed(self.relation(path[1]))
        rows = [0] * self.states
        for s, name, t in self.steps:
            if permits(path, name):
                rows[s] |= 1 << t
        return rows

    def through(self, first, second):
        """Where one relation leads and then the other."""
        known = {}
        for row in first:
            if row not in known:
                known[row] = 0
                for s in members(row):
                    known[row] |= second[s]
        return [known[row] for row in first]

    def some(self, relation, goal):
        return sum([single for single, row in zip(self.singles, relation) if row & goal])

    def every(self, relation, goal):
        return self.all & ~self.some(relation, self.all & ~goal)

    def reaching(self, rows, goal):
        """The states from which a relation leads to the goal, in no step or more."""
        before, found, fresh = [0] * self.states, goal, goal
        for s, row in enumerate(rows):
            for t in members(row):
                before[t] |= 1 << s
        while fresh:
            earlier = 0
            for t in members(fresh):
                earlier |= before[t]
            fresh = earlier & ~found
            found |= fresh
        return found

    def always(self, goal):
        """The states from which no step or more lead only to the goal."""
        return self.all & ~self.reaching(self.relation(ALL_STEPS), self.all & ~goal)

    def comes(self, goal, path):
        """The states from which each run comes into the goal, or takes a step that is not of this kind. A run that does
        not goes on for ever outside the goal by steps of the kind, or stops there."""
        outside = self.all & ~goal
        kept = [row & outside if outside >> s & 1 else 0 for s, row in enumerate(self.relation(path))]
        endless, before = outside, None
        while endless != before:
            before, endless = endless, self.some(kept, endless)
        stops = outside & ~self.some(self.relation(ALL_STEPS), self.all)
        return self.all & ~self.reaching(kept, endless | stops)

    def meaning(self, f, sets):
        """The states where the formula holds, where the names mean these sets."""
        kind = f[0]
        if kind in ("true", "false"):
            return self.all if kind == "true" else 0
        if kind == "named":
            return sets[f[1]]
        if kind in ("can", "will"):
            return self.some(self.relation(f[1]), self.all) if kind == "can" else self.comes(0, ("other", f[1]))
        if kind == "deadlock_free":
            return self.always(self.some(self.relation(ALL_STEPS), self.all))
        if kind in ("mu", "nu"):
            return self.fixpoint(f, sets)
        inner = [self.meaning(part, sets) for part, _ in parts_of(f)]
        if kind == "not":
            return self.all & ~inner[0]
        if kind in ("and", "or"):
            return inner[0] & inner[1] if kind == "and" else inner[0] | inner[1]
        if kind == "implies":
            return self.all & ~inner[0] | inner[1]
        if kind in ("some", "every"):
            return getattr(self, kind)(self.relation(f[1]), inner[0])
        if kind == "possibly":
            return self.reaching(self.relation(ALL_STEPS), inner[0])
        if kind == "after":
            return self.always(self.every(self.relation(f[1]), inner[0]))
        if kind in ("always", "never"):
            return self.always(inner[0] if kind == "always" else self.all & ~inner[0])
        goal = self.comes(inner[0], ALL_STEPS)
        return goal if kind == "inevitably" else self.always(goal)

    def fixpoint(self, f, sets):
        now = 0 if f[0] == "mu" else self.all
        while True:
            then = self.meaning(f[2], {**sets, f[1]: now})
            if then == now:
                return now
            now = then

    def entries(self, entries):
        """Where each entry holds."""
        sets = {}
        for name, f in entries:
            sets[name] = self.meaning(f, sets)
        return sets


def closed(relation):
    """The transitive closure (Warshall 1962)."""
    rows = list(relation)
    for middle in range(len(rows)):
        beyond, single = rows[middle], 1 << middle
        rows = [row | beyond if row & single else row for row in rows]
    return rows
