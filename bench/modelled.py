#!/usr/bin/env python3
"""The game of a system and its requirements, independently of the program: plain Python, written from definitions.

    python3 bench/modelled.py SYSTEM REQUIREMENTS DIAGRAM > GAME     # as `vpgdesk model` writes it
    python3 bench/modelled.py --run SYSTEM REQUIREMENTS DIAGRAM SCRIPT  # the answers of a script, by `oracle.py`
    python3 bench/modelled.py --compare VPGDESK CASES SEED           # random families: whether `model` writes that game

A requirement becomes a normal form (`along`, `form_of`), its parts stand in one list in Polish notation (`Parts`), and
vertices are numbered as a breadth-first search finds them. A guard that names a feature twice is written in Blake's
form (`sharp`), with a word `--plain` at the end as it was joined. The program may write guards otherwise, as long as
they are as true in each set of features; all else is compared byte by byte.
"""
import collections
import functools
import itertools
import math
import random
import sys
import tempfile

import formulas
import oracle
import requirements

ANY = ("any",)
WORDS = {"true": "true", "false": "false", "and": "&&", "or": "||", "some": "<>", "every": "[]"}


# ---- normal forms: true, false, and, or (two forms), some, every (an action formula and a form), mu, nu (a form), and
# variables, which count the fixpoints between them and their own


def constant(value):
    return ("true",) if value else ("false",)


def joined(is_both, f, g):
    return ("and" if is_both else "or", f, g)


def step(is_every, actions, f):
    return ("every" if is_every else "some", actions, f)


def fixpoint(is_greatest, f):
    return ("nu" if is_greatest else "mu", f)


def shifted(f, within=0):
    """The form where one more fixpoint comes to stand outside so many others."""
    if f[0] == "variable":
        return ("variable", f[1] + (f[1] >= within))
    inner = within + (f[0] in ("mu", "nu"))
    kept = 2 if f[0] in ("some", "every") else 1
    return (*f[:kept], *(shifted(it, inner) for it in f[kept:]))


def star(is_every, again, f):
    return fixpoint(is_every, joined(is_every, shifted(f), again))


def at_all_times(is_every, f):
    return star(is_every, step(is_every, ANY, ("variable", 0)), f)


def coming(sign, actions):
    there = step(sign, ANY, constant(not sign))
    return joined(not sign, there, step(not sign, actions, ("variable", 0)))


def inevitable(sign, f):
    return fixpoint(sign, joined(sign, shifted(f), coming(sign, ANY)))


def along(is_every, path, f):
    """A regular formula in front of a form, for each path or for some."""
    kind = path[0]
    if kind == "sequence":
        return along(is_every, path[1], along(is_every, path[2], f))
    if kind == "choice":
        return joined(is_every, along(is_every, path[1], f), along(is_every, path[2], f))
    if kind in ("star", "plus"):
        often = star(is_every, along(is_every, path[1], ("variable", 0)), f)
        return often if kind == "star" else along(is_every, path[1], often)
    return step(is_every, path, f)


def named(name, entries, sign, around):
    """The form of a name: of a fixpoint around, the innermost first, or of the latest entry."""
    if name in around:
        return ("variable", around.index(name))
    at = max(k for k, entry in enumerate(entries) if entry[0] == name)
    return form_of(entries[at][1], entries[:at], sign, ())


def form_of(f, entries, sign=False, around=()):
    """The normal form of a formula, or of its negation."""
    kind = f[0]
    inner = lambda part, sign=sign, around=around: form_of(part, entries, sign, around)
    if kind in ("true", "false"):
        return constant((kind == "true") != sign)
    if kind == "named":
        return named(f[1], entries, sign, around)
    if kind == "deadlock_free":
        return at_all_times(not sign, step(sign, ANY, constant(not sign)))
    if kind == "can":
        return step(sign, f[1], constant(not sign))
    if kind == "will":
        return fixpoint(sign, coming(sign, ("other", f[1])))
    if kind == "not":
        return inner(f[1], not sign)
    if kind in ("some", "every"):
        return along((kind == "every") != sign, f[1], inner(f[2]))
    if kind in ("always", "never"):
        return at_all_times(not sign, inner(f[1], sign != (kind == "never")))
    if kind == "possibly":
        return at_all_times(sign, inner(f[1]))
    if kind in ("inevitably", "again"):
        comes = inevitable(sign, inner(f[1]))
        return comes if kind == "inevitably" else at_all_times(not sign, comes)
    if kind == "after":
        return at_all_times(not sign, step(not sign, f[1], inner(f[2])))
    if kind in ("and", "or", "implies"):
        return joined((kind == "and") != sign, inner(f[1], sign != (kind == "implies")), inner(f[2]))
    return fixpoint((kind == "nu") != sign, inner(f[2], around=(f[1], *around)))


# ---- parts


class Parts:
    """The parts of all requirements in one list, `true` and `false` first: kind, places of operands, action formula. A
    variable has the place of its fixpoint."""

    def __init__(self, forms):
        self.rows = [["true", [], None], ["false", [], None]]
        self.priorities, self.roots = {}, []
        for form in forms:
            self.roots.append(self.add(form, ()))
            self.rank(self.roots[-1])

    def add(self, f, around):
        place = len(self.rows)
        if f[0] == "variable":
            self.rows.append(["variable", [around[f[1]]], None])
            return place
        row = [f[0], [], f[1] if f[0] in ("some", "every") else None]
        self.rows.append(row)
        inner = (place, *around) if f[0] in ("mu", "nu") else around
        row[1] = [self.add(it, inner) for it in f[2 if row[2] else 1:]]
        return place

    def rank(self, place):
        """Gives each fixpoint here its priority. Returns, for each fixpoint outside whose variable stands here, the
        greatest priority of those between."""
        kind, inner, _ = self.rows[place]
        if kind == "variable":
            return {inner[0]: 0}
        between = {}
        for part in inner:
            for outer, greatest in self.rank(part).items():
                between[outer] = max(greatest, between.get(outer, 0))
        if kind in ("mu", "nu"):
            least = between.pop(place, 0)
            self.priorities[place] = least + (least % 2 != (kind == "mu"))
            between = {outer: max(greatest, self.priorities[place]) for outer, greatest in between.items()}
        return between

    def entry(self, place):
        """The number of the requirement that a part is of."""
        return max(k for k, root in enumerate(self.roots) if root <= place)

    def variable(self, place):
        """How the variable of a fixpoint is written: the fixpoints of a requirement have X, Y, Z, X3, X4 and so on."""
        before = sum(self.roots[self.entry(place)] <= it < place for it in self.priorities)
        return "XYZ"[before] if before < 3 else f"X{before}"


# ---- guards


def either(guards):
    """The `or` of guards, which has the parts of those that are one."""
    if len(guards) == 1:
        return guards[0]
    return ("or", [part for g in guards for part in (g[1] if g[0] == "or" else [g])])


def features_in(guard):
    """The features that a guard names, each as often as it does."""
    if guard[0] == "feature":
        return [guard[1]]
    parts = {"not": guard[1:], "and": guard[-1], "or": guard[-1]}.get(guard[0], ())
    return [name for part in parts for name in features_in(part)]


def implicants(names, is_true):
    """The prime implicants of a truth function of these features, as tuples of pairs: a feature, and whether in."""
    if not names:
        return [()] if is_true(frozenset()) else []
    first, rest = names[0], names[1:]
    with_it = lambda chosen: is_true(chosen | {first})
    both = implicants(rest, lambda chosen: with_it(chosen) and is_true(chosen))
    ins = [((first, True), *cube) for cube in implicants(rest, with_it) if cube not in both]
    outs = [((first, False), *cube) for cube in implicants(rest, is_true) if cube not in both]
    return ins + outs + both


def some_of(kind, empty, parts):
    return (empty,) if not parts else parts[0] if len(parts) == 1 else (kind, parts)


def sharp(guard, names):
    """The guard itself where it names no feature twice; else its Blake form (Blake 1937), unless that is too long."""
    named = features_in(guard)
    if len(set(named)) == len(named) or len(set(named)) > 10:
        return guard
    order = [name for name in names if name in named]
    cubes = implicants(order, lambda chosen: requirements.guard_holds(guard, chosen))
    literal = lambda name, is_in: ("feature", name) if is_in else ("not", ("feature", name))
    blake = [some_of("and", "true", [literal(*it) for it in cube]) for cube in cubes]
    return some_of("or", "false", blake) if len(cubes) <= 64 else guard


# ---- games


class Game:
    """A game: for each vertex its state, its part and its moves, a list of guards for each target. `finish` says how a
    guard is written that was joined."""

    def __init__(self, system, entries, finish):
        self.system, self.names = system, [name for name, _ in entries]
        self.finish, self.finished = finish, {}
        self.parts = Parts([form_of(f, entries[:k]) for k, (_, f) in enumerate(entries)])
        self.steps = {}
        for source, name, guard, target in system.transitions:
            self.steps.setdefault(source, []).append((name, guard, target))
        self.numbers, self.moves = {}, []
        self.roots = [self.number(self.pair(system.first, root)) for root in self.parts.roots]
        for at, pair in self.each():
            self.moves.append({})
            for guard, to in self.moves_of(*pair):
                self.moves[at].setdefault(self.number(to), []).append(guard)

    def each(self):
        """The vertices, also those that are found on the way."""
        self.pairs = list(self.numbers)
        at = 0
        while at < len(self.pairs):
            yield at, self.pairs[at]
            at += 1

    def number(self, pair):
        if pair not in self.numbers:
            self.numbers[pair] = len(self.numbers)
            if hasattr(self, "pairs"):
                self.pairs.append(pair)
        return self.numbers[pair]

    def pair(self, state, place):
        kind, inner, _ = self.parts.rows[place]
        if kind in ("true", "false"):
            return 0, place if place < 2 else ("true", "false").index(kind)
        return state, inner[0] if kind == "variable" else place

    def moves_of(self, state, place):
        kind, inner, actions = self.parts.rows[place]
        if kind in ("some", "every"):
            for name, guard, target in self.steps.get(state, ()):
                if formulas.permits(actions, name):
                    yield guard, self.pair(target, inner[0])
        else:
            for part in inner:
                yield ("true",), self.pair(state, part)

    def finished_guard(self, guard):
        text = requirements.guard_text(guard)
        if text not in self.finished:
            self.finished[text] = self.finish(guard)
        return self.finished[text]

    def line(self, at):
        """The head of an entry of the game's text, its moves as pairs of a target and a guard, and its name."""
        state, place = self.pairs[at]
        kind = self.parts.rows[place][0]
        owner = 1 if kind in ("true", "and", "every") else 0
        word = WORDS.get(kind) or f"{kind} {self.parts.variable(place)}"
        name = word if place < 2 else f"{state} {self.names[self.parts.entry(place)]}: {word}"
        moves = [(to, self.finished_guard(either(guards))) for to, guards in self.moves[at].items()]
        return f"{at} {self.parts.priorities.get(place, 0)} {owner}", moves, name

    def text(self):
        lines = [f"parity {len(self.pairs) - 1};"]
        for head, moves, name in map(self.line, range(len(self.pairs))):
            told = [f"{to}" if g == ("true",) else f"{to}[{requirements.guard_text(g)}]" for to, g in moves]
            lines.append(" ".join(it for it in (head, ",".join(told), f'"{name}"') if it) + ";")
        return "\n".join(lines) + "\n"


def game_of(texts, is_plain=False):
    names = oracle.read_diagram(texts[2]).names
    finish = (lambda guard: guard) if is_plain else lambda guard: sharp(guard, names)
    return Game(requirements.read_system(texts[0], names), formulas.read_requirements(texts[1]), finish)


# ---- traces


class Walk:
    """A walk, depth first, over the vertices of a game: `goes` says where the moves from one lead, `value` is 0, 1 or 2
    where a guard is false, open or true. It goes on from no vertex twice, nor from within 32 side branches."""

    def __init__(self, game, goes, value, most=1000, deepest=32):
        self.game, self.goes, self.value, self.most, self.deepest = game, goes, value, most, deepest
        self.actions = list(dict.fromkeys(name for _, name, _, _ in game.system.transitions))

    def step(self, v, w):
        """The first transition by which the move goes that is there, or else may be there, as a line."""
        state, place = self.game.pairs[v]
        kind, inner, actions = self.game.parts.rows[place]
        if kind not in ("some", "every"):
            return None
        for wanted, mark in ((2, ""), (1, " depends")):
            for name, guard, target in self.game.steps.get(state, ()):
                leads = self.game.pair(target, inner[0]) == self.game.pairs[w]
                if leads and formulas.permits(actions, name) and self.value(guard) == wanted:
                    told = "" if guard == ("true",) else f"[{requirements.guard_text(guard)}]"
                    return f"{state} -{name}{told}-> {target}{mark}"
        return None

    def standing(self, v):
        """What is where nobody moves."""
        state, place = self.game.pairs[v]
        kind, _, actions = self.game.parts.rows[place]
        if kind in ("true", "false"):
            return kind
        if kind not in ("some", "every"):
            return f"no move from {state}"
        asked = [name for name in self.actions if formulas.permits(actions, name)]
        some = " ".join(asked) or "such action"
        return f"no {some if len(asked) < len(self.actions) else 'step'} from {state}"

    def end(self, v, before, depth, first):
        """What ends a visit, or None where the walk goes on."""
        if not self.goes(v):
            return self.standing(v)
        if v not in first:
            return "cut" if depth >= self.deepest else None
        while before is not None and before != first[v]:
            before = self.before[before]
        return f"{'seen' if before is None else 'loop to'} {self.game.pairs[v][0]}"

    def lines(self, start):
        first, self.before, steps = {}, [], 0
        vertices, waiting = [], [(start, None, 0)]
        while waiting and len(vertices) < self.most:
            v, before, depth = waiting.pop(0)
            at, step = len(vertices), None if before is None else self.step(vertices[before], v)
            end = self.end(v, before, depth, first)
            yield from ("  " * depth + line for line in (step, end) if line is not None)
            steps += step is not None
            vertices.append(v)
            self.before.append(before)
            first.setdefault(v, at)
            if end is None:
                depths = [min(depth + 1, self.deepest)] * (len(self.goes(v)) - 1) + [depth]
                waiting = [(w, at, d) for w, d in zip(self.goes(v), depths)] + waiting
        yield f"steps {steps}{' cut' if waiting else ''}"


# ---- answers


class Table(oracle.Table):
    """The measures of a page's game as numbers, whose least ones are found from who wins where (Zielonka 1998)."""

    def __init__(self, game, values, dual, cautious=False):
        super().__init__(game, values, dual, cautious)
        self.most, blocks = self.top(), {}
        for p in set(self.priority):
            blocks[p] = math.prod(c + 1 for q, c in zip(self.odd, self.count) if q < p)
        self.block = [blocks[p] for p in self.priority]
        self.before = [[] for _ in self.kept]
        for v, kept in enumerate(self.kept):
            for w in kept:
                self.before[w].append(v)

    def lift(self, table, v):
        block = self.block[v]
        up = block if self.priority[v] % 2 else 0
        numbers = [min(self.most, table[w] // block * block + up) for w in self.kept[v]]
        return min(numbers, default=self.most) if self.even[v] else max(numbers, default=0)

    def attracted(self, even, goal, inside):
        """The vertices inside from which a player forces a visit to the goal, or leaves the other without a move."""
        pull, todo = set(goal), list(goal)
        left = {}
        while todo:
            for v in self.before[todo.pop()]:
                if v not in inside or v in pull:
                    continue
                if self.even[v] != even:
                    left[v] = left.get(v, sum(w in inside for w in self.kept[v])) - 1
                    if left[v]:
                        continue
                pull.add(v)
                todo.append(v)
        return pull

    def won(self, inside):
        """The vertices inside that Even wins, where each has a move."""
        if not inside:
            return set()
        high = max(self.priority[v] for v in inside)
        even = high % 2 == 0
        rest = inside - self.attracted(even, {v for v in inside if self.priority[v] == high}, inside)
        inner = self.won(rest)
        lost = rest - inner if even else inner
        if not lost:
            return set(inside) if even else set()
        lost = self.attracted(not even, lost, inside)
        inner = self.won(inside - lost)
        return inner if even else inner | lost

    def won_by_even(self):
        inside, won = set(range(len(self.kept))), set()
        for even in (True, False):
            stuck = {v for v in inside if self.even[v] != even and not any(w in inside for w in self.kept[v])}
            caught = self.attracted(even, stuck, inside)
            inside -= caught
            won |= caught if even else set()
        return won | self.won(inside)

    def least(self):
        """The least measures that no lift raises."""
        won = self.won_by_even()
        table = [0 if v in won else self.most for v in range(len(self.kept))]
        todo, waits = collections.deque(sorted(won, reverse=True)), set(won)
        while todo:
            v = todo.popleft()
            waits.discard(v)
            number = self.lift(table, v)
            if number > table[v]:
                table[v] = number
                more = [w for w in self.before[v] if w in won and w not in waits]
                todo.extend(more)
                waits.update(more)
        return table


class Desk(oracle.Desk):
    """A desk whose `settle` has no limit. Products are looked for by brute force, among those of requirements."""

    def __init__(self, texts, each=map, is_plain=False):
        self.family, self.model = requirements.Family(*texts, each), game_of(texts, is_plain)
        super().__init__(oracle.read_game(self.model.text()), self.family.d)
        self.requirement_at = dict(zip(map(str, self.model.roots), self.model.names))
        self.known_tops = functools.lru_cache(maxsize=None)(self.is_top)

    def games(self):
        values = self.known_values(oracle.closure(self.d, self.choices()))
        return [Table(self.game, values, 0), Table(self.game, values, 1)]

    def swept(self, rounds):
        return [game.least() for game in self.games()]

    def is_top(self, t, v, choices):
        known = oracle.closure(self.d, list(choices))
        if oracle.has_conflict(known):
            return True
        return v not in Table(self.game, self.known_values(known), t).won_by_even()

    def makes_top(self, t, v):
        return lambda choices: self.known_tops(t, v, tuple(choices))

    def trace(self, identifier):
        """How the verdict at a vertex comes about: a walk along the winner's moves, in steps of the system."""
        v = self.place(int(identifier))
        tops = self.tops(v)
        if not any(tops):
            return f"possible {identifier} unsure"
        mover = 1 if tops[0] else 0
        values = self.known_values(oracle.closure(self.d, self.choices()))
        game, moves = oracle.Table(self.game, values, mover, True), self.winning(mover, v)
        goes = lambda i: [w for w in game.kept[i] if not game.even[i] or moves.get(i) == w]
        walk = Walk(self.model, goes, lambda guard: oracle.parse_guard(requirements.guard_text(guard))(values))
        return "\n".join([f"{('sure', 'hopeless')[mover]} {identifier}", *walk.lines(v)])

    def met(self, identifier, t, decided=None):
        name = self.requirement_at[str(identifier)]
        for product, held in self.family.left(self.choices() if decided is None else decided).items():
            if (name in held) == (t == 0):
                yield tuple(it in product for it in self.d.names)


def answers(texts, script, each=map, is_named=False, is_plain=False):
    """What the program answers to a script that calls vertices by the names of requirements."""
    desk = Desk(texts, each, is_plain)
    shown = oracle.read_names(desk.model.text()) if is_named else {}
    numbers = {name: number for number, name in desk.requirement_at.items()}
    out = []
    for line in script.splitlines():
        words = [word for word in line.split() if not word.endswith(":")]
        if words and not words[0].startswith("#"):
            is_of_feature = words[0] == "why" and words[1] in desk.d.names
            called = words if is_of_feature else [numbers.get(word, word) for word in words]
            out.append(oracle.with_names(called[0], oracle.answered(desk, called), shown))
    return "".join(line + "\n" for line in out)


# ---- comparison


def are_alike(one, other):
    """Whether two guards are as true in each set of features."""
    names = sorted({*features_in(one), *features_in(other)})
    sets = [frozenset(it) for size in range(len(names) + 1) for it in itertools.combinations(names, size)]
    return all(requirements.guard_holds(one, it) == requirements.guard_holds(other, it) for it in sets)


def differences(game, told, names):
    """The lines of a game's text that differ from it. Names are compared up to the part, those of fixpoints whole."""
    found = told.split("\n")[:-1]
    front = [f"parity {len(game.pairs) - 1};"] + ["start 0;"] * (len(game.names) == 1)
    if len(found) != len(front) + len(game.pairs) or found[: len(front)] != front:
        yield found[:2], front
        return
    for text, (head, moves, name) in zip(found[len(front) :], map(game.line, range(len(game.pairs)))):
        body, _, label = text.removesuffix('";').rpartition(' "')
        rest = body.removeprefix(head).lstrip(" ")
        parts = [it.removesuffix("]").partition("[") for it in rest.split(",") if it]
        read = [(it[0], requirements.GuardReader(it[2] or "true", names).whole()) for it in parts]
        before, mark, _ = name.rpartition(": ")
        is_same = body == (f"{head} {rest}" if rest else head)
        is_whole = not mark or name.split(": ")[-1][:2] in ("mu", "nu")
        is_same = is_same and (label == name if is_whole else label.startswith(before + mark))
        is_same = is_same and [it[0] for it in read] == [str(to) for to, _ in moves]
        if not is_same or not all(are_alike(one[1], other[1]) for one, other in zip(read, moves)):
            yield text, (head, moves, name)


def compare(path, cases, seed):
    for case in range(cases):
        texts = requirements.any_family(random.Random(f"{seed} {case}"))
        with tempfile.TemporaryDirectory() as folder:
            done = requirements.Program(path, folder).model(texts)
        wrong = list(differences(game_of(texts), done.stdout, oracle.read_diagram(texts[2]).names))
        if wrong or done.returncode != 0:
            print(f"case {case} of seed {seed}:", *texts, *wrong[:3], done.stderr, sep="\n")
            return 1
    print(f"{cases} games, seed {seed}: no difference")
    return 0


def main(words):
    is_plain = words[-1:] == ["--plain"]
    words = words[: len(words) - is_plain]
    if words[:1] == ["--compare"] and len(words) == 4:
        return compare(words[1], int(words[2]), words[3])
    is_run = words[:1] == ["--run"] and len(words) == 5
    if not is_run and len(words) != 3:
        sys.exit(__doc__)
    texts = [requirements.read_file(path) for path in words[is_run:][:3]]
    if is_run:
        sys.stdout.write(answers(texts, requirements.read_file(words[4]), is_plain=is_plain))
    else:
        sys.stdout.write(game_of(texts, is_plain).text())
    return 0


if __name__ == "__main__":
    sys.exit(main(sys.argv[1:]))
