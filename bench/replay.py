#!/usr/bin/env python3
"""Sessions at random in threads, and the same calls on a book of whole pages.

    replay.py VPG_PLAY [CALLS] [SEED]      runs VPG_PLAY on families until there were so many calls (100,000)
    replay.py --check OUTPUT GAME DIAGRAM  compares the calls of one run; `--check OUTPUT` those of the stored one

In a run 1 to 63 sessions, each in a thread of its own, decide, retract, reset, undo, redo, keep, forget, take orders,
raise them by one lifter or several, commit, look, read by watches, and hand tokens, harvests and fronts on to one
another. Each tells its calls, with their answers and their places in the log. Here the calls of all are put in the
order of these places, one for each place, and made again, one after another, on a book that copies whole pages. It has
to give each answer, refusals and their numbers too. Beside that:

- A session's calls stand behind its front, and fronts that meet become the longer one. A call with a front that has
  not the session's last call is refused as doubled.
- An order that is raised becomes what its lifts, rounds or lifters may make of it, and what is committed was raised
  before, by that session or another.
- What a watch reads is true of the page after so many calls. Its reads never go back, and have each change of the
  session itself.
- No token is missing at the end.

The closure and the lifts are those of oracle.py; the book is its own. Prints how many calls of each kind there were,
or what differs, and exits with 1 then.
"""
import collections
import os
import random
import re
import subprocess
import sys
import tempfile

sys.dont_write_bytecode = True
import oracle  # noqa: E402

TOP = os.path.join(os.path.dirname(os.path.abspath(__file__)), "..")
EXAMPLES = os.path.join(TOP, "examples")
STORED = os.path.join(TOP, "crates", "vpg_play", "src", "main.rt")
CHANGES = ("select", "exclude", "retract", "reset", "undo", "redo", "commit")
SPENDS = ("undo", "redo", "keep", "forget")


class Family:
    """What decisions make known, and the tables of a page's two games."""

    def __init__(self, game, diagram):
        self.game, self.diagram = oracle.read_game(game), oracle.read_diagram(diagram)
        self.closures, self.games, self.least = {}, {}, {}

    def known(self, choices):
        key = frozenset(choices)
        if key not in self.closures:
            self.closures[key] = frozenset(oracle.closure(self.diagram, list(choices)))
        return self.closures[key]

    def tables_of(self, choices):
        known = self.known(choices)
        if known not in self.games:
            names = enumerate(self.diagram.names)
            values = {name: 2 if (f, True) in known else 0 if (f, False) in known else 1 for f, name in names}
            self.games[known] = [oracle.Table(self.game, values, dual) for dual in (0, 1)]
        return self.games[known]

    def least_tables(self, choices):
        known = self.known(choices)
        if known not in self.least:
            tables = []
            for game in self.tables_of(choices):
                table = [0] * len(self.game)
                while game.round(table):
                    pass
                tables.append(table)
            self.least[known] = tables
        return self.least[known]


class Page:
    """Entries, with the decisions and the tables that they give. A page never changes."""

    def __init__(self, family, entries):
        self.family, self.entries = family, entries
        self.decided = [entry for entry in entries if entry[0] == "decide"]
        self.tables = [[0] * len(family.game), [0] * len(family.game)]
        for entry in entries:
            if entry[0] != "decide":
                self.tables[entry[0] == "dual"][entry[1]] = entry[3]

    def choices(self):
        return [(feature, value) for _, feature, value, _, _ in self.decided]

    def signed(self):
        return [signed(*choice) for choice in self.choices()]

    def games(self):
        return self.family.tables_of(self.choices())

    def is_settled(self):
        return all(game.settled(table) for game, table in zip(self.games(), self.tables))

    def verdicts(self):
        tops = [[value == game.top() for value in table] for game, table in zip(self.games(), self.tables)]
        return " ".join(f"{'hopeless' if a else 'possible'} {'sure' if b else 'unsure'}" for a, b in zip(*tops))

    def written_tables(self):
        return " and ".join(" ".join(map(str, table)) for table in self.tables)

    def written(self):
        words = []
        for entry in self.entries:
            if entry[0] == "decide":
                words += ["decide", signed(entry[1], entry[2]), *map(str, entry[3:]), "/"]
            else:
                words += [*map(str, entry[:4]), *(signed(*choice) for choice in entry[4]), "/"]
        return " ".join(words + ["tables", self.written_tables()])


def signed(feature, value):
    return f"{'+' if value else '-'} {feature}"


def tables_in(words):
    cut = words.index("and")
    return [list(map(int, words[:cut])), list(map(int, words[cut + 1:]))]


def choices_in(words):
    return [(int(feature), sign == "+") for sign, feature in zip(words[::2], words[1::2])]


class Book:
    """Past, present and future pages, each change with its serial, and the tokens that are out."""

    def __init__(self, family):
        self.family, self.page = family, Page(family, [])
        self.past, self.future, self.changes = [], [], 0
        self.undos, self.redos = set(), set()
        self.makers = {}  # the session of each change, by its serial

    def change(self, session, entries):
        self.changes += 1
        self.makers[self.changes] = session
        self.past.append((self.changes, self.page))
        self.page, self.future = Page(self.family, entries), []
        self.undos.add(self.changes)
        return f"done {self.changes}"

    def decide(self, session, feature, value):
        for _, decided, _, serial, _ in self.page.decided:
            if decided == feature:
                return f"refused AlreadyDecided {serial}"
        if oracle.has_conflict(self.family.known(self.page.choices() + [(feature, value)])):
            return f"refused Conflict {feature}"
        return self.change(session, self.page.entries + [("decide", feature, value, self.changes + 1, session)])

    def retract(self, session, feature):
        if all(decided != feature for _, decided, _, _, _ in self.page.decided):
            return "refused NotDecided"
        return self.change(session, self.kept(lambda decided: decided == feature))

    def reset(self, session):
        if not self.page.decided:
            return "refused NotDecided"
        return self.change(session, self.kept(lambda decided: True))

    def kept(self, is_retracted):
        """The entries that stay once the decisions on such features are retracted."""
        kept, tables = [], [[0] * len(self.family.game), [0] * len(self.family.game)]
        for entry in self.page.entries:
            if entry[0] == "decide":
                kept += [] if is_retracted(entry[1]) else [entry]
            elif not any(is_retracted(assumed) for assumed, _ in entry[4]):
                table, vertex = tables[entry[0] == "dual"], entry[1]
                kept.append((entry[0], vertex, table[vertex], entry[3], entry[4]))
                table[vertex] = entry[3]
        return kept

    def undo(self, serial):
        if serial not in [past for past, _ in self.past]:
            return "refused Sealed"
        if self.past[-1][0] != serial:
            return f"refused NotNewest {self.past[-1][0]}"
        self.future.append((serial, self.page))
        self.page = self.past.pop()[1]
        self.undos.remove(serial)
        self.redos.add(serial)
        return f"undone {serial}"

    def redo(self, serial):
        if serial not in [future for future, _ in self.future]:
            return "refused Overtaken"
        if self.future[-1][0] != serial:
            return f"refused NotNext {self.future[-1][0]}"
        self.past.append((serial, self.page))
        self.page = self.future.pop()[1]
        self.redos.remove(serial)
        self.undos.add(serial)
        return f"redone {serial}"

    def keep(self, serial):
        self.undos.remove(serial)
        serials = [past for past, _ in self.past]
        if serial in serials:
            self.past = self.past[serials.index(serial) + 1:]
        return "kept"

    def forget(self, serial):
        self.redos.remove(serial)
        serials = [future for future, _ in self.future]
        if serial in serials:
            self.future = self.future[serials.index(serial) + 1:]
        return "forgotten"

    def commit(self, choices, tables):
        for table, least in zip(tables, self.family.least_tables(choices)):
            if len(table) != len(least) or any(value > most for value, most in zip(table, least)):
                return "no lawful harvest"
        for feature, value in choices:
            if (feature, value) not in self.page.choices():
                return f"refused Outdated {feature}"
        lifts = []
        for name, table, present in zip(("hopeful", "dual"), tables, self.page.tables):
            lifts += [(name, v, old, new, choices) for v, (old, new) in enumerate(zip(present, table)) if new > old]
        self.page = Page(self.family, self.page.entries + lifts)
        return f"added {len(lifts)}"

    def make(self, session, words):
        """The words of a call up to its answer, and the answer."""
        word, rest = words[0], words[1:]
        if word in ("select", "exclude"):
            return 2, self.decide(session, int(rest[0]), word == "select")
        if word == "retract":
            return 2, self.retract(session, int(rest[0]))
        if word == "reset":
            return 1, self.reset(session)
        if word in SPENDS:
            held = self.undos if word in ("undo", "keep") else self.redos
            if int(rest[0]) not in held:
                return 2, f"no token {rest[0]}"
            return 2, getattr(self, word)(int(rest[0]))
        if word == "settled":
            return 1, str(self.page.is_settled()).lower()
        if word == "page":
            return 1, self.page.written()
        if word == "order":
            return 1, " ".join([*self.page.signed(), "tables", self.page.written_tables()])
        if word == "commit":
            cut = words.index("tables")
            end = next(i for i in range(cut, len(words)) if words[i] in ("added", "refused"))
            return end, self.commit(choices_in(words[1:cut]), tables_in(words[cut + 1:end]))
        return len(words), "no such call"


class Differs(Exception):
    pass


def told(output):
    """The lines of a play in an output, as (session, words, place), and the line after them."""
    lines, last = [], None
    for line in output.split("\n"):
        words = line.split()
        if len(words) > 3 and words[0].isdigit() and words[-2] == "at":
            lines.append((int(words[0]), words[1:-2], int(words[-1])))
        elif lines and line.startswith("calls "):
            last = line
            break
    if not lines or last is None:
        raise Differs("there is no play in the output")
    return lines, last


# Lines that are no calls of the log: whether each may stand behind a front of this length (None: not known yet).
BESIDE = {
    "raised": lambda front, words, place: place == front,
    "watches": lambda front, words, place: place == int(words[1]) and front in (None, place),
    "meets": lambda front, words, place: front in (None, int(words[1])) and place == max(map(int, words[1:])),
    "doubled": lambda front, words, place: front is not None and int(words[1]) < front <= place,
}


def in_order(lines):
    """The calls in the order of their places, each with its session. A session's front is as long as the place of its
    last call, or as another that it met."""
    calls, fronts = {}, {}
    for session, words, place in lines:
        front = fronts.get(session)
        if words[0] == "reads":
            continue
        if words[0] in BESIDE:
            if not BESIDE[words[0]](front, words, place):
                raise Differs(f"session {session} has a front of {front}, and then {' '.join(words)} at {place}")
        elif place in calls or front is not None and place <= front:
            raise Differs(f"session {session} has a call at {place}, taken by {calls.get(place)} or in its front")
        else:
            calls[place] = (session, words)
        fronts[session] = place
    if sorted(calls) != list(range(1, len(calls) + 1)) or max(fronts.values()) > len(calls):
        raise Differs("a place of the log has no call")
    return [calls[place] for place in range(1, len(calls) + 1)]


def kind_of(book, session, words, answer):
    """The kind of a call that was answered so: whether it was refused and why, and whether its token is of another."""
    ended = answer.split()[: 2 if answer.startswith("refused") else 1]
    kind = " ".join([words[0], *ended]) if words[0] not in ("settled", "page", "order") else words[0]
    is_of_another = words[0] in SPENDS and book.makers[int(words[1])] != session
    return f"{kind}, another's change" if is_of_another else kind


def replay(family, output, kinds):
    """Makes the calls of a play again, and returns how many there were. Counts their kinds."""
    lines, last = told(output)
    calls, book = in_order(lines), Book(family)
    pages, published = [book.page], {0}
    for place, (session, words) in enumerate(calls, 1):
        cut, answer = book.make(session, words)
        if " ".join(words[cut:]) != answer:
            raise Differs(f"call {place} of session {session}: {' '.join(words)}\nand the book: {answer}")
        kinds[kind_of(book, session, words, answer)] += 1
        pages.append(book.page)
        if words[0] in CHANGES and not answer.startswith("refused"):
            published.add(place)
    look(lines, pages, published)
    kinds.update(words[0] for _, words, _ in lines if words[0] in ("reads", "meets", "watches", "doubled"))
    check_harvests(family, lines, pages, kinds)
    if last != f"calls {len(calls)} whole true further 0":
        raise Differs(f"{len(calls)} calls, and the last line: {last}")
    return len(calls)


def may_be_raised(page, way, number, harvest):
    """Whether the tables of a page's order may be raised to these, by one lift, by rounds or by lifters."""
    games, tables = page.games(), [list(table) for table in page.tables]
    if way == "lifters":
        least = page.family.least_tables(page.choices())
        for game, old, new, most in zip(games, tables, harvest, least):
            if any(not max(old[v], game.lift(old, v)) <= new[v] <= most[v] for v in range(len(old))):
                return False
        return harvest != tables or page.is_settled()
    if way == "rounds":
        for game, table in zip(games, tables):
            for _ in range(number):
                game.round(table)
    else:
        game, table = games[way == "dual"], tables[way == "dual"]
        table[number] = max(table[number], game.lift(table, number))
    return harvest == tables


def check_harvests(family, lines, pages, kinds):
    """Checks what orders are raised to, and that what is committed was raised from an order before."""
    raised = collections.defaultdict(list)
    for session, words, place in lines:
        if words[0] == "raised":
            page = pages[place]
            kinds[f"raised {words[1]}"] += 1
            if not may_be_raised(page, words[1], int(words[2]), tables_in(words[4:])):
                raise Differs(f"session {session} at {place}, from {page.written_tables()}: {' '.join(words)}")
            raised[" ".join([*page.signed(), *words[3:]])].append((place, session))
    for session, words, place in lines:
        if words[0] == "commit":
            end = next(i for i, word in enumerate(words) if word in ("added", "refused"))
            by = [one for at, one in raised[" ".join(words[1:end])] if at < place]
            if not by:
                raise Differs(f"session {session} at {place} has what nobody raised: {' '.join(words)}")
            kinds["commit, another's harvest"] += session not in by


def anew(lines, count):
    """Where new watches had the whole log published: each behind the session's front, and before its next call."""
    windows, following = [], {}
    for session, words, place in reversed(lines):
        if words[0] == "watches":
            windows.append(range(place, following.get(session, count + 1)))
        elif words[0] != "reads" and words[0] not in BESIDE:
            following[session] = place
    return windows


def look(lines, pages, published):
    """Checks what watches read. A new watch has a sheet of the whole log, and after a change that a session made its
    watch has that or a later one."""
    seen, windows = {}, anew(lines, len(pages) - 1)
    for session, words, place in lines:
        if words[0] == "watches" and words[-1] != "none" or words[0] in CHANGES and "refused" not in words:
            seen[session] = max(place, seen.get(session, 0))
        if words[0] != "reads":
            continue
        if place < seen.get(session, 0) or place not in published and not any(place in it for it in windows):
            raise Differs(f"session {session} reads a sheet at {place} after one at {seen.get(session, 0)}")
        seen[session] = place
        if " ".join(words[1:]) != f"{str(pages[place].is_settled()).lower()} {pages[place].verdicts()}":
            raise Differs(f"session {session} reads at {place}: {' '.join(words)}")


def families(rng):
    """The texts of families without end: examples, and random ones."""
    while True:
        if rng.random() < 0.5:
            folder = os.path.join(EXAMPLES, rng.choice(["mine_pump", "vending_machine", "elevator"]))
            yield tuple(open(os.path.join(folder, name), encoding="utf-8").read() for name in ("game", "diagram"))
            continue
        diagram, names = oracle.random_diagram(rng)
        if not oracle.has_conflict(oracle.closure(oracle.read_diagram(diagram), [])):
            yield oracle.random_game(rng, names)[0], diagram


def run(program, folder, texts, rng):
    for name, text in zip(("game", "diagram"), texts):
        with open(f"{folder}/{name}", "w", encoding="utf-8") as out:
            out.write(text)
    sessions = rng.choice([1, 2, 3, 4, 8, 16, 40, 63])
    steps = 3000 // sessions
    words = [program, f"{folder}/game", f"{folder}/diagram", rng.randrange(1 << 63), sessions, steps, "free"]
    ended = subprocess.run(list(map(str, words)), capture_output=True, encoding="utf-8", timeout=600)
    if ended.returncode:
        raise Differs(f"it ended with {ended.returncode}: {ended.stderr}")
    return ended.stdout


def stored_family():
    """The texts of the game and the diagram that VPG_PLAY has built in."""
    code = open(STORED, encoding="utf-8").read()
    texts = dict(re.findall(r'const (GAME|DIAGRAM): &\[u8\] = b"([^"]*)";', code))
    return texts["GAME"], texts["DIAGRAM"].replace("\\n", "\n")


def main():
    kinds = collections.Counter()
    if len(sys.argv) in (3, 5) and sys.argv[1] == "--check":
        output, *family = [open(path, encoding="utf-8").read() for path in sys.argv[2:]]
        print(f"{replay(Family(*family or stored_family()), output, kinds)} calls, each as the book answers")
        return
    if not 2 <= len(sys.argv) <= 4:
        sys.exit(__doc__)
    most = int(sys.argv[2]) if len(sys.argv) > 2 else 100000
    rng, calls, runs = random.Random(sys.argv[3] if len(sys.argv) > 3 else "1"), 0, 0
    with tempfile.TemporaryDirectory() as folder:
        for texts in families(rng):
            if calls >= most:
                break
            calls, runs = calls + replay(Family(*texts), run(sys.argv[1], folder, texts, rng), kinds), runs + 1
    for kind, count in sorted(kinds.items()):
        print(f"{count:8} {kind}")
    print(f"{calls} calls in {runs} runs, each as the book answers")


if __name__ == "__main__":
    try:
        main()
    except Differs as why:
        print(why)
        sys.exit(1)
