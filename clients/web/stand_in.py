"""Carries out the page's requests until `vpgdesk share` does: a desk for several people, over `vpgdesk run --json`.

Three programs run. One has the page that all share. Two follow its decisions: one answers questions, so that these
hold up no change, and one tries changes out, for previews, and so that several steps are carried out all or none.
Nothing here is proved.

`serve.py` uses only `Desk`, `Refusal` and `Unusable`, and of a desk the names below. The module for `vpgdesk share`
will have the same ones, and then replaces this file:

    family                                 what never changes: features, groups, rules, goals, and their names
    page()                                 the page, whole
    ask(what, about)                       an answer of the program, as data
    preview(steps)                         what a change would do; nothing is changed
    change(person, steps, of, note)        a change, all steps or none, known to `book` before it is answered
    export(form)                           the configuration or the script, as text
    listen(person), leave(person, queue)   a queue of events (kind, body) for a stream; it begins with the page

A person has `session`, a number from 1 to 64, and `name`. README.md in this folder describes steps, pages and answers.
"""
import fcntl
import hashlib
import json
import os
import queue
import re
import secrets
import subprocess
import threading
import time

SHOWN = 2000  # the most vertices of a game that a page lists
PARTS = 200  # the most parts of `winners` that are sent
PAST = 200  # the most entries of the history that are sent
WAITING = 1000  # the most events that wait for a slow stream, which is then dropped
ARGUMENT = {"select": "feature", "exclude": "feature", "retract": "feature", "undo": "serial", "redo": "serial"}
WORD = {"+": "select", "-": "exclude"}
SIGN = {"select": "+", "exclude": "-"}
TEXTS = {
    "Conflict": "{it} would have to be both in and out.",
    "AlreadyDecided": "There is a decision on {it} already.",
    "NotDecided": "There is no decision on {it}.",
    "UnknownFeature": "The family has no feature {it}.",
    "NotNewest": "A newer change has to be undone first.",
    "NoToken": "There is nothing to undo or redo.",
}


class Refusal(Exception):
    """A request that is refused. `body` is the answer: `error`, a word, and `text`, a sentence."""

    def __init__(self, status, error, text, **more):
        super().__init__(text)
        self.status, self.body = status, {"error": error, "text": text, **more}


class Unusable(Exception):
    """A family or a book with which no desk can begin."""


class Ended(Exception):
    """A program that has ended."""


class Refused(Exception):
    """A line that the program refuses, with its cause."""

    def __init__(self, refused, text):
        super().__init__(text)
        self.cause = refused.get("cause", "Refused")


class Program:
    """A running `vpgdesk run --json`, which answers a line at a time."""

    def __init__(self, words):
        pipe = subprocess.PIPE
        self.child = subprocess.Popen(words, stdin=pipe, stdout=pipe, stderr=subprocess.DEVNULL)

    def ask(self, line):
        """The lines of the answer."""
        try:
            self.child.stdin.write(line.encode() + b"\n")
            self.child.stdin.flush()
            said = json.loads(self.child.stdout.readline())
        except (OSError, ValueError) as it:
            raise Ended() from it
        if "refused" in said:
            raise Refused(said["refused"], " ".join(said["answer"]))
        return said["answer"]

    def end(self):
        self.child.kill()
        self.child.wait()
        for pipe in (self.child.stdin, self.child.stdout):
            try:
                pipe.close()
            except OSError:
                pass


class Follower:
    """A program that takes over the decisions of the page, for one piece of work at a time beside it."""

    def __init__(self, words):
        self.words, self.lock, self.program, self.stand = words, threading.Lock(), None, []

    def carry_out(self, stand, work):
        """What `work` returns, given a settled program with these decisions; once more if the program has ended."""
        with self.lock:
            try:
                self.follow(stand)
                return work(self.program)
            except Ended:
                self.program = None
            try:
                self.follow(stand)
                return work(self.program)
            except (Ended, OSError) as it:
                self.program = None
                raise Refusal(503, "Gone", "The program has ended at this question.") from it

    def follow(self, stand):
        """Makes the decisions those of the page, in the same order, since reasons depend on it."""
        if not self.program:
            self.program, self.stand = Program(self.words), []
            self.program.ask("settle")
        same = 0
        while same < min(len(stand), len(self.stand)) and stand[same] == self.stand[same]:
            same += 1
        if same == len(stand) == len(self.stand):
            return
        for it in self.stand[same:]:
            self.program.ask("retract " + it[1:])
        for it in stand[same:]:
            self.program.ask(f"{WORD[it[0]]} {it[1:]}")
        self.program.ask("settle")
        self.stand = stand


# --- what the files say: `check --json` shall say so one day


def tree_of(diagram):
    """The features, groups and rules of a diagram's text."""
    features, groups, rules = [], [], []
    for line in diagram.splitlines():
        words = line.replace(":", " ").split()
        if not words:
            continue
        if words[0] in ("requires", "excludes", "rule"):
            rules.append(" ".join(line.split()))
        elif words[0] in ("root", "mandatory", "optional"):
            features.append({"name": words[-1], "parent": words[1] if words[2:] else None, "how": words[0]})
        else:
            group = words[0] == "group"
            members = words[4:] if group else words[2:]
            low, high = map(int, words[2:4]) if group else (1, 1 if words[0] == "alternative" else len(members))
            features += [{"name": it, "parent": words[1], "how": "member", "group": len(groups)} for it in members]
            groups.append({"parent": words[1], "low": low, "high": high})
    return {"features": features, "groups": groups, "rules": rules}


def entries_of(text):
    """The entries of a file of requirements: name, formula, and the comment right above."""
    note, formula = [], ""
    for token in re.findall(r'%[^\n]*|"(?:\\.|[^"\\\n])*"|;|\s+|[^%";\s]+|.', text + "\n;", re.S):
        if token[0] == "%":
            note += [token.strip("% \t\r")] if not formula else []
        elif token == ";":
            name, equals, rest = formula.partition("=")
            is_named = equals and re.fullmatch(r"\w+\s*", name)
            if formula.strip():
                yield (name.strip(), rest.strip(), note) if is_named else ("requirement", formula.strip(), note)
            note, formula = [], ""
        elif token.isspace():
            formula += " " if formula else ""
            if token.count("\n") > 1 and not formula:
                note = []
        else:
            formula += token


def requirements_of(text, check):
    """The goals of a system: its requirements, with the vertices that `check` names."""
    written = {name: (formula, note) for name, formula, note in entries_of(text)}
    for line in check.splitlines()[1:]:
        name, vertex = line.split()
        formula, note = written.get(name, ("", []))
        yield {"id": vertex, "name": name, "text": formula, "note": " ".join(note)}


def vertices_of(game):
    """The goals of a game: its vertices, the start first."""
    head = re.match(r"\s*(?:parity\s+\d+\s*;)?\s*(?:start\s+(\d+)\s*;)?", game)
    entry = re.compile(r'(\d+)\s+\d+\s+[01](?!\d)(?:[^";\[]|\[[^\]]*\])*(?:"([^"]*)"\s*)?;')
    goals = [{"id": it[1], "name": it[2] or it[1], "text": "", "note": ""} for it in entry.finditer(game, head.end())]
    return sorted(goals, key=lambda it: it["id"] != head[1])[:SHOWN]


def spoken(program, *words):
    """What `vpgdesk` writes for these words, or why the family is unusable."""
    ran = subprocess.run([program, *words], capture_output=True, encoding="utf-8", errors="replace", check=False)
    if ran.returncode:
        raise Unusable(ran.stderr.strip() or f"{program} {words[0]} ends with status {ran.returncode}")
    return ran.stdout


def text_of(path):
    with open(path, encoding="utf-8", errors="replace") as it:
        return it.read()


def family_of(program, name, files):
    """What never changes. `files` are `(game, diagram)`, or `(system, requirements, diagram)`."""
    check = spoken(program, "check", *words_of(files))
    is_system = len(files) == 3
    goals = requirements_of(text_of(files[1]), check) if is_system else vertices_of(text_of(files[0]))
    return {
        "api": 1,
        "program": spoken(program, "--version").strip(),
        "name": name,
        "kind": "system" if is_system else "game",
        **tree_of(spoken(program, "diagram", files[-1])),
        "goals": list(goals),
    }


def words_of(files):
    """The words by which `vpgdesk` is given these files."""
    return ["--system", files[0], "--requirements", *files[1:]] if len(files) == 3 else list(files)


# --- answers as data: the program's own shall come so one day


def signs(line):
    return [it for it in line.split() if it[0] in "+-"]


def reason(line):
    return {"because": signs(line), "least": not line.endswith("or fewer")}


def product(line):
    words = line.split()
    return words[words.index("product") + 1 :] if "product" in words else None


def letter(line):
    """The verdict in a line: h, s or p."""
    words = line.split()
    return "h" if "hopeless" in words else "s" if "sure" in words else "p"


def why(about, lines, *_):
    if not about.isdigit():
        return {"known": lines[0].split()[0], **reason(lines[0])}
    held = next((it for it in lines if it.startswith(("hopeless", "sure"))), "")
    return {"verdict": letter(held), **reason(held)}


def decide(about, lines, program, _):
    word = lines[0].split()[0]
    if word == "mixed":
        return {"decided": word, "example": product(lines[1]), "counterexample": product(lines[2])}
    return {"decided": word, **(reason(program.ask(f"{word} {about}")[0]) if word in ("won", "lost") else {})}


def winners(_, lines, *__):
    parts = []
    for words in (it.removesuffix(" or more").split() for it in lines[:-1]):
        count = words[-1] if words[2:] and words[-1].isdigit() else "0"
        parts.append({"who": words[0], "signs": signs(" ".join(words)), "count": count})
    sums = {who: str(sum(int(it["count"]) for it in parts if it["who"] == who)) for who in ("won", "lost", "unsettled")}
    return {"parts": parts[:PARTS], "of": len(parts), **sums, "exact": not any("or more" in it for it in lines)}


def needs(_, lines, *__):
    found = None if lines == ["none"] else [sign for it in lines[:-1] for sign in signs(it)]
    return {"needs": found, "all": "more" not in lines[-1]}


def repair(_, lines, *__):
    repairs = [{"signs": signs(it), "lost": it.endswith("lost")} for it in lines if it.startswith("repair ")]
    return {"state": "repair" if repairs else lines[0].split()[0], "repairs": repairs}


def offer(_, lines, *__):
    offers = []
    for words in map(str.split, lines[:-1]):
        verdict = letter(" ".join(words)) if words[3:] else None
        offers.append({"sign": words[1], "verdict": verdict, "decided": words[-1]})
    return {"offers": offers}


def empty(_, lines, *__):
    is_empty = lines[0].startswith("empty")
    return {"empty": True, **reason(lines[0])} if is_empty else {"empty": False, "example": product(lines[0])}


STEP = re.compile(
    r"(?P<from>\d+) -(?P<action>.*?)(?:\[(?P<guard>[^\[\]]*)\])?-> (?P<to>\d+)(?P<depends> depends)?"
    r"|loop to (?P<loop>\d+)|seen (?P<seen>\d+)|no (?P<no>.*) from (?P<at>\d+)|(?P<end>.*)"
)


def trace(about, lines, program, is_game):
    if is_game:
        return walk(about, lines, program)
    steps = []
    for line in lines[1:-1]:
        found = STEP.fullmatch(line.strip()).groupdict()
        step = {name: name == "depends" or it for name, it in found.items() if it is not None}
        steps.append({"depth": (len(line) - len(line.lstrip())) // 2, **step})
    return {"verdict": letter(lines[0]), "steps": steps, "cut": lines[-1].endswith("cut")}


def walk(about, lines, program):
    """A walk over the winner's moves, which `draw V` draws: the program has no trace of a game."""
    names, moves, met, steps = {}, {}, {about}, []
    for line in lines:
        if found := re.match(r'\s+(\d+) \[shape=\w+, label="(.*?)"', line):
            names[found[1]] = " ".join(found[2].split("\\n")[1:]) or found[1]
        elif found := re.match(r'\s+(\d+) -> (\d+) \[(?:label="(.*?)", )?(.*)\]', line):
            moves.setdefault(found[1], []).append(found)
    todo = [(it, 0) for it in reversed(moves.get(about, []))]
    while todo and len(steps) < 60:
        (move, depth), again = todo.pop(), False
        last, again = move is moves[move[1]][-1], move[2] in met
        step = {"depth": depth + (not last), "from": move[1], "action": names[move[2]], "to": move[2]}
        steps.append({**step, "guard": move[3] or "", "depends": "dashed" in move[4], "again": again})
        if not again:
            met.add(move[2])
            todo += [(it, steps[-1]["depth"]) for it in reversed(moves.get(move[2], []))]
    return {"verdict": letter(program.ask(f"show {about}")[0]), "steps": steps, "cut": bool(todo)}


ANSWERS = {it.__name__: it for it in (why, decide, winners, needs, repair, offer, empty, trace)}


# --- the book: what was acknowledged, a line of JSON for each change


class Book:
    """The changes of a desk, in memory and perhaps in a file that only this process uses."""

    def __init__(self, path, family):
        self.changes, self.file = [], None
        if path is None:
            return
        self.file = open(path, "a+b")
        try:
            fcntl.flock(self.file, fcntl.LOCK_EX | fcntl.LOCK_NB)
        except OSError as it:
            raise Unusable(f"{path}: another desk uses this book") from it
        self.file.seek(0)
        text = self.file.read()
        whole = text[: text.rfind(b"\n") + 1]
        self.file.truncate(len(whole))  # the end of a line that was being written
        mark = hashlib.sha256(json.dumps([family[it] for it in ("features", "groups", "rules", "goals")]).encode())
        head = {"vpgdesk book": 1, "family": mark.hexdigest()}
        try:
            found = [json.loads(it) for it in whole.splitlines()]
        except ValueError as it:
            raise Unusable(f"{path}: this is no book of changes") from it
        if found and found[0] != head:
            raise Unusable(f"{path}: this is the book of another family")
        if not found:
            self.put(head)
        self.changes = found[1:]

    def put(self, line):
        """Writes a line through to the disk."""
        if self.file:
            self.file.write(json.dumps(line).encode() + b"\n")
            self.file.flush()
            os.fsync(self.file.fileno())

    def add(self, change):
        self.put(change)
        self.changes.append(change)


# --- the desk


def differ(verdicts, then):
    """The goals whose verdict differs: their places, with both."""
    return [[n, old, new] for n, (old, new) in enumerate(zip(verdicts, then)) if old != new]


def checked(steps, names, undoes):
    """The steps of a request, if they have the form of a change of features of these names."""
    malformed = Refusal(400, "BadRequest", "A change has 1 to 512 steps, each with `do` and its argument.")
    if not isinstance(steps, list) or not 1 <= len(steps) <= 512 or not all(isinstance(it, dict) for it in steps):
        raise malformed
    for number, step in enumerate(steps):
        word = step.get("do")
        argument = ARGUMENT.get(word) if isinstance(word, str) else None
        if (argument is None and word != "reset") or set(step) != {"do", argument} - {None}:
            raise malformed
        if argument == "feature" and not (isinstance(step[argument], str) and step[argument] in names):
            text = TEXTS["UnknownFeature"].format(it=str(step[argument])[:64])
            raise Refusal(409, "UnknownFeature", text, step=number)
        if argument == "serial" and not (type(step[argument]) is int and 0 < step[argument] < 1 << 63):
            raise malformed
    kinds = {it["do"] for it in steps}
    if kinds & {"undo", "redo"} and (not undoes or len(kinds) > 1):
        raise malformed
    return [dict(it) for it in steps]


class Desk:
    """A desk on a family, for people with sessions of their own. Its calls may come from any thread."""

    def __init__(self, program, name, files, book=None):
        family = family_of(program, name, files)
        self.files, self.program, self.family = words_of(files), program, family
        self.goals = [it["id"] for it in family["goals"]]
        self.places = {it: n for n, it in enumerate(self.goals)}
        self.names = {it["name"] for it in family["features"]}
        self.words = [program, "run", "--json", "--keep-going", *self.files, "/dev/stdin"]
        self.lock, self.streams, self.main = threading.RLock(), {}, None
        self.asked, self.trial = Follower(self.words), Follower(self.words)
        self.book = Book(book, family)
        try:
            self.begin()
        except Ended as it:
            raise Unusable(f"{program} ends at the start of a run") from it

    # The calls of serve.py.

    def page(self):
        with self.lock:
            return self.whole()

    def ask(self, what, about):
        known = self.names if what == "why" and about not in self.places else self.places
        if what not in ANSWERS or not (about == "" if what == "empty" else about in known):
            raise Refusal(400, "BadRequest", "There is no such question.")
        found = self.kept_or((what, about), lambda page: self.answer(what, about, page))
        return {"what": what, "about": about, **found}

    def preview(self, steps):
        steps = checked(steps, self.names, undoes=False)
        return self.kept_or(json.dumps(steps), lambda page: self.tried_out(steps, page))

    def change(self, person, steps, of=None, note=""):
        steps = checked(steps, self.names, undoes=True)
        made = {"session": person.session, "by": person.name, "steps": steps, "of": of, "note": note}
        return self.served(lambda: self.changed({**made, "time": int(time.time())}))

    def export(self, form):
        with self.lock:
            script = "".join(f"{WORD[it['sign'][0]]} {it['sign'][1:]}\n" for it in self.standing)
        if form == "script":
            return script
        words = [self.program, "export", *self.files, "/dev/stdin", *(["--xml"] if form == "xml" else [])]
        return subprocess.run(words, input=script, capture_output=True, encoding="utf-8", check=False).stdout

    def listen(self, person):
        events = queue.Queue(WAITING)
        with self.lock:
            self.streams[events] = person
            events.put(("page", self.whole()))
            self.publish("people", people=self.people())
        return events

    def leave(self, _, events):
        with self.lock:
            self.streams.pop(events, None)
            self.publish("people", people=self.people())

    # Looks, which work beside the page and leave it as it is.

    def kept_or(self, name, work):
        """What `work` finds for the page as it is now, or found before."""
        with self.lock:
            at, kept, page = self.at, self.kept, (self.short_page(), self.verdicts)
        if name not in kept:
            kept[name] = work(page)
        return {"at": at, **kept[name]}

    def answer(self, what, about, page):
        is_game = self.family["kind"] == "game"
        line = f"{'draw' if what == 'trace' and is_game else what} {about}".strip()

        def work(program):
            lines = program.ask(line)
            return ANSWERS[what](about, lines * 2 if lines == ["unsettled"] else lines, program, is_game)

        try:
            return self.asked.carry_out([it["sign"] for it in page[0]["decisions"]], work)
        except Refused as it:
            raise Refusal(409, it.cause, str(it)) from it

    def tried_out(self, steps, page):
        """What the steps would make of the page."""

        def work(program):
            made = 0
            try:
                for it in steps:
                    self.step(program, "", it, made)
                    made += 1
                return self.effect(program, {it.get("feature") for it in steps}, *page)
            except Refusal as it:
                return {"refused": it.body}
            finally:
                for _ in range(made):
                    program.ask("undo")
                program.ask("settle")

        return self.trial.carry_out([it["sign"] for it in page[0]["decisions"]], work)

    def effect(self, program, own, page, verdicts):
        """How the program's page differs from this one, apart from the steps' own features."""

        def known(page):
            return {sign + it for sign, part in (("+", "in"), ("-", "out")) for it in page[part] if it not in own}

        program.ask("settle")
        now, before = self.look(program), known(page)
        freed, new = sorted(before - known(now)), sorted(known(now) - before)
        changed = differ(verdicts, self.show(program))
        return {"known": new, "freed": freed, "products": now["products"], "changed": changed}

    # What changes the page, all of it called under the lock.

    def served(self, work):
        """What `work` returns. If the program has ended, it begins again from the book, and `work` once more."""
        with self.lock:
            try:
                return work()
            except Ended:
                pass
            try:
                self.begin()
                self.publish("page", **self.whole())
                return work()
            except (Ended, OSError, Unusable) as it:
                raise Refusal(503, "Gone", "The program has ended, and cannot be started again.") from it

    def begin(self):
        """Starts the program, and makes the page of the book's changes."""
        if self.main:
            self.main.end()
        self.main, self.run, self.at = Program(self.words), secrets.token_hex(4), 0
        self.history, self.standing, self.done, self.undone, self.kept = [], [], [], [], {}
        try:
            self.main.ask("settle")
            self.verdicts, self.seen = self.show(self.main), self.look(self.main)
            for it in self.book.changes:
                self.carried_out(it)
        except (Refused, Refusal) as it:
            raise Unusable(f"the family has no page of this book: {it}") from it

    def show(self, program):
        """The verdicts of all goals, a letter each."""
        asked = [self.goals[n : n + 300] for n in range(0, len(self.goals), 300)]
        return "".join(letter(line) for part in asked for line in program.ask("show " + " ".join(part)))

    def look(self, program, products=None):
        """The features that are known, and the number of products left, which is asked if it is not given."""
        known = program.ask("products")
        if products is None:
            number = program.ask("number")[0].split()
            products = {"count": number[1] if number[1:] else None, "exact": len(number) == 2}
        return {"in": known[0].split()[1:], "out": known[1].split()[1:], "products": products}

    def short_page(self, **more):
        ends = [it[-1] if it else None for it in (self.done, self.undone)]
        undo, redo = [it and {name: it[name] for name in ("serial", "session", "by")} for it in ends]
        settled = {"at": self.at, "run": self.run, "settled": True, "decisions": self.standing}
        return {**settled, **self.seen, "undo": undo, "redo": redo, **more}

    def whole(self):
        return self.short_page(verdicts=self.verdicts, history=self.history[-PAST:], people=self.people())

    def people(self):
        here = {it.session: it.name for it in self.streams.values()}
        return [{"session": session, "name": name} for session, name in sorted(here.items())]

    def publish(self, kind, **body):
        """Hands an event to each stream. A stream that does not take its events is dropped, and comes again."""
        for events in list(self.streams):
            try:
                events.put_nowait((kind, body))
            except queue.Full:
                del self.streams[events]
                with events.mutex:
                    events.queue.clear()
                events.put_nowait(("end", {}))

    def next(self, kind, **body):
        self.at += 1
        self.publish(kind, at=self.at, **body)

    def step(self, program, label, step, number):
        """Carries out one step, and returns its serial."""
        it = step.get("feature", step.get("serial", ""))
        try:
            return int(program.ask(f"{label}{step['do']} {it}".strip())[0].split()[1])
        except Refused as refused:
            text, more = TEXTS.get(refused.cause, str(refused)).format(it=it), {"step": number}
            if refused.cause == "Conflict":
                because = signs(program.ask(f"why {SIGN[step['do']]}{it}")[0])[1:]
                more = {**more, "feature": it, "because": because}
            raise Refusal(409, refused.cause, text, **more) from refused

    def changed(self, made):
        """Carries out a change that was asked for, and answers once it stands in the book."""
        kind, steps = made["steps"][0]["do"], made["steps"]
        stack = {"undo": self.done, "redo": self.undone}.get(kind)
        if stack is None and len(steps) > 1:  # one step is whole by itself
            tried = self.tried_out(steps, (self.short_page(), self.verdicts))
            if "refused" in tried:
                raise Refusal(409, **tried["refused"])
        newest = [it["serial"] for it in reversed(stack or [])][: len(steps)]
        if stack is not None and [it["serial"] for it in steps] != newest:
            error = "NotNewest" if stack else "NoToken"
            raise Refusal(409, error, TEXTS[error])
        return self.carried_out(made, is_new=True)

    def carried_out(self, made, is_new=False):
        """Carries out a change that cannot be refused. A new one is kept in the book and published."""
        before, label = self.seen, f"{made['session']}: "
        steps = [dict(it) for it in made["steps"]]
        for number, it in enumerate(steps):
            it["serial"] = self.step(self.main, label, it, number)
            self.note_step(it, made)
        if is_new:
            self.kept_in_book(made)
        tried = self.kept.get(json.dumps(made["steps"]), {})
        self.kept, self.seen = {}, self.look(self.main, tried.get("products"))
        follow = ["+" + it for it in self.seen["in"] if it not in before["in"]]
        follow += ["-" + it for it in self.seen["out"] if it not in before["out"]]
        decided = {it["sign"] for it in self.standing}
        entry = {it: made[it] for it in ("time", "session", "by", "of", "note")}
        entry |= {"entry": len(self.history) + 1, "steps": steps, "known": [it for it in follow if it not in decided]}
        self.history.append(entry)
        if is_new:
            self.next("change", entry=entry, page=self.short_page(at=self.at + 1, settled=False))
        self.main.ask("settle")
        verdicts = self.show(self.main)
        changed, self.verdicts = differ(self.verdicts, verdicts), verdicts
        entry["became"] = {it: sum(new == it for _, _, new in changed) for it in "hps"}
        if is_new:
            self.next("verdicts", entry=entry["entry"], became=entry["became"], changed=changed)
        return {"at": self.at, "entry": entry["entry"], "serials": [it["serial"] for it in steps]}

    def kept_in_book(self, made):
        try:
            self.book.add(made)
        except OSError as it:
            self.begin()
            self.publish("page", **self.whole())
            raise Refusal(503, "Book", "The book cannot be written, so nothing was changed.") from it

    def note_step(self, step, made):
        """Follows what stands, and what may be undone and redone, after a step."""
        was, maker = self.standing, {"serial": step["serial"], "session": made["session"], "by": made["by"]}
        if step["do"] in ("undo", "redo"):
            taken, given = (self.done, self.undone) if step["do"] == "undo" else (self.undone, self.done)
            given.append(taken.pop())
            self.standing = given[-1]["pages"][step["do"] == "redo"]
            return
        feature, sign = step.get("feature"), SIGN.get(step["do"])
        if sign:
            self.standing = [*was, {"sign": sign + feature, **maker}]
        else:
            self.standing = [it for it in was if feature and it["sign"][1:] != feature]
        step["was"] = [it["sign"] for it in was if it not in self.standing]
        self.done, self.undone = [*self.done, {**maker, "pages": (was, self.standing)}], []
