#!/usr/bin/env python3
"""Writes the script of the example `sessions`: orders in which the calls of several sessions can come.

    schedules.py FILE       writes the script

The opening page is settled first. Each schedule begins with a decision on `h`, and ends with as many `undo` as there
may be changes to undo, and with `trail`. That is the trail of the opening page each time: whatever the sessions did,
nothing of it is left. A schedule's lines are those of sessions 1 to 4, by their labels.

- Two sessions with three calls each: each order of the six calls that keeps those of one session in theirs, for each
  pair of the rows of CALLS. That is 20 orders a pair.
- Two to four sessions, of which each in turn is held between its order (`harvest`) and its commit, while all others
  make a call of CHANGES.

What the answers are is calculated by `oracle.py`, on one book.
"""
import itertools
import sys

# three calls of a session each; `commit` is that of its own harvest
CALLS = [
    ["select f", "settle", "undo"],
    ["harvest", "exclude f", "commit"],
    ["lift hopeful 0", "retract f", "redo"],
    ["exclude g", "harvest", "commit"],
    ["select g", "undo", "redo"],
]
CHANGES = ["select f", "exclude g", "settle", "undo"]
SHOWN = ["show 0 1", "trail"]


class Script:
    """The lines so far, and how many harvests they keep."""

    def __init__(self):
        self.lines, self.harvests, self.kept = ["settle", "trail"], 0, {}

    def call(self, session, words):
        if words == "harvest":
            self.harvests += 1
            self.kept[session] = self.harvests
        if words == "commit":
            words = f"commit {self.kept.get(session, self.harvests + 1)}"
        self.lines.append(f"{session}: {words}")

    def schedule(self, title, calls):
        self.kept = {}
        self.lines.append(f"# {title}")
        self.lines.append("select h")
        for session, words in calls:
            self.call(session, words)
        self.lines += SHOWN
        changes = [words for _, words in calls if words.split()[0] in ("select", "exclude", "retract", "reset", "redo")]
        self.lines += ["undo"] * (1 + len(changes))
        self.lines.append("trail")


def merged(first, second):
    """All orders of the calls of two sessions in which each session's own stand in theirs."""
    places = range(len(first) + len(second))
    for taken in itertools.combinations(places, len(first)):
        one, two = iter(first), iter(second)
        yield [(1, next(one)) if at in taken else (2, next(two)) for at in places]


def main(path):
    script = Script()
    for (a, first), (b, second) in itertools.product(enumerate(CALLS), repeat=2):
        for number, calls in enumerate(merged(first, second)):
            script.schedule(f"rows {a} and {b}, order {number}", calls)
    for sessions in (2, 3, 4):
        for held in range(1, sessions + 1):
            others = [it for it in range(1, sessions + 1) if it != held]
            for words in itertools.product(CHANGES, repeat=len(others)):
                calls = [(held, "harvest"), *zip(others, words), (held, "commit")]
                script.schedule(f"session {held} of {sessions} is held", calls)
    with open(path, "w", encoding="utf-8") as it:
        it.writelines(f"{line}\n" for line in script.lines)


main(sys.argv[1])
