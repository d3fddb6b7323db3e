#!/usr/bin/env python3
"""Pictures of transition systems, independently of the program: plain Python, written from docs/PICTURES.md.

    python3 pictures.py SYSTEM DIAGRAM [SCRIPT]        # the picture on the page that a script of decisions leaves
    python3 pictures.py SYSTEM DIAGRAM SCRIPT --trace FILE   # with the marks of the trace in a file
    python3 pictures.py --compare VPGDESK CASES SEED   # random systems and decisions, against the program

Of a script the lines `select F` and `exclude F` are read. A file with a trace has the answer of `trace V`. Pictures are
compared by the program's own answer: they are held to the trace that it writes.
"""
import random
import re
import sys
import tempfile

import oracle
from requirements import Program, Wrong, any_family, expect, guard_text, read_file, read_system

STYLES = (
    "style=dotted, color=gray70, fontcolor=gray50",
    "style=dashed, color=steelblue, fontcolor=steelblue",
    "style=solid",
)
LINE = "\\n"
ESCAPES = {'"': '\\"', "\\": "\\\\", "&": "&amp;"}


def value_of(guard, known):
    """0 where the guard is false, 2 where it is true, and 1 where what is known leaves it open."""
    kind = guard[0]
    if kind in ("true", "false"):
        return 2 if kind == "true" else 0
    if kind == "feature":
        return known[guard[1]]
    if kind == "not":
        return 2 - value_of(guard[1], known)
    return (min if kind == "and" else max)(value_of(part, known) for part in guard[1])


def label_of(name, guard):
    """What stands beside an arrow, between quotes."""
    written = "".join(ESCAPES.get(c, " " if c < " " else c) for c in name)
    return written if guard == ("true",) else f"{written} [{guard_text(guard)}]"


def reached_in(system, known):
    """The states to which transitions lead from the first one that may be there."""
    reached, todo = {system.first}, [system.first]
    while todo:
        state = todo.pop()
        for source, _, guard, target in system.transitions:
            if source == state and target not in reached and value_of(guard, known) > 0:
                reached.add(target)
                todo.append(target)
    return reached


def known_by(d, choices):
    """The value of each feature under these decisions."""
    facts = oracle.closure(d, choices)
    return {name: 2 if (f, True) in facts else 0 if (f, False) in facts else 1 for f, name in enumerate(d.names)}


class Marks:
    """The marks of a trace: transitions by their numbers, the states that it comes back to, and where it stands."""

    def __init__(self, transitions=(), loops=(), stands=()):
        self.transitions, self.loops, self.stands = transitions, loops, stands


def line_of(transition, known):
    """The line of a trace that goes by a transition; none if it may not be there."""
    source, name, guard, target = transition
    label = name if guard == ("true",) else f"{name}[{guard_text(guard)}]"
    ending = (None, " depends", "")[value_of(guard, known)]
    return None if ending is None else f"{source} -{label}-> {target}{ending}"


def marks_in(system, known, trace):
    """The marks of a trace, from its lines."""
    lines = [line.lstrip(" ") for line in trace.splitlines()]
    written = [line_of(it, known) for it in system.transitions]
    transitions = {written.index(line) for line in lines if line in written}
    steps = sum(bool(re.match(r"\d+ -", line)) for line in lines)
    expect(steps == sum(line in written for line in lines), "a step that no transition makes", trace)
    ends = [re.fullmatch(r"(loop to|no .* from) (\d+)", line) for line in lines]
    loops, stands = set(), set()
    for end in filter(None, ends):
        (loops if end[1] == "loop to" else stands).add(int(end[2]))
    return Marks(transitions, loops, stands)


def state_line(system, state, is_reached, marks):
    """The line of a state."""
    ends = {end for number in marks.transitions for end in system.transitions[number][::3]}
    grey = "color=gray40" if is_reached else "color=gray70, fontcolor=gray60"
    words = ["penwidth=3"] * (state == system.first) + ["peripheries=2"] * (state in marks.loops)
    words += ["shape=octagon"] * (state in marks.stands)
    words += [f"fillcolor={'khaki' if state in ends else 'white' if is_reached else 'gray92'}", grey]
    return f"  {state} [{', '.join(words)}];"


def picture_of(system, d, choices, marks=Marks()):
    """The picture under these decisions, of features by their numbers, with these marks."""
    known = known_by(d, choices)
    decisions = "".join(f" {'+' if value else '-'}{d.names[f]}" for f, value in choices)
    lines = [f'  graph [label="decisions{decisions}", labelloc=t, rankdir=LR];', "  node [shape=circle, style=filled];"]
    reached = reached_in(system, known)
    for state in range(system.states):
        lines.append(state_line(system, state, state in reached, marks))
    for is_marked, value in ((m, v) for m in (False, True) for v in (2, 1, 0)):
        arrows, width = {}, "penwidth=2.6, " if is_marked else ""
        for number, (source, name, guard, target) in enumerate(system.transitions):
            if value_of(guard, known) == value and (number in marks.transitions) == is_marked:
                arrows.setdefault((source, target), []).append(label_of(name, guard))
        for (source, target), labels in arrows.items():
            lines.append(f'  {source} -> {target} [label="{LINE.join(labels)}", {width}{STYLES[value]}];')
    return "\n".join(["digraph system {", *lines, "}", ""])


def decided(d, script):
    """The decisions that the lines of a script leave."""
    choices = []
    for line in script.splitlines():
        verb, _, name = line.partition(" ")
        if verb in ("select", "exclude") and name in d.names:
            choice = (d.names.index(name), verb == "select")
            is_new = choice[0] not in [f for f, _ in choices]
            if is_new and not oracle.has_conflict(oracle.closure(d, choices + [choice])):
                choices.append(choice)
    return choices


FAMILY = ("--system", "system", "--requirements", "requirements", "diagram")


def hold_trace(program, system, d, decisions, rng):
    """Compares the picture on a settled page with the marks of a trace: those of the trace that the program writes."""
    vertex = rng.choice(program.carried_out("check", *FAMILY).stdout.splitlines()[1:]).split()[-1]
    settled = f"{decisions}settle\n"
    answers = program.answers(("run", *FAMILY), f"{settled}trace {vertex}\n")
    program.put("script", settled)
    done = program.carried_out("draw", *FAMILY, "script", "--states", "--trace", vertex)
    if not answers[-1].startswith("steps "):
        expect((done.returncode, done.stdout) == (1, ""), "no trace", answers[-1], done.stdout)
        expect(done.stderr == f"vpgdesk: NoTrace {answers[-1]}\n", "no trace", done.stderr)
        return
    head = max(k for k, line in enumerate(answers) if re.fullmatch(r"(hopeless|sure) \d+", line))
    choices = decided(d, decisions)
    marks = marks_in(system, known_by(d, choices), "\n".join(answers[head:]))
    wanted = picture_of(system, d, choices, marks)
    expect((done.returncode, done.stdout) == (0, wanted), "traced", settled, vertex, done.stdout, done.stderr)


def hold_pictures(program, texts, rng):
    """Compares the pictures of a family: under no decisions, on a page, and with a trace on it."""
    system_text, _, diagram = texts
    for name, text in zip(("system", "requirements", "diagram"), (system_text, "deadlock free", diagram)):
        program.put(name, text)
    d = oracle.read_diagram(diagram)
    system = read_system(system_text, d.names)
    script = "".join(f"{rng.choice(('select', 'exclude'))} {rng.choice(d.names)}\n" for _ in range(rng.randint(0, 4)))
    program.put("script", script)
    done = program.carried_out("draw", "--system", "system", "diagram")
    expect((done.returncode, done.stdout) == (0, picture_of(system, d, [])), "drawn alone", done.stdout, done.stderr)
    done = program.carried_out("draw", *FAMILY, "script", "--states")
    wanted = picture_of(system, d, decided(d, script))
    expect((done.returncode, done.stdout) == (0, wanted), "behind", script, done.stdout, done.stderr)
    program.put("requirements", texts[1])
    hold_trace(program, system, d, script, rng)


def compare(path, cases, seed):
    for case in range(cases):
        rng = random.Random(f"{seed} {case}")
        texts = any_family(rng)
        with tempfile.TemporaryDirectory() as folder:
            try:
                hold_pictures(Program(path, folder), texts, rng)
            except Wrong as why:
                print(f"case {case} of seed {seed}: {why}", *texts, sep="\n")
                return 1
    print(f"{cases} cases, seed {seed}, no difference")
    return 0


def main():
    words = sys.argv[1:]
    if words[:1] == ["--compare"] and len(words) == 4:
        sys.exit(compare(words[1], int(words[2]), words[3]))
    elif len(words) in (2, 3) or words[3:4] == ["--trace"] and len(words) == 5:
        d = oracle.read_diagram(read_file(words[1]))
        system = read_system(read_file(words[0]), d.names)
        choices = decided(d, read_file(words[2]) if len(words) > 2 else "")
        marks = marks_in(system, known_by(d, choices), read_file(words[4])) if len(words) == 5 else Marks()
        sys.stdout.write(picture_of(system, d, choices, marks))
    else:
        sys.exit(__doc__)


if __name__ == "__main__":
    main()
