#!/usr/bin/env python3
"""Runs the program on malformed games, diagrams, scripts and words, and checks how each run ends.

    fuzz.py PROGRAM CASES [SEED] [PROCESSES]     e.g. fuzz.py vpgdesk 100000 1 2

Each case begins with a sound family (built in, an example, or a random one), and damages its files, its words or its devices. A run has to end
within 20 seconds of the processor, and 10 minutes by the clock, with status 0, 1, 2 or 3 and never by a signal:
  0  with nothing on standard error;
  1  with one line there, which is one of the texts that docs/FORMATS.md lists;
  2  with the parser's message about wrong words there, and nothing on standard output;
  3  with nothing there behind an assertion that failed, or with the number of the refused line of a strict script.
`lint`, `desk` and what has `--explain` write further lines on standard error, and `desk` its talk: lines without
control characters.
Whatever stands on standard output has to be whole lines of the forms that docs/FORMATS.md gives. A game that `project` wrote has to be read again.
Where standard output is full or closed, and a run of the same case whose output is kept writes something, the run has
to end with status 1 and `Write`.
Cases that end otherwise are kept in the folder fuzz-findings, with their words; then the status is 1. A case depends on SEED and its number alone.
"""
import collections
import multiprocessing
import os
import random
import re
import shutil
import signal
import sys
import tempfile
import time

import oracle

# seconds that a run may take: of the processor, and by the clock, which runs on where other work keeps the machine busy
PROCESSOR_LIMIT = 20
CLOCK_LIMIT = 600
HERE = os.path.dirname(os.path.abspath(__file__))
EXAMPLES = os.path.join(HERE, os.pardir, "examples")
FINDINGS = os.path.abspath("fuzz-findings")

# ---- how a run may end

N = rb"(?:0|[1-9][0-9]*)"
NAME = rb"[A-Za-z_][A-Za-z0-9_]{0,63}"
SIGNED = rb"(?: [+-]" + NAME + rb")*"

FAULTS = {
    "unreadable": rb"(?:game|diagram|script) unreadable",
    "too large": rb"(?:game|diagram|script) TooLarge|game TooManySigns " + N,
    "diagram refused": rb"diagram (?:NoRoot|(?:Syntax|TwoRoots|UnknownFeature|TwoParents|TooManyClauses|TooMany"
    + rb"|BadRange) " + N + rb")",
    "game refused": rb"game (?:(?:Syntax|BadOwner|PriorityTooLarge|TooMany|DoubleVertex|MissingVertex) " + N + rb"|Guard " + N
    + rb" (?:Syntax|UnknownFeature|TooDeep) " + N + rb"|TooWide)",
    "opening refused": rb"Conflict " + NAME,
    "configuration": rb"configuration [A-Z][A-Za-z]+ [1-9][0-9]*:[1-9][0-9]*",
    "script line": rb"script Line [1-9][0-9]* (?:Word|Args|TooLong)",
    "script read": rb"script Read",
    "write": rb"Write",
    "project": rb"UnknownFeature [^\x00-\x1f\x7f]*|NotAProduct",
}
FAULTS = {kind: re.compile(rb"\Avpgdesk: (?:" + text + rb")\Z") for kind, text in FAULTS.items()}
STRICT = re.compile(rb"\Avpgdesk: script Line [1-9][0-9]* Refused\n\Z")
# what explains a fault, and what a session says beside its answers
LINES = re.compile(rb"\A(?:[^\x00-\x1f\x7f]*\n)*\Z")
GREETING = b"one command a line; `help` lists commands, `quit` ends\n"

# the second form is that of a word behind `help help`
WRONG_WORDS = re.compile(rb"\Aerror: (?:.*\n\nFor more information, try '--help'\.|unrecognized subcommand '[^\n]*'\n\nUsage: [^ \n]+ help \[COMMAND\]\.\.\.)\n\Z", re.S)

REFUSED = (
    rb"refused (?:UnknownFeature|AlreadyDecided " + N + rb"|Conflict " + NAME + rb"|NotDecided|TooManyChanges|Sealed|NotNewest " + N
    + rb"|Overtaken|NotNext " + N + rb"|Outdated " + NAME + rb"|NotFull|NotSettled|NotKnown|NoConflict|NoToken|NoHarvest|NoSystem|NoVertex)"
)
# a line of a picture
DRAWN = (
    rb"digraph (?:game|part) \{"
    + rb'|  graph \[label="decisions' + SIGNED + rb'", labelloc=t, rankdir=LR\];|  node \[style=filled\];'
    + rb"|  " + N + rb' \[shape=(?:diamond|box), label="' + N + rb" : " + N
    + rb'"(?:, penwidth=3)?, fillcolor=[a-z]+, color=[a-z0-9]+\];'
    + rb"|  " + N + rb" -> " + N + rb' \[(?:label="[^"\n]+", )?style='
    + rb'(?:solid(?:, color="#[0-9a-f]{6}", penwidth=2\.6)?'
    + rb"|(?:dashed|dotted), color=[a-z0-9]+, fontcolor=[a-z0-9]+)\];|\}"
)
# the words of a form of the oracle; a list may be empty, and begins with a blank
OF_FORM = {"V": N, "N": N, "F": NAME, "D": rb"[+-]" + NAME, "L": SIGNED, "P": rb"(?: " + NAME + rb")*"}


def line_of(form):
    """The expression of a line of this form: a limit may put `unsettled` in place of one word of several."""
    words = [OF_FORM.get(word, rb"(?:" + word.encode() + (rb"|unsettled)" if "|" in word else rb")")) for word in form.split(" ")]
    return words[0] + b"".join(word if word in (SIGNED, OF_FORM["P"]) else b" " + word for word in words[1:])


LOOKS = b"|".join(sorted({line_of(form) for _, forms in oracle.LOOKS.values() for form in forms}))
ANSWER = re.compile(
    rb"(?:done|undone|redone|kept|forgotten|added|harvest|settled|unsettled|entries|plans|changed|hopeless|possible|sure|unsure) " + N + rb"|" + REFUSED
    + rb"|decisions" + SIGNED + rb"|(?:full (?:yes|no)(?: empty| unsettled)?|settled (?:yes|no))|" + N + rb" " + N + rb" " + N + rb" (?:hopeless|possible) (?:sure|unsure)"
    + rb"|" + N + rb"(?: (?:hopeless|possible) (?:sure|unsure)){2}|" + DRAWN
    + rb"|(?:select|exclude) " + NAME + rb" " + N + rb"|(?:hopeful|dual) " + N + rb" " + N + rb" " + N + SIGNED
    + rb"|(?:hopeless|sure) " + N + SIGNED + rb"(?: or fewer)?|(?:in|out) " + NAME + SIGNED + rb"|conflict [+-]" + NAME + SIGNED
    + rb"|holds|fails(?: full| settled| empty| unsettled| won| lost| mixed"
    + rb"|(?: (?:hopeless|possible|sure|unsure))+(?: unsettled)?)"
    + rb"|(?:in|out|open)(?: " + NAME + rb")*|plan " + N + rb" " + N
    + rb"|some product(?: " + NAME + rb")*|unsettled(?: " + N + SIGNED + rb" " + N + rb"(?: or more)?)?"
    + rb"|(?:" + LOOKS + rb")(?: or fewer| or more| unsettled)?"
)
PLAIN = re.compile(rb"\Aparity " + N + rb";\n(?:" + N + rb" " + N + rb" [01](?: " + N + rb"(?:," + N + rb")*)?;\n)+\Z")
COUNTS = re.compile(rb"\Avertices " + N + rb" edges " + N + rb" features " + N + rb" top " + N + rb" " + N + rb"\n\Z")
TOLD = re.compile(rb"\A(?:Configures|Carries|Counts|Writes|Reads|Answers|Draws|Says|Print|vpgdesk [0-9])")
# a picture of a file's names: these may hold any byte but a quote, and are written without control characters
PICTURE = re.compile(rb"\Adigraph (?:game|features|system) \{\n(?:  [^\x00-\x1f]*;\n)*\}\n\Z")
WARNINGS = re.compile(
    rb"\A(?:[^\x00-\x1f\x7f]*(?::[1-9][0-9]*:[1-9][0-9]*: warning: [^\x00-\x1f\x7f]+"
    + rb"|: warning: [a-z ]+: [1-9][0-9]* more)\n)*warnings " + N + rb"\n\Z"
)
# lines about a move, or a vertex, with names behind them
QUOTED = rb' "[^"\x00-\x1f\x7f]*"'
NAMING = {(first.encode(), len(places)) for lines in oracle.VERTICES.values() for first, places in lines.items() if first}
ONE, TWO = (b"|".join(sorted(first for first, count in NAMING if count == number)) for number in (1, 2))
NAMED = re.compile(
    rb"^((?:" + TWO + rb") " + N + rb" " + N + rb'(?: [^"\n]*)?)' + QUOTED + QUOTED
    + rb"$|^((?:(?:" + ONE + rb") )?" + N + rb'(?: [^"\n]*)?)' + QUOTED + rb"$",
    re.M,
)
# the name of a vertex in a picture, in one line or several
NAMED_VERTEX = re.compile(
    rb'^(  ' + N + rb' \[shape=(?:diamond|box), label="' + N + rb" : " + N
    + rb')\\n(?:[^"\\\x00-\x1f]|\\.)*(", (?:penwidth=3, )?fillcolor=)', re.M
)
OF_FAULTY_LINES = re.compile(rb"^refused (?:Word|Args|TooLong)$\n", re.M)
# a lone `--` is as no word
ANSWERING = (b"", b"--", b"run", b"desk")


def are_answers(words, out):
    """Whether these are answers to a script: where the words ask for it, to lines with a fault, and with names."""
    if b"--names" in words:
        out = NAMED_VERTEX.sub(rb"\1\2", NAMED.sub(rb"\1\2", out))
    if b"--keep-going" in words or b"desk" in words:
        out = OF_FAULTY_LINES.sub(b"", out)
    lines = out.split(b"\n")
    return not lines.pop() and all(map(ANSWER.fullmatch, lines))


def faults_in(words, err):
    """The kinds of the faults on standard error, or None where another line stands there that may not."""
    lines = err.splitlines(True)
    told = [kind for line in lines for kind, text in FAULTS.items() if text.match(line.rstrip(b"\n"))]
    explains = any(word in words for word in (b"--explain", b"lint", b"desk"))
    if not (LINES.match(err) and (explains or len(lines) == len(told))):
        return None
    # a fault is told in the first line, but behind a session's talk
    if told and b"desk" not in words and not any(text.match(lines[0].rstrip(b"\n")) for text in FAULTS.values()):
        return None
    return told


def is_quiet(words, err):
    """Whether standard error has nothing, or a session's talk."""
    if b"desk" in words and err:
        counts, _, talk = err.partition(b"\n")
        is_talk = talk.startswith(GREETING) and LINES.match(talk)
        return COUNTS.match(counts + b"\n") and is_talk and not faults_in(words, err)
    return not err


def kind_of(words, status, out, err):
    """What kind of end this is, or None where it is none of those allowed."""
    words = [os.fsencode(word) for word in words]
    task = words[0] if words else b""
    failed = re.search(rb"^fails", out, re.M)
    if status == 0 and is_quiet(words, err) and not (failed and task in ANSWERING):
        forms = {b"project": PLAIN, b"check": COUNTS, b"draw": PICTURE, b"lint": WARNINGS}
        if are_answers(words, out) if task in ANSWERING else task in forms and forms[task].match(out):
            return "done"
        return "help or version" if TOLD.match(out) and not err else None
    if status == 3 and task in ANSWERING and are_answers(words, out):
        if b"--strict" in words and STRICT.match(err):
            return "refused under --strict" if re.search(rb"^refused [^\n]*\n\Z", out, re.M) else None
        return "assertion failed" if failed and is_quiet(words, err) else None
    # a script before the picture
    files = [word for word in words[1:] if not word.startswith(b"-")]
    if status == 3 and task == b"draw" and len(files) > 2 and PICTURE.match(out):
        return None if err else "assertion failed"
    if status == 1 and are_answers(words, out):
        told = faults_in(words, err)
        return told[0] if told and len(told) == 1 else None
    if status == 2 and not out and WRONG_WORDS.match(err):
        return "wrong words"
    return None


# ---- sound families

BUILT_IN = (b"parity 1; 0 1 0 1[f],0; 1 2 1 0[g],1;", b"root r\noptional r f\noptional r g\n", b"exclude f\nsettle\nshow\nundo\nredo\ntrail\n")

RICH = (
    b'parity 9; start 1;\n1 1 0 2[a & !(b | c)],3 "one";\n2 4 1 1[!a],3[d],3[!d & true];\n3 3 0 3[(a | b) & (c | d)],1;\n9 0 1;\n',
    b"root r\nmandatory r a\noptional r b\nalternative b: c d\nor a: e f g\ngroup r 1 2: h i j\nrequires c e\nexcludes d h\n",
    b"2: select b\nsettle 3\nharvest\n64: exclude c\ncommit 1\nlift dual 9\nkeep 1\nplan\ncount\ndraw\nchanged\nforced\nempty\nnumber\nknown b\nshow 3 1\nassert 1 possible sure\nassert 1 won\nassert full\nwhy 1\nwhy b\nwhy +a\nexample 1\ncounterexample 0\nlost 1\nwon 0\noffer 3\nneeds 1\nrepair 1\nspoil 3\nplan 1\ndraw 3\ntrace 3\nwinners 3\ndecide 1\nproducts\nretract b\nreset\nundo\nsettle\nshow\n",
)


def read(*path):
    with open(os.path.join(*path), "rb") as file:
        return file.read()


def examples():
    for family in sorted(os.listdir(EXAMPLES)):
        folder = os.path.join(EXAMPLES, family)
        # (the script of `sessions` is long: it is carried out as it stands by the gate)
        # (some have a system, and no game)
        if os.path.isfile(os.path.join(folder, "game")) and os.path.getsize(os.path.join(folder, "script")) < 65536:
            yield tuple(read(folder, name) for name in ("game", "diagram", "script"))


def random_family(rng):
    diagram, names = oracle.random_diagram(rng)
    game, ids = oracle.random_game(rng, names)
    if rng.random() < 0.5:
        game = oracle.with_random_names(rng, game)
    return tuple(text.encode() for text in (game, diagram, oracle.random_script(rng, names, ids)))


# ---- damage

TOKENS = re.compile(rb"[A-Za-z0-9_]+|[^A-Za-z0-9_]")
DICTIONARY = (
    b"0 1 2 7 00 01 64 65 4096 65535 65536 65537 4294967295 4294967296 1000000000 1000000001 18446744073709551615 18446744073709551616 4611686018427387904 -1 +1 1.5 0x10 "
    b"parity start root mandatory optional alternative or group requires excludes true false select exclude retract reset undo redo keep forget lift harvest commit settle show trail "
    b"products plan count draw changed assert hopeless possible sure unsure mixed full settled why "
    b"trace help goals quit hopeful dual "
    b"r f g a b 1: 65: 0: : ; , [ ] ( ) "
    b"! & | # \" \\ { } \xc3\xa9 \xff \x00 \x0b \x1a"
).split(b" ") + [b"9" * 40, b"9" * 5000, b"x" * 64, b"x" * 65, b" ", b"\t", b"\n", b"\r", b"\r\n", b""]
DICTIONARY += [word.encode() for word in oracle.LOOKS]


def flip(rng, text):
    text = bytearray(text)
    for _ in range(rng.choice([1, 1, 1, 2, 5, 20])):
        if text:
            text[rng.randrange(len(text))] ^= 1 << rng.randrange(8)
    return bytes(text)


def truncate(rng, text):
    return text[: rng.randint(0, len(text))]


def cut(rng, text):
    i, j = sorted(rng.randint(0, len(text)) for _ in range(2))
    return text[:i] + text[j:]


def double(rng, text):
    i, j = sorted(rng.randint(0, len(text)) for _ in range(2))
    return text[:j] + text[i:j] * rng.choice([1, 2, 10]) + text[j:]


def insert(rng, text):
    i = rng.randint(0, len(text))
    return text[:i] + rng.choice(DICTIONARY) + text[i:]


def replace_tokens(rng, text):
    tokens = TOKENS.findall(text)
    for _ in range(rng.choice([1, 1, 2, 4])):
        if tokens:
            tokens[rng.randrange(len(tokens))] = rng.choice(DICTIONARY)
    return b"".join(tokens)


def shuffle_tokens(rng, text):
    tokens = TOKENS.findall(text)
    i = rng.randint(0, len(tokens))
    part = tokens[i : i + rng.choice([3, 8, 1000])]
    rng.shuffle(part)
    return b"".join(tokens[:i] + part + tokens[i + len(part) :])


def shuffle_lines(rng, text):
    lines = text.splitlines(True)
    rng.shuffle(lines)
    return b"".join(lines)


def repeat_line(rng, text):
    lines = text.splitlines(True) or [b"\n"]
    i = rng.randrange(len(lines))
    return b"".join(lines[:i] + [lines[i]] * rng.choice([2, 3, 50, 600]) + lines[i:])


def number_lines(rng, text):
    """Many lines that differ in a number."""
    form = rng.choice([b"optional r z%d\n", b"requires r r\n# %d\n", b"%d 1 0 0;\n", b"%d 3 1 %d[f];\n", b"select z%d\n", b"undo %d\n", b"lift hopeful %d\n"])
    return text + b"".join(form.replace(b"%d", b"%d" % i) for i in range(rng.choice([20, 70, 513, 1200])))


def nest(rng, text):
    deep = rng.choice([1, 63, 64, 65, 66, 500, 20000])
    guard = rng.choice([b"(" * deep + b"f" + b")" * deep, b"!" * deep + b"f", b"(!" * (deep // 2) + b"f" + b")" * (deep // 2), b"(" * deep, b"f" + b")" * deep])
    i = text.find(b"[", rng.randint(0, len(text)))
    return text[: i + 1] + guard + text[i + 1 :] if i >= 0 else text + guard


def carriage_returns(rng, text):
    return text.replace(b"\n", rng.choice([b"\r\n", b"\r", b"\n\r", b"\r\r\n"]))


def zeros(rng, text):
    for _ in range(rng.choice([1, 3])):
        i = rng.randint(0, len(text))
        text = text[:i] + b"\0" * rng.choice([1, 1, 8, 5000]) + text[i:]
    return text


def long_line(rng, text):
    lines = text.splitlines(True) or [b""]
    i = rng.randrange(len(lines))
    lines[i] = lines[i].rstrip(b"\n") + rng.choice([b" ", b"#", b"x", b"\t"]) * rng.choice([4000, 4096, 4097, 9000]) + b"\n"
    return b"".join(lines)


def noise(rng, _text):
    return rng.randbytes(rng.choice([0, 1, 2, 10, 100, 3000]))


DAMAGES = [flip, flip, truncate, cut, double, insert, insert, replace_tokens, replace_tokens, replace_tokens, shuffle_tokens, shuffle_lines, repeat_line, number_lines, nest, carriage_returns, zeros, long_line, noise]


def damaged(rng, text):
    for _ in range(rng.choice([1, 1, 1, 2, 3])):
        text = rng.choice(DAMAGES)(rng, text)[:200000]
    return text


# ---- words and devices

STRANGE_WORDS = [
    "", " ", "-", "--", "-h", "--help", "-V", "--version", "--lifters", "--lifters=4", "0", "64", "65", "run", "project", "check", "help", "rum", "RUN", "--runn", "-x", "é", "game", "script",
    "no/such", ".", "/", "a\nb", "a\tb", "\x1b[31m", "r", "f", "x" * 65, "x" * 5000, "=", "--=", "-hV", b"\xff", b"\xc3", b"f\x80",
    "--strict", "--keep-going", "--names", "--explain", "--features", "--states", "--system", "desk", "lint", "draw",
]


def damaged_words(rng, words):
    words = list(words)
    for _ in range(rng.choice([1, 1, 2, 3])):
        kind, i = rng.randrange(5), rng.randint(0, len(words))
        if kind == 0:
            words.insert(i, rng.choice(STRANGE_WORDS))
        elif kind == 1 and words:
            words.pop(min(i, len(words) - 1))
        elif kind == 2 and words:
            words[min(i, len(words) - 1)] = rng.choice(STRANGE_WORDS)
        elif kind == 3:
            rng.shuffle(words)
        elif words:
            words.insert(i, rng.choice(words))
    return words


# the options of each command, but for `--lifters`
OPTIONS = {
    "run": ["--explain", "--strict", "--keep-going", "--names"],
    "desk": ["--names"],
    "project": ["--explain"],
    "check": ["--explain"],
    "lint": [],
    "draw": ["--explain", "--features"],
}


def options_of(rng, task):
    options = [word for word in OPTIONS[task] if rng.random() < 0.25]
    if task in ("run", "desk") and rng.random() < 0.2:
        options += rng.choice([["--lifters", "2"], ["--lifters=4"]])
    return options


def words_of(rng, diagram):
    task = rng.choices(["", "run", "desk", "project", "check", "lint", "draw"], [2, 5, 2, 2, 2, 1, 1])[0]
    if not task:
        return []
    words = [task, "game", "diagram"]
    if task == "run":
        words.append("script")
    if task == "project":
        names = [name.decode() for name in set(re.findall(rb"[A-Za-z_][A-Za-z0-9_]*", diagram))]
        words += [name for name in sorted(names) if rng.random() < 0.7] + ["r"]
    return words + options_of(rng, task)


def arguments_of(words):
    """The words of a command that was accepted, without its options."""
    words = [os.fsencode(word) for word in words]
    behind = words.index(b"--") if b"--" in words else len(words)
    return [word for word in words[:behind] if len(word) < 2 or not word.startswith(b"-")] + words[behind + 1 :]


TYPED = [
    b"help\n", b"help select\n", b"help frob\n", b"  help  why \n",
    b"quit\n", b"quit now\n", b"exclude r\n", b"frob\n",
]


def typed(rng, script):
    """A script with lines that a session alone has."""
    lines = script.splitlines(True)
    for _ in range(rng.choice([0, 1, 3])):
        lines.insert(rng.randint(0, len(lines)), rng.choice(TYPED))
    return b"".join(lines)


class Case:
    """What a case gives to the program."""

    def __init__(self, seed, number, families):
        rng = random.Random(f"{seed} {number}")
        family = list(rng.choice(families + [None] * 4) or random_family(rng))
        self.words = words_of(rng, family[1])
        if self.words[:1] == ["desk"]:
            family[2] = typed(rng, family[2])
        what = rng.randrange(20)
        if what < 16:
            i = rng.randrange(3) if self.words else 2
            family[i] = damaged(rng, family[i])
        if what in (14, 15):
            family = [damaged(rng, text) for text in family]
        if what >= 16:
            self.words = damaged_words(rng, self.words)
        self.files = dict(zip(("game", "diagram", "script"), family))
        self.gone = rng.choice(["game", "diagram", "script"]) if rng.random() < 0.03 else None
        self.folder_instead = self.gone and rng.random() < 0.5
        self.input = rng.choices(["script", "folder", "closed"], [40, 1, 1])[0]
        self.output = rng.choices(["kept", "full", "closed"], [60, 1, 1])[0]

    def write(self):
        """Writes the files into the present folder."""
        for name, text in self.files.items():
            if os.path.isdir(name):
                os.rmdir(name)
            with open(name, "wb") as file:
                file.write(text)
        if self.gone:
            os.remove(self.gone)
            if self.folder_instead:
                os.mkdir(self.gone)

    def run(self, runner, output):
        """The status, standard output (empty where it is not kept) and standard error."""
        source = "." if self.input == "folder" or not os.path.exists("script") else "script"
        return runner.run(self.words, None if self.input == "closed" else source, output)


class NoEnd(Exception):
    pass


class Runner:
    """Runs a program in the present folder, its output kept in memory. That is faster than `subprocess`."""

    def __init__(self, program):
        self.program = program
        self.kept = [os.memfd_create(name) for name in ("output", "errors")]
        self.spent = 0.0

    def taken(self, file):
        text = os.pread(file, os.fstat(file).st_size, 0)
        os.ftruncate(file, 0)
        os.lseek(file, 0, os.SEEK_SET)
        return text

    def run(self, words, source, output):
        """Status, standard output and standard error. Input is a file, a folder or closed, output kept, full or closed."""
        out, err = self.kept
        actions = [(os.POSIX_SPAWN_DUP2, err, 2)]
        actions.append((os.POSIX_SPAWN_OPEN, 0, source, os.O_RDONLY, 0) if source else (os.POSIX_SPAWN_CLOSE, 0))
        if output == "full":
            actions.append((os.POSIX_SPAWN_OPEN, 1, "/dev/full", os.O_WRONLY, 0))
        else:
            actions.append((os.POSIX_SPAWN_CLOSE, 1) if output == "closed" else (os.POSIX_SPAWN_DUP2, out, 1))
        signals = [signal.SIGPIPE, signal.SIGXFSZ]
        words = [os.fsencode(word) for word in (self.program, *words)]
        pid = os.posix_spawn(self.program, words, os.environ, file_actions=actions, setsigdef=signals)
        status = self.wait(pid)
        return status, self.taken(out), self.taken(err)

    def wait(self, pid):
        late = []

        def end_it(_signal, _frame):
            late.append(True)
            os.kill(pid, signal.SIGKILL)

        signal.signal(signal.SIGALRM, end_it)
        signal.alarm(CLOCK_LIMIT)
        _, status, used = os.wait4(pid, 0)
        signal.alarm(0)
        self.spent += used.ru_utime + used.ru_stime
        if late:
            raise NoEnd
        return os.waitstatus_to_exitcode(status)


def ends(runner, case):
    """The kind of a case's end, or None and why it is a finding."""
    try:
        status, out, err = case.run(runner, case.output)
        whole = (status, out, err) if case.output == "kept" else case.run(runner, "kept")
    except NoEnd:
        return None, f"no end within {CLOCK_LIMIT} seconds by the clock"
    kind = kind_of(case.words, *whole)
    if case.output != "kept":
        # a write that fails has to be told, unless nothing is to be written
        if whole[1]:
            kind = kind and status == 1 and kind_of(case.words, status, out, err) == "write" and "write"
        elif (status, out, err) != whole:
            kind = None
    if not kind:
        return None, f"status {status}, standard error {err[:300]!r}, end of standard output {out[-200:]!r}"
    if kind == "done" and case.words[:1] == ["project"] and case.output == "kept":
        with open("plain", "wb") as file:
            file.write(out)
        status, _, err = runner.run(["check", "plain", arguments_of(case.words)[2]], "/dev/null", "kept")
        if status != 0:
            return None, f"the projected game is not read again: {err!r}"
    return kind, None


# ---- the run


def keep(case, number, why):
    kept = os.path.join(FINDINGS, str(number))
    shutil.rmtree(kept, ignore_errors=True)
    shutil.copytree(".", kept)
    with open(os.path.join(kept, "case"), "w") as out:
        out.write(f"words {case.words!r}\ninput {case.input}\noutput {case.output}\n{why}\n")


def work(program, seed, first, step, cases):
    os.nice(15)
    families = [BUILT_IN, RICH, *examples()]
    counts, findings, slowest = collections.Counter(), 0, 0.0
    runner = Runner(program)
    with tempfile.TemporaryDirectory(dir="/dev/shm" if os.path.isdir("/dev/shm") else None) as folder:
        os.chdir(folder)
        for number in range(first, cases, step):
            case = Case(seed, number, families)
            case.write()
            runner.spent = 0.0
            kind, why = ends(runner, case)
            slowest = max(slowest, runner.spent)
            if why is None and runner.spent > PROCESSOR_LIMIT:
                kind, why = None, f"{runner.spent:.0f} seconds of the processor"
            counts[kind or "FINDING"] += 1
            if why:
                findings += 1
                print(f"case {number}: {why}", flush=True)
                if findings <= 20:
                    keep(case, number, why)
        os.chdir("/")
    return counts, slowest


def main():
    if len(sys.argv) not in (3, 4, 5):
        sys.exit(__doc__)
    program, cases = os.path.abspath(sys.argv[1]), int(sys.argv[2])
    seed = sys.argv[3] if len(sys.argv) > 3 else "1"
    processes = int(sys.argv[4]) if len(sys.argv) > 4 else 2
    began = time.monotonic()
    with multiprocessing.Pool(processes) as pool:
        parts = pool.starmap(work, [(program, seed, i, processes, cases) for i in range(processes)])
    total = sum((counts for counts, _ in parts), collections.Counter())
    for kind, n in sorted(total.items(), key=lambda item: -item[1]):
        print(f"{n:8} {kind}")
    print(f"{sum(total.values()):8} cases, seed {seed}, {time.monotonic() - began:.0f} seconds, the slowest {max(s for _, s in parts):.2f} seconds of the processor, {total['FINDING']} findings")
    sys.exit(1 if total["FINDING"] else 0)


if __name__ == "__main__":
    main()
