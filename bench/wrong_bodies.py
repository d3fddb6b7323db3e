#!/usr/bin/env python3
"""Tries wrong bodies on a copy of the repository, and writes what became of each into bench/wrong_bodies.tsv.

    python3 bench/wrong_bodies.py [CRATE..] [--only WORD] [--gate | --outside] [--together NUMBER] [--beside NUMBER] [--room FOLDER] [--table FILE]
    python3 bench/wrong_bodies.py --stale [CRATE..] [--only WORD] [--gate | --outside]
    python3 bench/wrong_bodies.py --rule [CRATE..] [--outside]

A wrong body is a file of crates/CRATE/must-fail (tried by the gate) or crates/CRATE/wrong-bodies (outside it); with no CRATE all crates are tried, lowest
first. --only takes those whose name holds the word. Wrong bodies of different functions are tried in one check, up to eight (--together), since each function
is proved by itself; what is not told apart so is tried alone. So many checks run side by side (--beside, or one). What was tried on the same text (the crate's,
and the contracts and definitions below it) is not tried again, so a run that was broken off goes on where it ended; --stale tries nothing, and names what is
left to try. The copy is made in a folder that is removed, or in --room, where what was proved stays for the next run. Kept work (out/) of the checkout is copied,
so that little is proved again; the checkout itself is only read, but for the table.

What the table says of a wrong body:

    refused    a goal of the function is open: `clause NAME` of its contract, `returns` (its whole contract), an `invariant`, a `loop`'s invariant, or what
               a `call`, an index or a sum needs. In the column `seen`: `open` where the goal had no written answer, `answer` where its written answer is of
               another type than the goal now is, `name` where a proof file names what is gone. In the last two cases it was tried again without those
               answers, and then the goal was open
    mismatch   only a proof file is in the way, also without those answers: this shows nothing of the contract
    PROVED     the contract lets the wrong body through
    compiler   refused by the compiler, as the edit's first line says
    test       no contract speaks of it: the test fails that the edit's first line names, or the program that it names
               writes something else than its stored output
    bad        it does not fit, or does not compile
    untried    no run has tried it to its end since the table is kept; the column `goal` says what is known of it

A wrong body of the gate has to be refused by a clause, a whole contract or a type's invariant, with all names that proof files use: in the columns, `refused`,
not by `name`, and `goal` is none of a loop, a call or a step. --rule tries nothing: it reads the table and names each wrong body of the gate (or of those
outside it) with what refused it, those that break the rule last, and exits with 1 where there are any.
"""
import argparse
import concurrent.futures
import datetime
import fcntl
import functools
import hashlib
import importlib.machinery
import importlib.util
import multiprocessing
import os
import re
import resource
import shutil
import subprocess
import sys
import tempfile

sys.dont_write_bytecode = True
LOADER = importlib.machinery.SourceFileLoader("rt", os.path.realpath(shutil.which("rt")))
SPEC = importlib.util.spec_from_loader("rt", LOADER)
RT = importlib.util.module_from_spec(SPEC)
LOADER.exec_module(RT)
# copies a folder by links; an earlier kit has no call that does
LINKED = getattr(RT, "linked", shutil.copytree)
# (wrong bodies are tried on copies, so the stamps of crates stay as they are)
RT.rtlib.Crate.stamp = functools.cache(RT.rtlib.Crate.stamp)

ROOT = os.path.dirname(os.path.dirname(os.path.abspath(__file__)))
FOLDERS = {"gate": "must-fail", "outside": "wrong-bodies"}
COLUMNS = ["crate", "edit", "where", "date", "commit", "text", "verdict", "seen", "function", "goal", "seconds"]
ROUNDS = 8
# How many wrong bodies a share has, about, where several run side by side.
SHARE = 14
SIGNED = re.compile(r"(?:(?:pub|abbrev|unfoldable|opaque) )*([^\s(){},]+) :(?:\s|$)")
GONE = re.compile(r"has no field|is not in scope|has no `|was not admitted")
BY_COMPILER = "# refused by the compiler: "
BY_TEST = "# refused by the test: "
BY_ROW = "# refused by the row: "


def copied(room):
    """Copies the checkout into the room: texts anew, and kept work where the room has none."""
    for name in ("crates.txt", "HANDLES"):
        if os.path.isfile(f"{ROOT}/{name}"):
            shutil.copy(f"{ROOT}/{name}", f"{room}/{name}")
    for crate in sorted(os.listdir(f"{ROOT}/crates")):
        for part in (*RT.rtlib.PARTS, *FOLDERS.values(), "data"):
            mirror(f"{ROOT}/crates/{crate}/{part}", f"{room}/crates/{crate}/{part}")
        # (what a program writes is compared where a row refuses a wrong body)
        if os.path.isfile(f"{ROOT}/crates/{crate}/stdout"):
            shutil.copy(f"{ROOT}/crates/{crate}/stdout", f"{room}/crates/{crate}/stdout")
        out = f"{room}/crates/{crate}/out"
        if not os.path.isdir(out) and os.path.isdir(f"{ROOT}/crates/{crate}/out"):
            shutil.copytree(f"{ROOT}/crates/{crate}/out", out)


def mirror(source, target):
    """Makes the target's files those of the source, and writes only those that differ."""
    files = lambda top: {os.path.relpath(f"{at}/{name}", top) for at, _, names in os.walk(top) for name in names}
    for name in files(target) - files(source):
        os.remove(f"{target}/{name}")
    for name in files(source):
        os.makedirs(os.path.dirname(f"{target}/{name}"), exist_ok=True)
        if not os.path.isfile(f"{target}/{name}") or read(f"{target}/{name}") != read(f"{source}/{name}"):
            shutil.copyfile(f"{source}/{name}", f"{target}/{name}")


def read(path):
    with open(path, "rb") as it:
        return it.read()


def interface(text):
    """
    A source file without the bodies of its functions, its comments, and the functions that no other crate can call: what
    the proofs of a crate above see of it.
    """
    lines, kept, at = [it for it in text.split("\n") if not it.lstrip().startswith("//")], [], 0
    while at < len(lines):
        found = re.match(r"( *)(?:pub(?:\([a-z]+\))? )?fn ", lines[at])
        begin, is_own = len(kept), re.match(r" *pub\([a-z]+\) fn |fn ", lines[at])
        kept.append(lines[at])
        at += 1
        if not found or kept[-1].endswith((";", "}")):
            continue
        ends, heads = (f"{found[1]}{{", f"{found[1]}{{}}"), (f"{found[1]})", found[0])
        # (a body begins on a line of its own where clauses stand before it)
        while at < len(lines) and lines[at] not in ends:
            if kept[-1].endswith(" {") and kept[-1].startswith(heads):
                break
            kept.append(lines[at])
            at += 1
            if kept[-1].endswith(";"):
                break
        if at < len(lines) and not kept[-1].endswith(";") and (kept[-1].endswith(" {") or lines[at] in ends):
            while at < len(lines) and lines[at] not in (f"{found[1]}}}", ends[1]):
                at += 1
            at += 1
        if is_own:
            del kept[begin:]
    return "\n".join(it for it in kept if it.strip())


def text_of(crate, edit):
    """
    Names the text that a verdict rests on: the crate's, the contracts and definitions below it, and the edit's own. What
    a test has to refuse rests on the code below, too.
    """
    text = read(edit)
    found = hashlib.sha256(text)
    is_run = text.decode().startswith((BY_TEST, BY_ROW))
    for it in [crate, *crate.below()]:
        for part in RT.rtlib.PARTS if it is crate else ("src", "specs"):
            for at, folders, names in os.walk(f"{it.folder}/{part}"):
                folders.sort()
                for name in sorted(names):
                    content = read(f"{at}/{name}")
                    if it is not crate and name.endswith(".rt") and not is_run:
                        content = interface(content.decode()).encode()
                    found.update(f"{it.name} {os.path.relpath(f'{at}/{name}', it.folder)}\0".encode() + content)
    return found.hexdigest()[:12]


def seconds():
    used = resource.getrusage(resource.RUSAGE_CHILDREN)
    return used.ru_utime + used.ru_stime


def kind_of(goal):
    """Names what an open goal is of: a clause, the contract, an invariant, a loop, or what a step needs."""
    if re.search(r"(^|-)returns(-|$)", goal):
        clause = re.search(r"-clause-([^-]+)(-\d+)?$", goal)
        return f"clause {clause[1]}" if clause else "returns"
    if "-requires" in goal:
        return f"call {goal}"
    if goal.startswith("invariant_of") or "-invariant_of" in goal:
        return "invariant"
    if re.search(r"-(init|preserved|smaller)(-|$)", goal):
        return f"loop {goal}"
    return f"step {goal}"


def open_goals(said):
    """The goals that no proof was found for: pairs of function and goal."""
    found = []
    for function, rest in re.findall(r"(?m)^fn (\S+): no proof: (?!it calls)(.*)$", said):
        names = rest.rpartition("did not prove")[2] if "did not prove" in rest else ""
        found += [(function, goal) for goal in re.findall(r"`([^`]+)`", names)] or [(function, "")]
    return found


def waiting(said):
    """The functions that were not tried, since one that they call is not proved."""
    return re.findall(r"(?m)^fn (\S+): no proof: it calls", said)


def faults(said):
    """The faults of proof files: where each stands, of which definition it is, and what is said."""
    found = re.findall(r"(?m)^(?:\./)?(proofs/\S+?):(\d+):\d+: error: (.*)$", said)
    return [(path, int(line), text) for path, line, text in found]


def without(text, line):
    """The text of a proof file without the definition, or the `use`, that stands at this line, its name, and where it began."""
    lines = text.split("\n")
    if line > len(lines):
        return None, "", line
    if lines[line - 1].startswith("use "):
        return "\n".join([*lines[: line - 1], *lines[line:]]), "", line
    signed = {at: it[1] for at, line in enumerate(lines) if (it := SIGNED.match(line))}
    begin = max((at for at in signed if at < line), default=None)
    if begin is None:
        return None, "", line
    name, end = signed[begin], begin + 1
    # (its clauses begin with its name, below a line of what they unfold, and may end in a bracket at the line's begin)
    own = (" ", f"{name} ", "unfolding ", ")", "]", "}")
    while end < len(lines) and (not lines[end].strip() or lines[end].startswith(own)):
        end += 1
    begin -= lines[begin - 1].startswith("unfolding ")
    return "\n".join([*lines[:begin], *lines[end:]]), name.rpartition("::")[2], begin + 1


def best(goals):
    """The function and the open goals that say most of its contract."""
    order = ("clause", "returns", "invariant", "loop", "call", "step")
    rank = lambda it: order.index(kind_of(it[1]).split()[0])
    function, goal = min(goals, key=rank)
    same = [kind_of(it[1]) for it in goals if it[0] == function and rank(it) == rank((function, goal))]
    return function, ", ".join(dict.fromkeys(same))


class Body:
    """A wrong body that is being tried: what it changes, which function stands around that, and what was seen of it so far."""

    def __init__(self, crate, name, part, edit, text):
        self.crate, self.name, self.part, self.text = crate, name, part, text
        lines = read(edit).decode().split("\n")
        self.compiler = lines[0][len(BY_COMPILER) :].strip() if lines[0].startswith(BY_COMPILER) else ""
        self.test = lines[0][len(BY_TEST) :].strip() if lines[0].startswith(BY_TEST) else ""
        self.is_row = lines[0].startswith(BY_ROW)
        self.test = lines[0][len(BY_ROW) :].strip() if self.is_row else self.test
        self.pairs = pairs_of(lines)
        self.why = RT.read_edit(edit, crate.folder)[1]
        self.place, self.functions = place_of(self.pairs, crate)
        # a wrong body outside any function is tried alone, as is one that is tried again
        self.alone = bool(self.compiler or self.test) or len(self.functions) != 1 or None in self.functions
        # proof files without the answers that were in the way, and the names of those that fell only with another
        self.cuts, self.fallen = {}, set()
        self.seen, self.first, self.rounds, self.seconds, self.is_proved = "open", ("", ""), 0, 0.0, False


def pairs_of(lines):
    path, old, found = "", "", []
    for line in lines:
        if line.startswith("file: "):
            path = line[6:]
        elif line.startswith("old: "):
            old = line[5:]
        elif line.startswith("new:"):
            found.append((path, old, line[4:].removeprefix(" ")))
    return found


def place_of(pairs, crate):
    """Where the first change stands, and the names of the functions around the changes: None where one stands in no function."""
    place, functions, texts = None, set(), {}
    for path, old, new in pairs:
        file = f"{crate.folder}/{path}"
        text = texts.setdefault(path, read(file).decode() if os.path.isfile(file) else "")
        at = text.find(old)
        place = place or (path, at)
        functions.add(function_at(text, at + len(old) - len(old.lstrip())))
        texts[path] = text.replace(old, new, 1)
    return place or ("", 0), functions


def function_at(text, at):
    found = None
    for it in re.finditer(r"(?m)^( *)(?:pub(?:\([a-z]+\))? )?(?:const )?fn (\w+)", text):
        if it.start() > at:
            break
        end = re.compile(rf"(?m)^{it[1]}\}}").search(text, it.end())
        if end and at <= end.start():
            found = it[2]
    return found


def applied(bodies, folder):
    """The texts with each of these wrong bodies in turn, and those among them that fitted."""
    texts, fitted = {}, []
    for body in bodies:
        changed = dict(texts)
        for path, old, new in body.pairs:
            if path not in changed:
                changed[path] = read(f"{folder}/{path}").decode()
            if changed[path].count(old) != 1:
                break
            changed[path] = changed[path].replace(old, new)
        else:
            texts = changed
            fitted.append(body)
    for body in fitted:
        texts.update(body.cuts)
    return texts, fitted


def is_of(function, body):
    """Whether the prover's function is the body's, or a closure in it."""
    name, within = next(iter(body.functions)), re.search(r"::fn::(\w+)", function)
    return name is None or name == (within[1] if within else re.findall(r"\w+", function)[-1])


def tried(crate, bodies, kept, log):
    """Tries wrong bodies of different functions in one check, and returns those that have a verdict, as pairs, and those that are to be tried again."""
    texts, fitted = applied(bodies, crate.folder)
    again = [it for it in bodies if it not in fitted]
    before = seconds()
    ran = RT.checked(crate, texts, ["--jobs", "1"], kept)
    said = ran.stdout
    log.write(f"{' '.join(it.name for it in fitted)}\n{said}\n{'=' * 100}\n")
    done = []
    for body in fitted:
        body.seconds += (seconds() - before) / len(fitted)
    whole = len(fitted) == 1
    if ran.returncode == 0:
        for body in fitted:
            if whole and kept is None:
                done.append((body, ("PROVED", body.seen if body.seen != "open" else "", *body.first)))
            else:
                body.alone = body.is_proved = True
                again.append(body)
        return done, again
    if not re.search(r"(?m)^logic=not-proved", said):
        if not whole:
            for body in fitted:
                body.alone = True
            return done, again + fitted
        told = [it for it in said.rstrip("\n").split("\n") if re.match(r"\S+:\d+:\d+: error", it)] or said.strip().split("\n")
        done.append((fitted[0], ("bad", "", "", re.sub(r"\s+", " ", told[0])[:200])))
        return done, again
    goals, wrong, blocked = open_goals(said), faults(said), waiting(said)
    for body in fitted:
        left = [it for it in goals if whole or is_of(it[0], body)]
        # (a goal whose answer was cut only since that cited another shows nothing)
        own = [it for it in left if it[1].rpartition("::")[2] not in body.fallen]
        told = [it for it in own if kind_of(it[1]).startswith(("clause", "returns", "invariant"))]
        bad = [it for it in wrong if whole or is_of(os.path.dirname(it[0]).replace("/", "::"), body)]
        if told or own and not bad:
            function, goal = best(told or own)
            done.append((body, ("refused", body.seen, function, goal) if own[0][1] else ("bad", body.seen, function, "no proof was made")))
        elif not bad:
            # not told apart from the others, or proved: alone it is seen which
            if whole or left:
                done.append((body, ("mismatch", body.seen, *body.first)))
            else:
                body.alone = not any(is_of(it, body) for it in blocked)
                again.append(body)
        else:
            if body.seen == "open":
                body.seen = "name" if any(GONE.search(text) for _, _, text in bad) else "answer"
                inside = re.match(r"proofs/(.*)/\w+\.antt", bad[0][0])
                body.first = (inside[1].replace("/", "::") if inside else bad[0][0], re.sub(r"\s+", " ", bad[0][2])[:120])
            body.rounds += 1
            if body.rounds < ROUNDS and cut(crate, body, bad):
                again.append(body)
            else:
                done.append((body, ("refused", body.seen, *best(own)) if own else ("mismatch", body.seen, *body.first)))
    return done, again


def cut(crate, body, wrong):
    """Takes the answers that are in the way out of the proof files that the body is tried with."""
    is_less, left = False, {}
    for path, line, _ in sorted(wrong, key=lambda it: (it[0], -it[1])):
        # (of what is cut already, a second fault says nothing new)
        if re.search(r"(Answers|Invariants)\.antt$", path) and line < left.get(path, line + 1):
            new, name, begin = without(body.cuts.get(path) or read(f"{crate.folder}/{path}").decode(), line)
            if new is not None:
                body.cuts[path], is_less, left[path] = new, True, begin
                body.fallen |= {name} if body.rounds > 1 else set()
    return is_less


def is_failing(crate, body, log):
    """
    Whether the test that the body names, a crate and a name, fails with it: the tests of that crate are run, unproved,
    on a copy of the texts. Where it names a program alone, whether that writes something else than its stored output.
    """
    above, _, test = body.test.partition(" ")
    with tempfile.TemporaryDirectory(prefix="wrong-body-") as top:
        shutil.copytree(os.curdir, top, ignore=shutil.ignore_patterns("out", "said-*"), dirs_exist_ok=True)
        for path, text in applied([body], crate.folder)[0].items():
            with open(f"{top}/crates/{crate.name}/{path}", "w", encoding="utf-8") as it:
                it.write(text)
        folder = f"{top}/crates/{above}"
        if body.is_row:
            return writes_otherwise(folder, test.split(), body, log)
        said = subprocess.run(["rt", "try", "--test"], cwd=folder, stdout=subprocess.PIPE, stderr=subprocess.STDOUT, text=True).stdout
    log.write(f"{body.name}\n{said}\n{'=' * 100}\n")
    return bool(re.search(rf"(?m)^test (\S+::)?{test} \.\.\. FAILED", said))


def writes_otherwise(folder, words, body, log):
    """Whether a program, run unproved over its data with these words, ends and writes what its stored output lacks."""
    top = f"{folder}/data"
    data = sorted(os.path.relpath(f"{at}/{name}", top) for at, _, names in os.walk(top) for name in names)
    handed = [word for name in data for word in ("--data", f"{name}=data/{name}")]
    command = ["rt", "try", "--seconds", "600", *handed, *(["--", *words] if words else [])]
    ran = subprocess.run(command, cwd=folder, stdin=subprocess.DEVNULL, capture_output=True, text=True)
    log.write(f"{body.name}\n{ran.stdout}\n{ran.stderr}\n{'=' * 100}\n")
    stored = read(f"{folder}/stdout").decode()
    return "run=ended" in ran.stderr and (ran.stdout not in stored if words else ran.stdout != stored)


def batches(bodies, most):
    """Takes the next wrong bodies to be tried at once: of different functions, or one alone."""
    if bodies[0].alone:
        return bodies[:1]
    taken = []
    for body in bodies:
        if not body.alone and len(taken) < most and not any(body.functions & it.functions for it in taken):
            taken.append(body)
    return taken


def try_all(crate, bodies, kept, most, log):
    """Tries the wrong bodies, and yields each with its verdict."""
    left = sorted(bodies, key=lambda it: (it.alone, it.place))
    while left:
        now = batches(left, most)
        left = [it for it in left if it not in now]
        if now[0].why:
            yield now[0], ("bad", "", "", now[0].why)
        elif now[0].compiler:
            said = RT.checked(crate, applied(now, crate.folder)[0], ["--jobs", "1"], None).stdout
            log.write(said)
            is_so = now[0].compiler in said and "logic=" not in said
            yield now[0], ("compiler", "", "", now[0].compiler) if is_so else ("bad", "", "", f"the compiler does not say {now[0].compiler}")
        elif now[0].test:
            before = seconds()
            is_so = is_failing(crate, now[0], log)
            now[0].seconds += seconds() - before
            yield now[0], ("test", "", "", now[0].test) if is_so else ("bad", "", "", f"this test does not fail: {now[0].test}")
        else:
            # (what seems to be proved is proved again from nothing, not over what earlier ones left)
            is_proved = len(now) == 1 and now[0].is_proved
            done, again = tried(crate, now, None if is_proved else kept, log)
            log.flush()
            yield from done
            left = sorted(left + again, key=lambda it: (it.alone, it.place))


def rows_of(table):
    if not os.path.isfile(table):
        return {}
    with open(table, encoding="utf-8") as it:
        lines = [line.rstrip("\n").split("\t") for line in it]
    return {(row[0], row[1]): dict(zip(COLUMNS, row)) for row in lines[1:]}


def write_row(table, row, names):
    """Puts a row into the table, which has one for each edit, in the order of the crates and, within one, of the names."""
    folder = os.open(os.path.dirname(os.path.abspath(table)), os.O_RDONLY)
    try:
        fcntl.flock(folder, fcntl.LOCK_EX)
        rows = rows_of(table)
        if row:
            rows[row["crate"], row["edit"]] = row
        with open(f"{table}.new", "w", encoding="utf-8") as it:
            it.write("\t".join(COLUMNS) + "\n")
            for crate, edit in sorted(names, key=names.get):
                found = {**rows.get((crate, edit), {"verdict": "untried"}), "crate": crate, "edit": edit, "where": names[crate, edit][2]}
                it.write("\t".join(found.get(column, "") for column in COLUMNS) + "\n")
        os.replace(f"{table}.new", table)
    finally:
        os.close(folder)


def main():
    asked = argparse.ArgumentParser(description=__doc__, formatter_class=argparse.RawDescriptionHelpFormatter)
    asked.add_argument("crates", nargs="*", metavar="CRATE")
    asked.add_argument("--only", default="", metavar="WORD")
    asked.add_argument("--gate", action="store_true")
    asked.add_argument("--outside", action="store_true")
    asked.add_argument("--rule", action="store_true")
    asked.add_argument("--stale", action="store_true")
    asked.add_argument("--together", type=int, default=8, metavar="NUMBER")
    asked.add_argument("--beside", type=int, default=1, metavar="NUMBER")
    asked.add_argument("--room", metavar="FOLDER")
    asked.add_argument("--table", default=f"{ROOT}/bench/wrong_bodies.tsv", metavar="FILE")
    asked = asked.parse_args()
    if asked.rule:
        return ruled(asked)
    if asked.stale:
        return told_stale(asked)
    with tempfile.TemporaryDirectory(prefix="wrong-bodies-") as made:
        room = os.path.abspath(asked.room) if asked.room else made
        os.makedirs(room, exist_ok=True)
        return tried_all(asked, room)


def broken(row):
    """Says how the row breaks the rule of the gate's wrong bodies, or returns None."""
    if row["verdict"] != "refused":
        return row["verdict"]
    if row["seen"] == "name":
        return "a proof file names what is gone"
    if not row["goal"].startswith(("clause", "returns", "invariant")):
        return f"no clause: {row['goal']}"
    return None


def ruled(asked):
    """Tells of each wrong body what refused it, and whether that was on the present text."""
    part = "outside" if asked.outside else "gate"
    rows, told = rows_of(asked.table), []
    for crate in crates_at(ROOT):
        folder = f"{crate.folder}/{FOLDERS[part]}"
        for name in sorted(os.listdir(folder) if os.path.isdir(folder) and (not asked.crates or crate.name in asked.crates) else []):
            row = rows.get((crate.name, name[: -len(".edit")]), {"verdict": "untried", "text": ""})
            why = broken(row)
            what = why or f"{row['function']}: {row['goal']}"
            told.append((why is not None, crate.name, name[: -len(".edit")], what, text_of(crate, f"{folder}/{name}") == row["text"]))
    for is_broken, crate, edit, what, is_present in sorted(told, key=lambda it: it[0]):
        print(f"{'BREAKS THE RULE ' if is_broken else ''}{crate} {edit}: {what}{'' if is_present else ' (on an earlier text)'}")
    count = sum(it[0] for it in told)
    print(f"{len(told)} wrong bodies, {count} of them break the rule")
    return 1 if count else 0


def crates_at(top):
    """The crates of a checkout, lowest first."""
    return sorted(RT.rtlib.crates_below(top), key=lambda it: len(it.below()))


def named(crates):
    """Each wrong body's place in the table: its crate's number, its file, and whether the gate tries it."""
    found = {}
    for at, crate in enumerate(crates):
        for part in FOLDERS:
            folder = f"{crate.folder}/{FOLDERS[part]}"
            for edit in sorted(os.listdir(folder) if os.path.isdir(folder) else []):
                if edit.endswith(".edit"):
                    found[crate.name, edit.removesuffix(".edit")] = (at, edit, part)
    return found


def left_of(crates, asked):
    """The wrong bodies of each crate that are asked for, and that the table has not on the present text."""
    rows, left = rows_of(asked.table), {}
    for (of, name), (at, edit, part) in named(crates).items():
        is_asked = asked.only in name and (not asked.crates or of in asked.crates)
        if is_asked and (getattr(asked, part) or not asked.gate and not asked.outside):
            path, row = f"{crates[at].folder}/{FOLDERS[part]}/{edit}", rows.get((of, name))
            text = text_of(crates[at], path)
            if not row or row["text"] != text or row["verdict"] == "bad":
                left.setdefault(of, []).append(Body(crates[at], name, part, path, text))
    return left


def told_stale(asked):
    """Names each wrong body that is left to try on the present text, and exits with 1 where there are any."""
    left = [it for those in left_of(crates_at(ROOT), asked).values() for it in those]
    for it in left:
        print(f"{it.crate.name} {it.name}")
    print(f"{len(left)} wrong bodies have no row on the present text")
    return 1 if left else 0


# The run's, which its processes have from the start.
LANES = None


def carried_out(kind, *given):
    return getattr(LANES, kind)(*given)


class Lanes:
    """
    What a run has to do, as tasks that wait for one another: the libraries below a crate, a check of the crate as it
    stands, and its wrong bodies in shares, each over its own copy of what that check proved. Tasks run in processes of
    their own, so that each counts its own seconds.
    """

    def __init__(self, asked, room, crates, left):
        self.asked, self.room, self.left = asked, room, left
        self.crates, self.names = {it.name: it for it in crates}, named(crates)
        self.commit = subprocess.run(["git", "-C", ROOT, "rev-parse", "--short", "HEAD"], stdout=subprocess.PIPE, text=True).stdout.strip()
        wanted = [it for it in crates if it.name in left]
        below = {dep.name for it in wanted for dep in it.below()}
        self.waits = {("check", it.name): [("library", dep.name) for dep in it.below()] for it in wanted}
        for name in below:
            own = [("check", name)] if name in left else []
            self.waits["library", name] = [*own, *[("library", dep.name) for dep in self.crates[name].below()]]

    def kept(self, name, of="incremental"):
        return f"{self.crates[name].folder}/out/{of}"

    def library(self, name):
        return not self.crates[name].build_rlib(["--jobs", "1"], anew=False), []

    def check(self, name):
        os.makedirs(self.kept(name), exist_ok=True)
        return not RT.checked(self.crates[name], {}, ["--jobs", "1"], self.kept(name)).returncode, []

    def share(self, name, number):
        """Tries a share of the crate's wrong bodies, and names those that somebody has to look at."""
        kept, loud = self.kept(name, f"kept-{number}"), []
        shutil.rmtree(kept, ignore_errors=True)
        LINKED(self.kept(name), kept)
        with open(f"{self.room}/said-{name}-{number}", "a", encoding="utf-8") as log:
            for body, said in try_all(self.crates[name], self.shares(name)[number], kept, self.asked.together, log):
                row = [name, body.name, body.part, datetime.date.today().isoformat(), self.commit, body.text, *said, f"{body.seconds:.0f}"]
                write_row(self.asked.table, dict(zip(COLUMNS, row)), self.names)
                loud += [f"{name}/{body.name}"] * (said[0] in ("PROVED", "bad"))
                mark = f"{'*' * 20} " if said[0] in ("PROVED", "bad") else ""
                print(f"{mark}{name} {body.name}: {' '.join(it for it in said if it)} ({body.seconds:.0f} s)", flush=True)
        shutil.rmtree(kept, ignore_errors=True)
        return True, loud

    def shares(self, name):
        """Cuts the crate's wrong bodies into shares, those of one function into several, since they are not tried at once."""
        # (by place alone: a process that tries several shares marks bodies as alone meanwhile)
        bodies = sorted(self.left[name], key=lambda it: it.place)
        number = 1 if self.asked.beside == 1 else max(1, round(len(bodies) / SHARE))
        return [bodies[at::number] for at in range(number)]

    def run(self):
        """Carries out all tasks, lowest crates first, and returns what somebody has to look at."""
        well, running, loud, order = {}, {}, [], [*self.crates]
        with concurrent.futures.ProcessPoolExecutor(self.asked.beside, multiprocessing.get_context("fork")) as pool:
            while self.waits or running:
                for key in sorted(self.waits, key=lambda it: (it[0] != "share", order.index(it[1]))):
                    told = [well.get(it) for it in self.waits[key]]
                    if False in told:
                        well[key] = False
                        del self.waits[key]
                    elif None not in told and len(running) < self.asked.beside:
                        running[pool.submit(carried_out, *key)] = key
                        del self.waits[key]
                for it in concurrent.futures.wait(running, return_when=concurrent.futures.FIRST_COMPLETED).done:
                    key = running.pop(it)
                    well[key], more = it.result()
                    loud += more
                    if key[0] == "check" and well[key]:
                        print(f"== {key[1]}: {len(self.left[key[1]])} wrong bodies", flush=True)
                        self.waits.update({("share", key[1], at): [key] for at in range(len(self.shares(key[1])))})
        for name in self.left:
            if not well["check", name]:
                print(f"{name}: IT IS NOT PROVED AS IT STANDS, so none of its wrong bodies was tried", flush=True)
                loud.append(name)
        return loud


def tried_all(asked, room):
    copied(room)
    os.chdir(room)
    RT.rtlib.guarded()
    crates = crates_at(room)
    write_row(asked.table, None, named(crates))
    global LANES
    LANES = Lanes(asked, room, crates, left_of(crates, asked))
    loud = LANES.run()
    print(f"{len(loud)} to look at: {' '.join(loud)}" if loud else "none was proved and none was bad")
    return 1 if loud else 0


if __name__ == "__main__":
    sys.exit(main())
