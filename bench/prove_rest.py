#!/usr/bin/env python3
"""Proves the crates that are not proved yet here, as the gate does, over the libraries that are, several at once.

    python3 bench/prove_rest.py [--beside N] [--edits] [--list] [NAME..]

First `bench/take_libraries.py` takes the libraries that a gate built in another checkout. Here each other crate is
proved from nothing with its tests, lowest first, N at once (4), or those of these names with what they need below. With
`--edits` its wrong bodies in must-fail/ are tried too. At the end programs and tests run, and what they print is
compared. `--list` names what would be proved. A library that was proved is marked, so the next run, and `rt check`,
go on from there. Edit nothing meanwhile: texts are read once. It is no verdict: that is the gate's, which
trusts nothing that stands in out/.
"""
import copy
import functools
import importlib.machinery
import importlib.util
import os
import shutil
import sys
import tempfile
import threading
import time

sys.dont_write_bytecode = True
LOADER = importlib.machinery.SourceFileLoader("rt", os.path.realpath(shutil.which("rt")))
SPEC = importlib.util.spec_from_loader("rt", LOADER)
RT = importlib.util.module_from_spec(SPEC)
LOADER.exec_module(RT)

ROOT = os.path.dirname(os.path.dirname(os.path.abspath(__file__)))
START, PRINTING = time.time(), threading.Lock()
# a program has no library, so its mark is a file of its own
MARK = {False: "out/rlib/stamp", True: "out/proved"}


def tell(text):
    print(f"{(time.time() - START) / 60:6.2f} {text}", flush=True)


def mark_of(crate):
    return f"{crate.folder}/{MARK[crate.is_program]}"


def is_proved(crate):
    mark = mark_of(crate)
    return os.path.isfile(mark) and RT.rtlib.text_of(mark) == crate.stamp()


def prove(crate, tests):
    """Proves the crate or its tests, prints what was said if they are refused, and returns whether they are proved."""
    crate, began = copy.copy(crate), time.time()
    with tempfile.TemporaryFile("a+", errors="replace") as crate.out:
        try:
            os.makedirs(f"{crate.folder}/out", exist_ok=True)
            unkempt = not tests and RT.rtlib.fmt(crate.folder, "--check", crate.out)
            status = 1 if unkempt else crate.ci(["--jobs", "1"], tests)
        except SystemExit:
            status = 1
        crate.out.seek(0)
        with PRINTING:
            what = f"{crate.name}{' tests' if tests else ''}"
            tell(f"{what}: {'NOT PROVED' if status else 'proved'}, {(time.time() - began) / 60:.2f} minutes")
            if status:
                print(crate.out.read()[-6000:], flush=True)
    return not status


def proof(crate):
    def call(given, _jobs):
        if not all(given.get((it.name, "proof"), True) for it in crate.below()):
            tell(f"{crate.name}: left out, for a library below")
            return False
        if not prove(crate, False):
            return False
        with open(mark_of(crate), "w", encoding="utf-8") as it:
            it.write(crate.stamp())
        return True

    return call


def tests(crate):
    return lambda given, _jobs: not crate.has_tests() or prove(crate, True)


def edits(crate):
    def call(given, _jobs):
        if not given[crate.name, "proof"]:
            return False
        good, bad = RT.edits_of(crate)
        tried = RT.must_fail_all(crate, good, ["--jobs", "1"])
        for refused, said in tried:
            tell(f"{'' if refused else 'NOT REFUSED '}{said[:240]}")
        return not bad and all(refused for refused, _ in tried)

    return call


def main(words):
    beside = 4
    if "--beside" in words:
        at = words.index("--beside")
        beside = int(words[at + 1])
        del words[at : at + 2]
    flags = {it for it in words if it.startswith("--")}
    names = [it for it in words if it not in flags]
    if flags - {"--edits", "--list"}:
        sys.exit(__doc__)
    os.chdir(ROOT)
    os.environ["RT_JOBS"] = str(beside)
    RT.rtlib.Crate = RT.Crate
    RT.Crate.stamp, RT.Crate.below = map(functools.cache, [RT.Crate.stamp, RT.Crate.below])
    RT.Crate.cuts_libraries = True
    RT.rtlib.guarded()
    RT.Crate.allowed = RT.handles_of(ROOT)
    crates = sorted(RT.rtlib.crates_below(ROOT), key=lambda it: len(it.below()))
    needed = {below.name for it in crates if it.name in names for below in [it, *it.below()]}
    rest = [it for it in crates if (not names or it.name in needed) and not is_proved(it)]
    if "--list" in flags:
        sys.exit(print(*[it.name for it in rest]))
    left, tasks = {it.name for it in rest}, {}
    for it in rest:
        waits, lines = [(below.name, "proof") for below in it.below() if below.name in left], it.count(rb"\n")
        tasks[it.name, "proof"] = (waits, lines, RT.need(it), proof(it))
        tasks[it.name, "tests"] = (waits, lines * it.has_tests(), RT.need(it), tests(it))
        if "--edits" in flags:
            both = [(it.name, "proof"), (it.name, "tests")]
            tasks[it.name, "edits"] = (both, lines * bool(RT.edits_of(it)[0]), RT.need(it), edits(it))
    given = RT.in_lanes(tasks)
    failed = [" ".join(key) for key, is_well in given.items() if not is_well]
    for it in rest:
        for of_tests in (False, True):
            made = f"{it.folder}/out/{it.name}{'_tests' if of_tests else ''}"
            ends = [end for end in RT.BACKENDS.values() if (of_tests or it.is_program) and os.path.isfile(made + end)]
            if given[it.name, "tests" if of_tests else "proof"] and not all(RT.run(it, of_tests, end) for end in ends):
                failed.append(f"{it.name} run")
    tell(f"{len(rest)} crates, {len(failed)} failures{': ' if failed else ''}{', '.join(failed)}")
    return 1 if failed else 0


if __name__ == "__main__":
    sys.exit(main(sys.argv[1:]))
