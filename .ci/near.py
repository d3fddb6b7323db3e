#!/usr/bin/env python3
"""The stage between the quick check and the gate: programs and tests near a change, carried out without a proof.

    python3 .ci/near.py [COMMIT] [NAME..] [--beside N]

Takes the crates whose files differ from COMMIT (HEAD, if none is named), or those of these names, and all crates above
them. Each program among them runs with its stored input, and what it prints is compared; each crate of tests runs its
tests. N run side by side (2). Nothing is proved, so `near: ok` says nothing of contracts.
"""
import concurrent.futures
import os
import subprocess
import sys
import time

sys.dont_write_bytecode = True
TOP = os.path.dirname(os.path.dirname(os.path.abspath(__file__)))
# a program that makes a whole table of rows takes more steps than `rt try` allows by itself
LIMITS = ["--steps", "20000000000", "--seconds", "1200"]


def crates():
    """What each crate uses, lowest first."""
    rows = [line.partition(":") for line in open(f"{TOP}/crates.txt", encoding="utf-8") if line[:1] not in "#\n"]
    return {name: used.split() for name, _, used in rows}


def git(*words):
    return subprocess.run(["git", "-C", TOP, *words], capture_output=True, check=True, text=True).stdout.splitlines()


def changed(commit):
    """The crates with files that differ from the commit, or that git does not know yet."""
    files = git("diff", "--name-only", commit) + git("ls-files", "--others", "--exclude-standard")
    return {file.split("/")[1] for file in files if file.startswith("crates/") and file.count("/") > 1}


def at_or_above(names):
    """The crates of these names, and all that use them, lowest first."""
    near = set(names)
    for name, used in crates().items():
        if near.intersection(used):
            near.add(name)
    return [name for name in crates() if name in near]


def has_tests(folder):
    """Whether a file of the crate has a test."""
    found = subprocess.run(["grep", "-rqF", "#[test]", f"{folder}/src"], check=False)
    return found.returncode == 0


def stored(folder, name):
    """The bytes of a file beside src/, or nothing."""
    path = f"{folder}/{name}"
    return open(path, "rb").read() if os.path.isfile(path) else b""


def files_of(folder):
    """The words that lay the files of data/ into the folder that the program runs in."""
    data = f"{folder}/data"
    names = sorted(os.path.relpath(os.path.join(at, file), data) for at, _, files in os.walk(data) for file in files)
    return [word for name in names for word in ("--data", f"{name}=data/{name}")]


def ran(folder):
    """Whether the program prints what is stored, and ends as stored."""
    words = ["rt", "try", *LIMITS, *files_of(folder), "--", *stored(folder, "args").decode().splitlines()]
    run = subprocess.run(words, cwd=folder, input=stored(folder, "stdin"), capture_output=True, check=False)
    wanted = int(stored(folder, "status") or 0)
    return run.returncode == wanted and run.stdout == stored(folder, "stdout"), run.stderr


def tested(folder):
    """Whether all tests pass."""
    run = subprocess.run(["rt", "try", "--test", *LIMITS], cwd=folder, capture_output=True, check=False)
    return run.returncode == 0, run.stdout + run.stderr


def tell(task):
    """Carries a task out, and prints how it ended."""
    name, kind, call = task
    began = time.time()
    passed, said = call(f"{TOP}/crates/{name}")
    print(f"{name} {kind}: {'ok' if passed else 'DIFFERS'}, {time.time() - began:.0f} seconds", flush=True)
    if not passed:
        sys.stdout.write(said.decode(errors="replace")[-3000:])
    return passed


def main(words):
    beside = 2
    if "--beside" in words:
        at = words.index("--beside")
        beside = int(words[at + 1])
        del words[at : at + 2]
    named = [word for word in words if word in crates()]
    commits = [word for word in words if word not in named]
    if len(commits) > 1 or any(word.startswith("-") for word in commits):
        sys.exit(__doc__)
    near = at_or_above(named or changed(commits[0] if commits else "HEAD"))
    tasks = [(it, "program", ran) for it in near if os.path.isfile(f"{TOP}/crates/{it}/src/main.rt")]
    tasks += [(it, "tests", tested) for it in near if has_tests(f"{TOP}/crates/{it}")]
    with concurrent.futures.ThreadPoolExecutor(beside) as lanes:
        passed = list(lanes.map(tell, tasks))
    print(f"near: {'ok' if all(passed) else 'FAILED'}, {len(tasks)} programs and tests, nothing proved")
    sys.exit(0 if all(passed) else 1)


main(sys.argv[1:])
