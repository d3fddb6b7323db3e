#!/usr/bin/env python3
"""The gate, told task by task: which crate's proof, tests and wrong bodies begin when, and what each takes.

    python3 bench/gate_times.py --anew        at the top of the repository; from nothing, where the machine keeps what an earlier run passed

It is `rt ci` itself, with lines that begin with `##`; the verdict and the status are its own. Minutes count from the start.
"""
import importlib.machinery
import importlib.util
import inspect
import os
import shutil
import sys
import time

sys.dont_write_bytecode = True
LOADER = importlib.machinery.SourceFileLoader("rt", os.path.realpath(shutil.which("rt")))
SPEC = importlib.util.spec_from_loader("rt", LOADER)
RT = importlib.util.module_from_spec(SPEC)
LOADER.exec_module(RT)

START = time.time()
IN_LANES, MUST_FAIL = RT.in_lanes, RT.must_fail


def tell(text):
    print(f"## {(time.time() - START) / 60:6.2f} {text}", flush=True)


def told(key, call):
    """The call of a task, with a line before and behind it."""

    def timed(given, jobs):
        began, name = time.time(), " ".join(map(str, key))
        tell(f"begin {name}, {jobs} at once")
        try:
            return call(given, jobs)
        finally:
            tell(f"end {name}, {(time.time() - began) / 60:.2f} minutes")

    return timed


def in_lanes(tasks):
    return IN_LANES({key: (*task[:3], told(key, task[3])) for key, task in tasks.items()})


def must_fail(crate, edit, flags, kept=None):
    began = time.time()
    answer = MUST_FAIL(crate, edit, flags, kept)
    tell(f"edit {crate.name} {os.path.basename(edit)}, {time.time() - began:.0f} seconds")
    return answer


RT.in_lanes, RT.must_fail = in_lanes, must_fail
# where the kit keeps nothing each run is from nothing, and there is no word for it
sys.exit(RT.ci("--anew" in sys.argv[1:]) if inspect.signature(RT.ci).parameters else RT.ci())
