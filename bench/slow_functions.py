#!/usr/bin/env python3
"""Seconds that each function took to prove, by the times at which a first check wrote its modules.

    slow_functions.py CRATE [N]      the N slowest, 30 where not given

First, in the crate's folder: rm -rf out/incremental; rt check --jobs 1. With more jobs, or after a later check, the times mean nothing.
Of each function the parts that took longest are told: Lts is the letting go of values, Tie the calls, Proof the clauses and conditions, Kinds and
Statement the contract itself.
"""
import collections
import os
import re
import sys

PARTS = re.compile(r"^(Lts|Tie|Code|Proof|Answers|Invariants|Statement|Met|Kinds|Steps|Loans|Held|Again|Row|Inv)")


def modules(folder):
    """Seconds between one module and the one written before it, with the module's name."""
    files = []
    for at, _, names in os.walk(folder):
        files += [(os.stat(os.path.join(at, name)).st_mtime, name) for name in names if name.startswith("Rattle-")]
    files.sort()
    return [(time - before, name) for (before, _), (time, name) in zip(files, files[1:])]


def function_and_part(name):
    library, _, path = re.sub(r"(\.decls)?\.oantt$", "", name).removeprefix("Rattle-").partition(".")
    words = path.split(".")
    if library.endswith("-proofs") and PARTS.match(words[-1]):
        return library.removesuffix("-proofs") + "::" + ".".join(words[:-1]), words[-1].split("-")[0]
    return library + "::" + path, "file"


def main():
    if len(sys.argv) not in (2, 3):
        sys.exit(__doc__)
    top = os.path.join(os.path.dirname(os.path.abspath(__file__)), os.pardir)
    seconds = collections.defaultdict(collections.Counter)
    for time, name in modules(os.path.join(top, "crates", sys.argv[1], "out", "incremental")):
        function, part = function_and_part(name)
        seconds[function][part] += time
    print(f"{sum(sum(parts.values()) for parts in seconds.values()):7.1f} in all")
    slowest = sorted(seconds.items(), key=lambda it: -sum(it[1].values()))
    for function, parts in slowest[: int(sys.argv[2]) if len(sys.argv) > 2 else 30]:
        told = ", ".join(f"{part} {time:.1f}" for part, time in parts.most_common(4) if time >= 0.2)
        print(f"{sum(parts.values()):7.1f} {function:60} {told}")


if __name__ == "__main__":
    main()
