#!/usr/bin/env python3
"""The functions with the most code in libraries that are built: in seconds, without a check.

    large_functions.py [N] [FOLDER]  the N largest (30), of the libraries in the checkout FOLDER (this one)

First the libraries, then the functions, by an estimate of what the prover makes of them, in million bytes of modules:
half of one for a function, and a quarter for each thousand bytes of its code. That was fitted to 303 functions of
`vpg_regions` and `vpg_values`, of which it explains two thirds. A million takes about 0.8 seconds of a processor. What
a library takes beyond that are its searches, its lemmas, and what it loads.
"""
import collections
import glob
import json
import os
import sys


def functions(library):
    with open(os.path.join(library, "toolchain", "mir.json"), encoding="utf-8") as it:
        code = json.load(it)
    for name, function in code:
        if "body" in function:
            yield name, len(json.dumps(function["body"]))


def main():
    if len(sys.argv) > 3 or len(sys.argv) > 1 and not sys.argv[1].isdigit():
        sys.exit(__doc__)
    top = sys.argv[2] if len(sys.argv) > 2 else os.path.join(os.path.dirname(os.path.abspath(__file__)), os.pardir)
    made, count, found = collections.Counter(), collections.Counter(), []
    for library in sorted(glob.glob(os.path.join(top, "crates", "*", "out", "rlib", "*.rlib"))):
        for name, size in functions(library):
            crate = os.path.basename(library)[: -len(".rlib")]
            made[crate] += 0.5 + 0.25 * size / 1000
            count[crate] += 1
            found.append((size, name))
    for crate, bytes_made in made.most_common():
        print(f"{bytes_made:7.0f} {count[crate]:4} functions  {crate}")
    for size, name in sorted(found, reverse=True)[: int(sys.argv[1]) if len(sys.argv) > 1 else 30]:
        print(f"{0.5 + 0.25 * size / 1000:7.1f} {size:6} bytes of code  {name}")


if __name__ == "__main__":
    main()
