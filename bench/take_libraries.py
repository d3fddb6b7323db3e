#!/usr/bin/env python3
"""Takes libraries that a run of the gate built in another checkout, for checks of the crates above them.

    python3 bench/take_libraries.py FOLDER        FOLDER is the top of the other checkout

A gate leaves the libraries that it built in crates/*/out/rlib, as statements without their proofs, and does not mark
them as built; so a later `rt check` would build each anew, half an hour for the upper crates. Here those are copied and
marked whose text, and that of all crates below, is the same in both checkouts and older than the library. Take them all
from one run: statements fit only the libraries that they were built over. The gate itself begins from nothing whatever
stands there.
"""
import functools
import importlib.machinery
import importlib.util
import os
import shutil
import sys

sys.dont_write_bytecode = True
LOADER = importlib.machinery.SourceFileLoader("rt", os.path.realpath(shutil.which("rt")))
SPEC = importlib.util.spec_from_loader("rt", LOADER)
RT = importlib.util.module_from_spec(SPEC)
LOADER.exec_module(RT)
# (a crate's stamp has those of all crates below, along each way that leads there: without this it takes minutes)
RT.rtlib.Crate.stamp = functools.cache(RT.rtlib.Crate.stamp)

ROOT = os.path.dirname(os.path.dirname(os.path.abspath(__file__)))
# a crate's stamp is made of those of all crates below: each is made once
RT.rtlib.Crate.stamp, RT.rtlib.Crate.below = map(functools.cache, [RT.rtlib.Crate.stamp, RT.rtlib.Crate.below])


def linked(one, other):
    """Gives a file a second name, on one disk, and else copies it: rt never writes into a file of a library."""
    try:
        os.link(one, other)
    except OSError:
        shutil.copyfile(one, other)


def crates_at(top):
    """The crates of a checkout by name."""
    os.chdir(top)
    return {it.name: it for it in RT.rtlib.crates_below(top)}


@functools.cache
def is_made(crate):
    """Whether the checkout has a library of the crate, and no file of the crate is younger."""
    made = f"{crate.folder}/out/rlib/{crate.name}.rlib"
    if not os.path.isdir(made):
        return False
    return all(os.path.getmtime(it) < os.path.getmtime(made) for it in RT.rtlib.files_of(crate.folder))


def main(words):
    if len(words) != 1:
        sys.exit(__doc__)
    theirs = crates_at(os.path.abspath(words[0]))
    made = {name for name, crate in theirs.items() if all(map(is_made, [crate, *crate.below()]))}
    taken, had, left = [], [], []
    for name, crate in crates_at(ROOT).items():
        if name not in made or theirs[name].stamp() != crate.stamp():
            left.append(name)
            continue
        kept = f"{crate.folder}/out/rlib"
        if os.path.isfile(f"{kept}/stamp") and RT.rtlib.text_of(f"{kept}/stamp") == crate.stamp():
            had.append(name)
            continue
        shutil.rmtree(kept, ignore_errors=True)
        # (a mark of theirs is theirs alone)
        own = shutil.ignore_patterns("stamp")
        shutil.copytree(f"{theirs[name].folder}/out/rlib", kept, ignore=own, copy_function=linked)
        with open(f"{kept}/stamp", "w", encoding="utf-8") as it:
            it.write(crate.stamp())
        taken.append(name)
    print(f"taken: {' '.join(sorted(taken)) or 'none'}")
    print(f"here already: {' '.join(sorted(had)) or 'none'}")
    print(f"left: {' '.join(sorted(left)) or 'none'}")


main(sys.argv[1:])
