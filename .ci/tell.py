#!/usr/bin/env python3
"""Repeats what `rt ci` says, as it comes, and once more at the end what a reader of a long output looks for there.

    rt ci 2>&1 | python3 .ci/tell.py

At the end stand the last lines that were said of each crate that was not proved, and the minute at which the proof or
the tests of each crate ended: they tell the longest chain. Minutes count from the start of this program.
"""
import re
import sys
import time

WELL = re.compile(r": proved$|^statements |^by-macro: ")
ENDED = re.compile(r"rt: (\w+)(: its tests are)? (NOT PROVED|proved)")
LAST = 20


def main():
    start, section, again, minutes = time.time(), [], [], []
    for line in sys.stdin:
        sys.stdout.write(line)
        sys.stdout.flush()
        line = line.rstrip("\n")
        if line.startswith("== "):
            section = []
        if not WELL.search(line):
            section.append(line[:300])
        ended = ENDED.fullmatch(line)
        if ended:
            minutes.append(f"{ended[1]}{' tests' if ended[2] else ''} {(time.time() - start) / 60:.0f}")
            if ended[3] != "proved":
                again += [f"again: {line}", *section[-LAST - 1 : -1]]
            section = []
    for line in again:
        print(line)
    if minutes:
        print(f"ended at minute: {', '.join(minutes)}")


main()
