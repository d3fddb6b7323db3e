#!/usr/bin/env python3
"""Tests the page in a headless Chromium, and its relay without a browser.

    python3 clients/web/test.py [--program FILE] [--shots DIR] [--strict] [WORD..]

With WORDs only the tests run whose names have one of them. Times are measured as the least of several tries, and fail
at six times their bar, since the machine may be busy; with --strict at the bar. Without Chromium and its driver
(Debian's `chromium` and `chromium-driver`) the tests of the page are skipped. The last line is
`N passed, N failed, N skipped`; the exit status is 0 if none failed.
"""
import argparse
import os
import sys
import time
import traceback

sys.dont_write_bytecode = True
sys.path.insert(0, os.path.dirname(os.path.abspath(__file__)))
from serve import program_of  # pylint: disable=wrong-import-position
from tests import browser, page, protocol, relay  # pylint: disable=wrong-import-position


def passes(name, test, *given):
    """Whether a test passes; says so, with what it measured."""
    begun = time.monotonic()
    try:
        said = test(*given)
    except Exception:  # pylint: disable=broad-exception-caught
        print(f"failed {name}\n{traceback.format_exc()}", flush=True)
        return False
    print(f"passed {name} ({time.monotonic() - begun:.1f} s){': ' + said if said else ''}", flush=True)
    return True


def results_of(tests, shots):
    """Whether each test of the page passes; none is tried if no browser can be had."""
    try:
        driver = browser.Driver()
    except OSError as it:
        print(f"skipped the tests of the page: no browser can be had: {it}")
        return []
    with driver:
        try:
            room = page.Room(driver, shots)
        except (OSError, RuntimeError, ValueError, TypeError) as it:
            print(f"skipped the tests of the page: the browser does not start: {it}")
            return []
        return [passes(test.__name__, test, room) for test in tests]


def main():
    parser = argparse.ArgumentParser(description=__doc__, formatter_class=argparse.RawDescriptionHelpFormatter)
    parser.add_argument("words", nargs="*", metavar="WORD")
    parser.add_argument("--program")
    parser.add_argument("--shots", metavar="DIR", help="writes pictures of six scenes into this folder")
    parser.add_argument("--strict", action="store_true")
    it = parser.parse_args()
    relay.STRICT[0] = it.strict
    relay.PROGRAM[0] = os.path.abspath(program_of(it.program))

    def wanted(test):
        return not it.words or any(word in test.__name__ for word in it.words)

    of_page = [test for test in page.TESTS if wanted(test)]
    results = [passes(test.__name__, test) for test in protocol.TESTS if wanted(test)]
    in_browser = results_of(of_page, it.shots) if of_page else []
    skipped = len(of_page) - len(in_browser)
    results += in_browser
    print(f"{results.count(True)} passed, {results.count(False)} failed, {skipped} skipped")
    return 1 if False in results else 0


if __name__ == "__main__":
    sys.exit(main())
