#!/usr/bin/env python3
"""Refuses each growth of a run in turn.

    refused.py PROGRAM GAME DIAGRAM SCRIPT      of a script
    refused.py PROGRAM --random CASES [SEED]    of random families with their scripts, each by one lifter or by several
    refused.py --pairs PROGRAM GAME DIAGRAM SCRIPT  of a script, two growths in one run
    refused.py --calls PROGRAM                  of each call that vpg_refusals or another such program makes
    refused.py --any PROGRAM [WORD..]           of any program that ends by itself

A run is made once for each of its allocations (calls of malloc and realloc), with that one refused, by a small library
before them, built with cc.

Of a script the output has to be that of the whole run, where it did without the memory, or what was written before
`vpgdesk: Memory`. Of another program (`--any`) it has to be the whole output, or a beginning of it and a status other
than 0 and no signal. It prints how often each came, with which allocations, and the first run that ended otherwise.
With `--pairs` each growth is refused together with each later one that the run still makes.

Of calls the program has to say of each that nothing changed. For it is marked: before each call and after it it
allocates a block of a size that nothing else has. The table has for each call how many growths it makes on its row, how
many of their refusals were `Memory` with everything unchanged, and how many the call did without.
"""
import collections
import os
import random
import re
import subprocess
import sys
import tempfile

# The counts stand in a file that the library maps, so that they are there however the program ends: by `_exit` no
# destructor runs. Without marks all allocations belong to call 0.
LIBRARY = r"""
#define _GNU_SOURCE
#include <dlfcn.h>
#include <errno.h>
#include <fcntl.h>
#include <stdatomic.h>
#include <stdlib.h>
#include <sys/mman.h>
#define CALLS 4096
#define BEGINS 7654321
#define ENDS 7654323
static _Atomic long own[CALLS], *counts = own;
static _Atomic long call = 0, active = 1;
static long refused_call = 0, refused = -1, also_refused = -1;
static void *(*real_malloc)(size_t), *(*real_realloc)(void *, size_t);
static void begin(void) {
    real_realloc = dlsym(RTLD_NEXT, "realloc");
    real_malloc = dlsym(RTLD_NEXT, "malloc");
    if (getenv("REFUSED")) refused = atol(getenv("REFUSED"));
    if (getenv("ALSO_REFUSED")) also_refused = atol(getenv("ALSO_REFUSED"));
    if (getenv("REFUSED_CALL")) refused_call = atol(getenv("REFUSED_CALL"));
    if (getenv("MARKED")) active = 0;
    if (getenv("COUNTS")) {
        void *room = mmap(NULL, sizeof own, PROT_READ | PROT_WRITE, MAP_SHARED, open(getenv("COUNTS"), O_RDWR), 0);
        if (room == MAP_FAILED) abort();
        counts = room;
    }
}
static int is_refused(size_t bytes) {
    if (!real_malloc) begin();
    if (bytes == BEGINS && getenv("MARKED")) { call++; active = 1; return 0; }
    if (bytes == ENDS && getenv("MARKED")) { active = 0; return 0; }
    if (!active || call >= CALLS) return 0;
    long number = atomic_fetch_add(&counts[call], 1) + 1;
    if (call != refused_call || (number != refused && number != also_refused)) return 0;
    errno = ENOMEM;
    return 1;
}
void *malloc(size_t bytes) {
    return is_refused(bytes) ? NULL : real_malloc(bytes);
}
void *realloc(void *old, size_t bytes) {
    return is_refused(bytes) ? NULL : real_realloc(old, bytes);
}
"""
CALLS = 4096
# the end of a whole run; 3 where an assertion of a script fails
SOUND = (0, 3)


class Refuser:
    """Runs a command with one of its allocations refused."""

    def __init__(self, room, command, **environment):
        source, self.library = os.path.join(room, "refuse.c"), os.path.join(room, "refuse.so")
        self.counted = os.path.join(room, "counts")
        self.command, self.environment = command, environment
        if not os.path.exists(self.library):
            with open(source, "w") as out:
                out.write(LIBRARY)
            subprocess.run(["cc", "-shared", "-fPIC", "-O1", "-o", self.library, source, "-ldl"], check=True)

    def run(self, **more):
        environment = dict(os.environ, LD_PRELOAD=self.library, **self.environment, **more)
        return subprocess.run(
            self.command, capture_output=True, text=True, env=environment, stdin=subprocess.DEVNULL, timeout=600
        )

    def counted_run(self, **more):
        """A run, and how many allocations each call made in it."""
        with open(self.counted, "wb") as out:
            out.write(bytes(8 * CALLS))
        ran = self.run(COUNTS=self.counted, **more)
        with open(self.counted, "rb") as file:
            got = file.read()
        return ran, [int.from_bytes(got[8 * i : 8 * i + 8], sys.byteorder) for i in range(CALLS)]

    def whole(self):
        """The run without a refusal, and how many allocations each call made."""
        whole, counts = self.counted_run()
        if whole.returncode not in SOUND or not any(counts):
            sys.exit(f"the whole run: status {whole.returncode}, {sum(counts)} allocations\n{whole.stderr}")
        return whole, counts


def judged(refuser, is_right, whole, got, what):
    """How a run ended. Where that is not right, it ends all."""
    end = is_right(whole, got)
    if end is None:
        output = f"{got.stdout}{got.stderr}\nof {refuser.command}"
        sys.exit(f"allocation {what} refused: status {got.returncode}\n{output}")
    return end


def refuse_each(refuser, is_right):
    """How each refusal ended: for each end the numbers of the allocations. The first that is not right ends it all."""
    whole, counts = refuser.whole()
    ends = collections.defaultdict(list)
    for n in range(1, counts[0] + 1):
        got = refuser.run(REFUSED=str(n))
        ends[judged(refuser, is_right, whole, got, f"{n} of {counts[0]}")].append(n)
    return counts[0], ends


def refuse_pairs(refuser):
    """Of each growth and each later one of the run in which it is refused: how often each end came."""
    whole, whole_counts = refuser.whole()
    ends = collections.Counter()
    for n in range(1, whole_counts[0] + 1):
        got, counts = refuser.counted_run(REFUSED=str(n))
        judged(refuser, of_script, whole, got, n)
        for m in range(n + 1, counts[0] + 1):
            got = refuser.run(REFUSED=str(n), ALSO_REFUSED=str(m))
            ends[judged(refuser, of_script, whole, got, f"{n} and {m}")] += 1
    return ends


WHOLE = "the whole output"


def of_script(whole, got):
    if (got.returncode, got.stdout) == (whole.returncode, whole.stdout):
        return WHOLE
    if got.returncode == 1 and got.stderr == "vpgdesk: Memory\n" and whole.stdout.startswith(got.stdout):
        return "Memory"
    return None


def of_any(whole, got):
    if (got.returncode, got.stdout) == (whole.returncode, whole.stdout):
        return WHOLE
    if got.returncode <= 0 or not whole.stdout.startswith(got.stdout):
        return None
    return f"status {got.returncode} ({got.stderr.splitlines()[0] if got.stderr else 'no word'})"


def tell(allocations, ends):
    for end, numbers in ends.items():
        print(f"{end}: {len(numbers)} of {allocations} allocations, from {numbers[0]} to {numbers[-1]}")


def random_families(program, cases, seed):
    """Refuses each allocation of random scripts."""
    import oracle

    total, ends_of_all, runs = 0, collections.Counter(), 0
    with tempfile.TemporaryDirectory() as room:
        for number in range(cases):
            rng = random.Random(f"refused {seed} {number}")
            diagram, names = oracle.random_diagram(rng)
            game, ids = oracle.random_game(rng, names)
            # What a settling cut short leaves depends on hints, which may be refused, and on the order of threads.
            script = re.sub(r"settle \d+", "settle", oracle.random_script(rng, names, ids))
            words = []
            for name, text in (("game", game), ("diagram", diagram), ("script", script)):
                words.append(os.path.join(room, name))
                with open(words[-1], "w") as out:
                    out.write(text)
            refuser = Refuser(room, [program, "run", *words, "--lifters", rng.choice(["1", "1", "2", "4"])])
            if refuser.run().returncode not in SOUND:
                # its diagram contradicts itself, or its game is refused
                continue
            allocations, ends = refuse_each(refuser, of_script)
            total += allocations
            runs += 1
            for end, numbers in ends.items():
                ends_of_all[end] += len(numbers)
    ends = "".join(f"{end} {count}, " for end, count in sorted(ends_of_all.items()))
    print(f"{runs} scripts, {total} allocations, each refused in turn: {ends}0 wrong ends")


WRONG = ("CHANGED", "ENDS OTHERWISE", "IS NEVER DONE")
LINE = re.compile(r"([0-9]+) (.*): ([^:]*)")


def told(text):
    """The lines of a marked run: how many calls were made until then, the name, and what came of it."""
    lines = (LINE.fullmatch(line).groups() for line in text.splitlines())
    return [(int(number), name, word) for number, name, word in lines]


def calls(program):
    """Refuses each growth of each call that the program marks, and prints the table."""
    with tempfile.TemporaryDirectory() as room:
        refuser = Refuser(room, [program, "marked"], MARKED="1")
        whole, counts = refuser.whole()
        lines, before, total, wrong = told(whole.stdout), 0, 0, 0
        print("| Call | Growths | `Memory`, unchanged | Done all the same |")
        print("|---|---|---|---|")
        for place, (made, name, _) in enumerate(lines):
            tries = range(before + 1, made + 1)
            before, refused, without = made, 0, 0
            for call in tries:
                for n in range(1, counts[call] + 1):
                    got = refuser.run(REFUSED=str(n), REFUSED_CALL=str(call))
                    ended = told(got.stdout) if got.returncode == 0 else []
                    bad = [it for it in ended if it[2].startswith(WRONG)]
                    if bad or [it[1] for it in ended] != [it[1] for it in lines]:
                        print(f"{name}, call {call}, growth {n}: status {got.returncode} {bad} {got.stderr[-300:]}")
                        wrong += 1
                    elif ended[place][0] == made:
                        without += 1
                    else:
                        refused += 1
            growths = sum(counts[call] for call in tries)
            total += growths
            if tries:
                print(f"| `{name}` | {growths} | {refused} | {without} |", flush=True)
        print(f"{total} growths of {len(lines)} calls refused in turn, {wrong} wrong ends")
        sys.exit(1 if wrong else 0)


def main():
    words = sys.argv[1:]
    if len(words) == 2 and words[0] == "--calls":
        calls(os.path.abspath(words[1]))
    elif len(words) in (3, 4) and words[1] == "--random":
        random_families(os.path.abspath(words[0]), int(words[2]), words[3] if len(words) == 4 else "1")
    elif len(words) == 5 and words[0] == "--pairs":
        with tempfile.TemporaryDirectory() as room:
            ends = refuse_pairs(Refuser(room, [os.path.abspath(words[1]), "run", *words[2:]]))
            told = "".join(f"{end} {count}, " for end, count in sorted(ends.items()))
            print(f"{sum(ends.values())} pairs of allocations, both refused: {told}0 wrong ends")
    elif len(words) >= 2 and words[0] == "--any":
        with tempfile.TemporaryDirectory() as room:
            tell(*refuse_each(Refuser(room, [os.path.abspath(words[1]), *words[2:]]), of_any))
    elif len(words) == 4:
        with tempfile.TemporaryDirectory() as room:
            tell(*refuse_each(Refuser(room, [os.path.abspath(words[0]), "run", *words[1:]]), of_script))
    else:
        sys.exit(__doc__)


if __name__ == "__main__":
    main()
