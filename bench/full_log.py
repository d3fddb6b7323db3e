#!/usr/bin/env python3
"""Scripts that fill the log of a run: where `refused LogFull` begins, how long each takes, what memory the log takes.

    python3 bench/full_log.py VPGDESK

Each script begins with commands of the built-in family, fills the log up to some last calls, and ends with commands whose answers are told here, as docs/FORMATS.md tells them.
"""
import subprocess
import sys
import tempfile
import time

ROOM = 1_048_576
FULL = "refused LogFull"
# the calls of a command
CALLS = {"lift": 2, "settle": 3}
LIFT = "lift hopeful 0"

# before the log is filled, the calls that are left then, and the commands behind with their answers
SCRIPTS = [
    (["settle"], 0, [("show", FULL), (LIFT, FULL), ("settle", FULL), ("2: trail", FULL), ("select f", FULL)]),
    # no line is answered by half of its calls
    (["settle"], 1, [(LIFT, FULL), ("products", FULL)]),
    (["settle"], 1, [("settle", FULL), ("settle", FULL)]),
    (["settle"], 2, [("settle", FULL), ("plan", FULL)]),
    (["settle"], 2, [(LIFT, "added 0"), ("harvest", FULL)]),
    (["settle"], 3, [("settle", "settled 0"), ("settle", FULL)]),
    # what makes no call is answered as ever, and what is held stays
    (["select f"], 1, [("undo 1", "undone 1"), ("redo", FULL), ("redo 1", FULL), ("forget 1", FULL), ("forget 1", FULL)]),
    (["select f"], 0, [("undo", FULL), ("keep 1", FULL), ("undo 2", "refused NoToken"), ("select h", "refused UnknownFeature"), ("lift dual 7", "refused NoVertex")]),
    (["harvest"], 1, [("harvest", "harvest 2"), ("commit 2", FULL), ("commit 2", FULL), ("commit 3", "refused NoHarvest")]),
    # a refusal of the desk is logged
    (["select f"], 1, [("select f", "refused AlreadyDecided 1"), ("select f", FULL)]),
]


def calls_of(line):
    return CALLS.get(line.split()[0], 1)


def tried(program, first, left, last):
    made = sum(map(calls_of, first))
    lines = list(first)
    if (ROOM - left - made) % 2:
        lines.append("show")
        made += 1
    lines += [LIFT] * ((ROOM - left - made) // 2) + [line for line, _ in last]
    began = time.monotonic()
    ran = subprocess.run([program], input="\n".join(lines), capture_output=True, text=True)
    seconds = time.monotonic() - began
    told = ran.stdout.split("\n")[:-1]
    early = FULL in told[: -len(last)]
    wanted = [answer for _, answer in last]
    if ran.returncode or ran.stderr or early or told[-len(last) :] != wanted:
        print(f"WRONG: {first} with {left} left: {told[-len(last):]}, not {wanted}; status {ran.returncode} {ran.stderr}")
        return False
    print(f"as told, in {seconds:.1f} s: {first} with {left} left")
    return True


def peak(program, lines):
    """Peak memory of a run, in bytes."""
    with tempfile.NamedTemporaryFile("w") as script:
        script.writelines(line + "\n" for line in lines)
        script.flush()
        words = ["/usr/bin/env", "time", "-f", "%M", program, "run", "examples/mine_pump/game", "examples/mine_pump/diagram", script.name]
        ran = subprocess.run(words, stdout=subprocess.DEVNULL, stderr=subprocess.PIPE, text=True, check=True)
    return int(ran.stderr) * 1024


def main(words):
    if len(words) != 1:
        sys.exit(__doc__)
    for lines in (["products"], ["lift hopeful 1000"], ["settle"], ["select start", "undo"]):
        number = ROOM // sum(map(calls_of, lines))
        more = peak(words[0], lines * number) - peak(words[0], lines)
        print(f"a log of `{', '.join(lines)}`: {more / (number * sum(map(calls_of, lines))):.0f} bytes a call")
    return 0 if all([tried(words[0], *script) for script in SCRIPTS]) else 1


sys.exit(main(sys.argv[1:]))
