#!/usr/bin/env python3
"""Drives the program line by line through a pipe, and tells how long an answer takes.

    driving.py PROGRAM GAME DIAGRAM [LINES]      1,000 lines where not given
    driving.py --json PROGRAM GAME DIAGRAM SCRIPT

It selects, settles, asks and undoes in turn, and checks that each line gets just its answer before the next line is sent.
With --json the client of docs/DRIVING.md asks each line of SCRIPT that is no comment. Its answers have the lines of a
plain run, in order; tones, causes and numbers of lines are as those lines say.
"""
import os
import select
import subprocess
import sys
import textwrap
import time

DRIVING = os.path.join(os.path.dirname(os.path.dirname(os.path.abspath(__file__))), "docs", "DRIVING.md")

# a line of a script, and the first word of the last line of its answer
ROUND = [("select %s", "done"), ("settle", "settled"), ("products", "open"), ("trail", "entries"), ("undo", "undone")]


class Desk:
    """The program, and one command after another."""

    def __init__(self, program, game, diagram):
        words = [program, "run", game, diagram, "/dev/stdin"]
        self.process = subprocess.Popen(words, stdin=subprocess.PIPE, stdout=subprocess.PIPE, bufsize=0)
        self.answers = self.process.stdout

    def ask(self, line, last):
        """The lines of the answer: up to the one that begins with the word `last`, or with `refused`."""
        self.process.stdin.write(line.encode() + b"\n")
        answer = []
        while not answer or answer[-1].split(" ")[0] not in (last, "refused"):
            text = self.read_line()
            if not text:
                raise EOFError(f"no answer to {line!r}")
            answer.append(text)
        return answer

    def read_line(self):
        text = bytearray()
        while not text.endswith(b"\n"):
            byte = self.answers.read(1)
            if not byte:
                return ""
            text += byte
        return text[:-1].decode()

    def close(self):
        self.process.stdin.close()
        return self.process.wait()


class Timed:
    """The program, asked line by line, and the processor seconds of each answer. After each line comes `known` of the
    root, whose answer ends it."""

    def __init__(self, program, game, diagram, limit):
        with open(diagram) as it:
            root = it.read().split("root", 1)[1].split()[0]
        self.after, self.end, self.limit = f"known {root}\n", f"in {root}\n".encode(), limit
        words = [program, "run", game, diagram, "/dev/stdin"]
        self.child = subprocess.Popen(words, stdin=subprocess.PIPE, stdout=subprocess.PIPE)
        self.reading, _ = self.ask("")

    def spent(self):
        """Processor seconds of the process, with those of threads that have ended."""
        return time.clock_gettime(~self.child.pid << 3 | 2)

    def ask(self, line):
        """Seconds, and the lines of the answer. After `limit` seconds the program is killed, and both are None."""
        began, text = self.spent(), bytearray()
        self.child.stdin.write(f"{line}\n{self.after}".encode())
        self.child.stdin.flush()
        while not (text == self.end or text.endswith(b"\n" + self.end)):
            if not select.select([self.child.stdout], [], [], 0.2)[0]:
                if self.spent() - began > self.limit:
                    self.child.kill()
                    self.close()
                    return None, None
                continue
            piece = os.read(self.child.stdout.fileno(), 1 << 16)
            if not piece:
                raise EOFError(f"no answer to {line!r}")
            text += piece
        # (by now it waits for the next line, or soon does)
        time.sleep(0.001)
        return self.spent() - began, text.decode().splitlines()[:-1]

    def close(self):
        if self.child.stdin:
            self.child.stdin.close()
        return self.child.wait()


def client(program):
    """The class of the client that docs/DRIVING.md shows, for this program."""
    with open(DRIVING) as file:
        text = file.read()
    begins = text.index("    import json")
    code = textwrap.dedent(text[begins:text.index("    desk = Desk(", begins)])
    made = {}
    exec(code.replace('"vpgdesk"', repr(program)), made)
    return made["Desk"]


def refusal_of(line):
    """The members of the cause that a refusal's line tells."""
    cause, *argument = line.split(" ")[1:]
    if not argument:
        return {"cause": cause}
    if argument[0].isdigit():
        return {"cause": cause, "serial": int(argument[0])}
    return {"cause": cause, "feature": argument[0]}


def ask_in_json(program, game, diagram, script):
    with open(script) as file:
        asked = [line for line in file.read().splitlines() if line.strip() and not line.strip().startswith("#")]
    words = [program, "run", "--keep-going", game, diagram, "/dev/stdin"]
    plain = subprocess.run(words, input="\n".join(asked).encode(), capture_output=True)
    desk = client(program)(game, diagram)
    answers = [desk.ask(line) for line in asked]
    assert "".join(f"{line}\n" for said in answers for line in said["answer"]) == plain.stdout.decode()
    for number, said in enumerate(answers, 1):
        first = said["answer"][0]
        tone = first.split(" ")[0]
        assert said["line"] == number, said
        assert said["tone"] == {"refused": "refused", "fails": "failed"}.get(tone, "done"), said
        assert said.get("refused") == (refusal_of(first) if tone == "refused" else None), said
    desk.program.stdin.close()
    status = desk.program.wait()
    assert status == plain.returncode, (status, plain.returncode)
    print(f"{len(answers)} answers, status {status}: the client of DRIVING reads what a plain run writes")


def main():
    if len(sys.argv) == 6 and sys.argv[1] == "--json":
        return ask_in_json(*sys.argv[2:])
    if len(sys.argv) not in (4, 5):
        sys.exit(__doc__)
    program, game, diagram = sys.argv[1:4]
    lines = int(sys.argv[4]) if len(sys.argv) > 4 else 1000
    with open(diagram) as file:
        feature = [line.split()[-1] for line in file if line.startswith(("optional", "or", "alternative", "group"))][0]
    desk = Desk(program, game, diagram)
    took = []
    for number in range(lines):
        line, last = ROUND[number % len(ROUND)]
        began = time.perf_counter()
        answer = desk.ask(line.replace("%s", feature), last)
        took.append(time.perf_counter() - began)
        assert answer[-1].split(" ")[0] == last, (line, answer)
    status = desk.close()
    took.sort()
    print(f"{lines} lines, status {status}: {1e6 * took[len(took) // 2]:.0f} microseconds an answer (median), {1e6 * took[-1]:.0f} the slowest")


if __name__ == "__main__":
    main()
