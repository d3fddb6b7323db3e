#!/usr/bin/env python3
"""Does what docs/TUTORIAL.md says, and compares the answers with those that stand in it.

    python3 bench/tutorial.py PROGRAM       with this vpgdesk, as crates/vpgdesk/out/vpgdesk
    python3 bench/tutorial.py --oracle      with bench/oracle.py and bench/modelled.py: `run`; the rest is left out
    python3 bench/tutorial.py --list        names the steps, and runs nothing

A step is a file or a command. A file is an indented block after a paragraph that ends in "a file `NAME`:". A command is
an indented line that begins with `$`; the lines below it are its answer, in which `..` stands for any lines. Where an
answer has lines that begin with `> ` they are typed at a terminal of 80 columns, each when it is asked for; so is the
end of input behind `vpgdesk` alone. All is done in a new folder beside a link to `examples`. Answers that differ, and
lines of a terminal that are wider, are printed, and the script ends with 1 then.
"""
import fcntl
import os
import pty
import re
import select
import struct
import subprocess
import sys
import tempfile
import termios

ROOT = os.path.dirname(os.path.dirname(os.path.abspath(__file__)))
TEXT = f"{ROOT}/docs/TUTORIAL.md"
FILE = re.compile(r"\ba\s+file\s+`([\w.]+)`[^.]*:$")
ORACLE = """#!/bin/sh
exec "{python}" "{root}/bench/tutorial.py" --stand-in "$@"
"""
LEFT_OUT = 9


def stand_in(words):
    """Does what `vpgdesk run` does with these words, by the oracle."""
    import modelled
    import oracle

    values, options, names = {}, set(), []
    while words:
        word = words.pop(0)
        if word in ("--system", "--requirements"):
            values[word] = words.pop(0)
        elif word in ("--names", "--strict"):
            options.add(word)
        else:
            names.append(word)
    if names[:1] != ["run"] or any(name.startswith("-") for name in names):
        return LEFT_OUT
    *texts, script = [modelled.requirements.read_file(path) for path in (*values.values(), *names[1:])]
    is_named = "--names" in options
    made = modelled.answers(texts, script, is_named=is_named) if values else oracle.answers(*texts, script, is_named)
    lines = made.splitlines(True)
    refused = [k for k, line in enumerate(lines) if line.startswith("refused")] if "--strict" in options else []
    sys.stdout.write("".join(lines[: refused[0] + 1] if refused else lines))
    sys.stdout.flush()
    if refused:
        sys.stderr.write(f"vpgdesk: script Line {refused[0] + 1} Refused\n")
    return 3 if refused or any(line.startswith("fails") for line in lines) else 0


def blocks(text):
    """The paragraphs and the indented blocks of a document, as pairs: whether it is indented, and its lines."""
    found = []
    for line in text.split("\n"):
        indented = line.startswith("    ")
        starts = line.startswith("    $ ") and found and found[-1][1] and not found[-1][1][-1]
        if indented and found and found[-1][0] and not starts:
            found[-1][1].append(line[4:])
        elif indented:
            found.append((True, [line[4:]]))
        elif line.strip() and found and not found[-1][0] and found[-1][1]:
            found[-1][1].append(line)
        elif line.strip():
            found.append((False, [line]))
        elif found and found[-1][0]:
            found[-1][1].append("")
        else:
            found.append((False, []))
    return [(indented, lines) for indented, lines in found if any(lines)]


def steps(text):
    """What the tutorial says is to be done: ("file", name, text) and ("run", command, answer's lines), in turn."""
    before = ""
    for indented, lines in blocks(text):
        while lines and not lines[-1]:
            lines.pop()
        if not indented:
            before = " ".join(lines).strip()
        elif lines[0].startswith("$ "):
            command, answer = lines[0][2:], []
            for line in lines[1:]:
                if line.startswith("$ "):
                    yield "run", command, answer
                    command, answer = line[2:], []
                else:
                    answer.append(line)
            yield "run", command, answer
        elif FILE.search(before):
            yield "file", FILE.search(before)[1], "\n".join(lines) + "\n"


def is_answer(expected, found):
    """Whether the lines are those expected, where `..` stands for any number of lines."""
    pattern = "".join(r"(?:.*\n)*" if line == ".." else re.escape(line) + r"\n" for line in expected)
    return re.fullmatch(pattern, "".join(line + "\n" for line in found)) is not None


def is_typed(command, answer):
    """Whether a step is done at a terminal."""
    return command == "vpgdesk" or any(line.startswith("> ") for line in answer)


def typed(command, lines, work, environment):
    """What a terminal of 80 columns shows behind a command, where these lines are typed, and then the end of input."""
    child, terminal = pty.fork()
    if child == 0:
        os.chdir(work)
        os.execvpe("sh", ["sh", "-c", command], environment)
    fcntl.ioctl(terminal, termios.TIOCSWINSZ, struct.pack("HHHH", 24, 80, 0, 0))
    left, shown, seen = [line.encode() + b"\n" for line in lines], b"", 0
    while True:
        is_asked = len(shown) > seen and shown.endswith(b"> ")
        ready, _, _ = select.select([terminal], [], [], 0 if is_asked else 2)
        if ready:
            try:
                more = os.read(terminal, 65536)
            except OSError:
                more = b""
            if not more:
                break
            shown += more
        else:
            seen = len(shown)
            os.write(terminal, left.pop(0) if left else b"\x04")
    os.waitpid(child, 0)
    os.close(terminal)
    return shown.decode().replace("\r\n", "\n").replace("^D\x08\x08", "")


def wide(text):
    """The lines that a terminal of 80 columns breaks."""
    return [line for line in text.split("\n") if len(line) > 80]


def follow(program):
    """Does each step, and yields what goes wrong."""
    with tempfile.TemporaryDirectory() as top:
        work, tools = f"{top}/door", f"{top}/tools"
        os.mkdir(work)
        os.mkdir(tools)
        os.symlink(f"{ROOT}/examples", f"{top}/examples")
        if program:
            os.symlink(os.path.abspath(program), f"{tools}/vpgdesk")
        else:
            with open(f"{tools}/vpgdesk", "w", encoding="utf-8") as it:
                it.write(ORACLE.format(python=sys.executable, root=ROOT))
            os.chmod(f"{tools}/vpgdesk", 0o755)
        for kind, head, rest in steps(open(TEXT, encoding="utf-8").read()):
            if kind == "file":
                with open(f"{work}/{head}", "w", encoding="utf-8") as it:
                    it.write(rest)
                continue
            asked = {**os.environ, "PATH": f"{tools}:{os.environ['PATH']}"}
            if not program and is_typed(head, rest):
                print(f"left out: {head}")
                continue
            if is_typed(head, rest):
                shown = typed(head, [line[2:] for line in rest if line.startswith("> ")], work, asked)
                found = shown.rstrip("\n").split("\n")
                if not is_answer(rest, found) or wide(shown):
                    yield "\n".join([f"$ {head}", "expected:", *rest, "shown:", shown, "too wide:", *wide(shown)])
                continue
            ran = subprocess.run(
                ["sh", "-c", head], cwd=work, env=asked, stdout=subprocess.PIPE, stderr=subprocess.STDOUT, text=True
            )
            if not program and ran.returncode == LEFT_OUT:
                print(f"left out: {head}")
                continue
            found = ran.stdout.rstrip("\n").split("\n") if ran.stdout else []
            if not is_answer(rest, found):
                yield "\n".join([f"$ {head}", "expected:", *rest, "answered:", ran.stdout])


def main(words):
    if words[:1] == ["--stand-in"]:
        return stand_in(words[1:])
    if len(words) != 1:
        print(__doc__)
        return 2
    if words == ["--list"]:
        for kind, head, rest in steps(open(TEXT, encoding="utf-8").read()):
            print(f"{kind} {head} ({len(rest) if kind == 'run' else rest.count(chr(10))} lines)")
        return 0
    faults = list(follow(None if words == ["--oracle"] else words[0]))
    for it in faults:
        print(it)
    print(f"tutorial: {len(faults)} answers differ" if faults else "tutorial: ok")
    return 1 if faults else 0


if __name__ == "__main__":
    sys.exit(main(sys.argv[1:]))
