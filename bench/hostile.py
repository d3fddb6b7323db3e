#!/usr/bin/env python3
"""Runs the program on inputs of hostile size, and checks that each ends as docs/FORMATS.md says, in time and memory in proportion to its bytes.

    hostile.py PROGRAM [WORD..]      the cases whose names have one of the words; all without one

One line a case: bytes read, seconds of the processor, peak memory in MB, and how it ended. The status is 1 where a case
ended in another way, took more than SECONDS for each million bytes that it read (and one more for all), or more than 1,000 MB.

Then each list that a feature model or a configuration may have is read twice, the second time eight times as long.
One line a list: bytes and seconds of both, and their ratio. The status is 1 where the second takes more than RATIO
times the first.
"""
import os
import resource
import subprocess
import sys
import tempfile

SECONDS = 0.5
MEMORY = 1000
RATIO = 16

ROOT = b"root r\noptional r f\n"
GAME = b"0 1 0 0;\n"


def lines(form, numbers):
    return b"".join(form.replace(b"%d", b"%d" % i) for i in numbers)


def name(number, length=8):
    return b"n%0*d" % (length - 1, number)


def cases():
    """Names with the words, the game, the diagram, the script (or what is typed), and the status and standard error."""
    check, run = ["check", "game", "diagram"], ["run", "game", "diagram", "script"]
    lint, draw, desk = ["lint", "game", "diagram"], ["draw", "game", "diagram"], ["desk", "game", "diagram"]
    done = (0, b"")
    # with any text on standard error
    talked, explained = (0, None), (1, None)

    def told(text):
        return (1, b"vpgdesk: " + text + b"\n")

    # numbers and names of a megabyte
    million = 1_000_000
    yield "identifier of a megabyte of zeros and a 7", check, b"0" * million + b"7 0 0 7;", ROOT, b"", done
    yield "identifier of a megabyte of nines", check, b"9" * million + b" 0 0 0;", ROOT, b"", told(b"game Syntax 0")
    yield "priority of a megabyte of nines", check, b"0 " + b"9" * million + b" 0 0;", ROOT, b"", told(b"game PriorityTooLarge 2")
    yield "owner of a megabyte of zeros", check, b"0 0 " + b"0" * million + b" 0;", ROOT, b"", done
    yield "header of a megabyte of nines", check, b"parity " + b"9" * million + b";" + GAME, ROOT, b"", done
    yield "remark of a megabyte", check, b'0 0 0 0 "' + b"x" * million + b'";', ROOT, b"", done
    yield "remark that never ends", check, b'0 0 0 0 "' + b"x" * million, ROOT, b"", told(b"game Syntax %d" % (9 + million))
    yield "guard of a megabyte that never ends", check, b"0 0 0 0[" + b"f&" * (million // 2), ROOT, b"", told(b"game Syntax %d" % (8 + million))
    yield "feature name of a megabyte in a guard", check, b"0 0 0 0[" + b"f" * million + b"];", ROOT, b"", told(b"game Guard 8 UnknownFeature 0")
    yield "feature name of a megabyte in a diagram", check, GAME, b"root " + b"r" * million, b"", told(b"diagram Syntax 1")
    yield "range of a megabyte of nines", check, GAME, b"root r\ngroup r 0 " + b"9" * million + b": a b\n", b"", told(b"diagram BadRange 2")
    yield "serial of four thousand nines", run, GAME, ROOT, b"undo " + b"9" * 4000 + b"\n", told(b"script Line 1 Args")
    yield "script line of a megabyte", run, GAME, ROOT, b"x" * million, told(b"script Line 1 TooLong")

    # limits, and one past
    vertices = range(65_536)
    yield "65,536 vertices in reverse order", check, lines(b"%d 0 0 %d;\n", reversed(vertices)), ROOT, b"", done
    yield "65,537 vertices", check, b"0 0 0;" * 65_537, ROOT, b"", told(b"game TooMany 393216")
    yield "a million repeated successors", check, b"0 0 0 " + b",".join([b"0"] * 1_048_576) + b";", ROOT, b"", done
    yield "one successor more", check, b"0 0 0 " + b",".join([b"0"] * 1_048_577) + b";", ROOT, b"", told(b"game TooMany 2097158")
    yield "a hundred thousand repeated successors with guards", check, b"0 0 0 " + b",".join([b"0[f]"] * 100_000) + b";", ROOT, b"", done
    yield "a million repeated successors with guards", check, b"0 0 0 " + b",".join([b"0[f]"] * 1_048_576) + b";", ROOT, b"", done
    yield "65,536 vertices that name one missing vertex last", check, lines(b"%d 0 0 %d;\n", range(65_535)) + b"65535 0 0 70000;", ROOT, b"", told(b"game MissingVertex 70000")
    yield "65,536 vertices of which the last is double", check, lines(b"%d 0 0 %d;\n", range(65_535)) + b"0 0 0 0;", ROOT, b"", told(b"game DoubleVertex 0")
    deep = edges_at_depth()
    yield "an eighth of a million edges with guards at the depth limit", check, deep, ROOT, b"", done
    above = told(b"game TooManySigns %d" % (len(deep) + 11))
    yield "one sign more", check, deep + b"9999 0 0 0[!f];", ROOT, b"", above
    parts = b"0 0 0 " + b",".join([b"0[" + b"|".join([b"f&f"] * 32_768) + b"]"] * 128) + b";"
    yield "eight million signs of short parts", check, parts, ROOT, b"", done
    yield "a file without an end", ["check", "/dev/zero", "diagram"], GAME, ROOT, b"", told(b"game TooLarge")
    yield "guard of a million parentheses", check, b"0 0 0 0[" + b"(" * million + b"];", ROOT, b"", told(b"game Guard 8 TooDeep 64")
    yield "guard of half a million parts", check, b"0 0 0 0[" + b"|".join([b"f"] * 500_000) + b"];", ROOT, b"", done

    # diagrams
    chain = b"root r\n" + b"".join(b"optional r %s\n" % name(i) for i in range(511))
    rules = b"".join(b"requires %s %s\n" % (name(i), name(i + 1)) for i in range(510))
    yield "511 features in a chain of rules", run, GAME, chain + rules, b"select %s\nproducts\nexclude %s\n" % (name(0), name(510)), done
    many = chain + rules * 32 + b"requires %s %s\n" % (name(0), name(1)) * 64
    yield "16,384 rules that close in a chain", run, GAME, many, b"".join(b"select %s\nundo\n" % name(0) for _ in range(50)), done
    yield "one rule more", check, GAME, many + b"requires r r\n", b"", told(b"diagram TooMany %d" % (512 + 16_384 + 1))
    yield "513 features", check, GAME, chain + b"optional r z\n", b"", told(b"diagram TooMany 513")
    yield "one group of half a million repeated children", check, GAME, b"root r\nor r: " + b"f " * 500_000, b"", told(b"diagram TwoParents 2")
    yield "a million blank lines", check, GAME, b"\n" * million, b"", told(b"diagram NoRoot")

    # scripts
    yield "script of 64 MB of comments", run, GAME, ROOT, (b"# " + b"x" * 1021 + b"\n") * 65_536, done
    yield "script of 64 MB of blank lines", run, GAME, ROOT, b"\n" * (64 << 20), done
    yield "script of a hundred thousand decisions undone", run, GAME, ROOT, b"select f\nundo\nforget 1\n" + b"".join(b"select f\nundo\nforget %d\n" % i for i in range(2, 100_001)), done
    yield "script of 64 MB of lines that are refused", run, GAME, ROOT, b"undo 7\n" * ((64 << 20) // 7), done
    yield "script of 64 MB of decisions that are refused", run, GAME, ROOT, b"select f\n" * ((64 << 20) // 9), done
    yield "settling 65,536 vertices in reverse order", run, lines(b"%d 1 0 %d[f],0;\n", reversed(vertices)), ROOT, b"settle\nexclude f\nsettle\nshow\n", done
    yield "script of a million lines that are refused", run, GAME, ROOT, b"undo 7\n" * million, done

    # what explains, warns and draws
    double = lines(b"%d 0 0 %d;\n", range(65_535)) + b"0 0 0 0;"
    yield "65,536 vertices of which the last is double, explained", [*check, "--explain"], double, ROOT, b"", explained
    endless = b"0 0 0 0[" + b"f&" * (million // 2)
    yield "guard of a megabyte that never ends, explained", [*check, "--explain"], endless, ROOT, b"", explained
    long = b"root " + b"r" * million
    yield "feature name of a megabyte in a diagram, explained", [*check, "--explain"], GAME, long, b"", explained
    yield "one rule more, explained", [*check, "--explain"], GAME, many + b"requires r r\n", b"", explained
    apart = b"start 0;" + lines(b"%d 0 0;\n", vertices)
    yield "65,536 vertices without moves that are not reached, with warnings", lint, apart, ROOT, b"", done
    yield "16,384 rules that close in a chain, with warnings", lint, GAME, many, b"", done
    repeated = b"0 0 0 " + b",".join([b"0[f]"] * 1_048_576) + b";"
    yield "a picture of a million repeated successors with guards", draw, repeated, ROOT, b"", done
    yield "a picture of edges with guards at the depth limit", draw, deep, ROOT, b"", done
    yield "a picture of 16,384 rules", [*draw, "--features"], GAME, many, b"", done
    named = b"".join(b'%d 0 0 %d "%0100d";\n' % (v, v, v) for v in vertices)
    yield "65,536 names of a hundred bytes beside answers", [*run, "--names"], named, ROOT, b"show\n" * 10, done
    yield "a session of 64 MB of lines that are refused", desk, GAME, ROOT, b"undo 7\n" * ((64 << 20) // 7), talked
    yield "a session of a million lines that are no commands", desk, GAME, ROOT, b"frob\n" * million, talked
    yield "a line of 64 MB that is typed", desk, GAME, ROOT, b"x" * (64 << 20), talked
    frob = b"frob\n" * ((64 << 20) // 5)
    yield "64 MB of lines that are no commands, answered", [*run, "--keep-going"], GAME, ROOT, frob, done


def edges_at_depth():
    """A game of 2,048 vertices with 64 successors each, of which each guard opens 64 times: the most signs."""
    guard = b"!" * 64 + b"f"
    entry = b",".join(b"%d[%s]" % (w, guard) for w in range(64))
    return b"".join(b"%d 0 0 %s;\n" % (v, entry) for v in range(2_048))


def each(form, count, most=500):
    """The form for each number, which is a feature's."""
    return b"".join(form.replace(b"%d", b"%d" % (i % most)) for i in range(count))


def chains(opening, closing, count, depth=50):
    """Features in one another, in chains of a depth: what opens each, by its number and depth, and what closes it."""
    tops = range(0, count, depth)
    return b"".join(
        b"".join(opening(i, i - top) for i in range(top, min(top + depth, count))) + closing * min(depth, count - top)
        for top in tops
    )


def featureide(features, constraints=b"", before=b""):
    """A model of FeatureIDE with a root above these features."""
    tree = b'<struct><and name="r">' + features + b"</and></struct>"
    return b"<featureModel>" + before + tree + b"<constraints>" + constraints + b"</constraints></featureModel>"


def featureide_lists():
    """Lists of FeatureIDE's XML: names, texts by a length, and the shorter length."""
    leaf, var, many = b'<feature name="f%d"/>', b"<var>f%d</var>", each(b'<feature name="f%d"/>', 500)
    group = b'<or name="f%d"><feature name="a%d"/><feature name="b%d"/></or>'
    remark, attribute, read_over = b"<description>f%d &amp; f%d</description>", b' a%d=""', b"<a b='%d'/>"
    rule, part = b"<rule><imp>" + var * 2 + b"</imp></rule>", b"<not><conj>" + var + b"<var>f0</var></conj></not>"
    wide = b"<rule><disj>", b"</disj></rule>"
    deep = b"<rule>" + b"<disj><var>f0</var>" * 50, b"<var>f0</var></disj>" * 50 + b"</rule>"

    def opening(number, _):
        return b'<and name="f%d">' % number

    yield "features", lambda n: featureide(each(leaf, n)), 62
    yield "features in one another", lambda n: featureide(chains(opening, b"</and>", n)), 62
    yield "groups", lambda n: featureide(each(group, n)), 21
    yield "remarks", lambda n: featureide(each(remark, n)), 8_000
    yield "elements that are read over", lambda n: featureide(
        b"", before=b"<properties>" + each(read_over, n) + b"</properties>"), 8_000
    yield "attributes of a feature", lambda n: featureide(b'<feature name="f"' + each(attribute, n) + b"/>"), 7
    yield "comments", lambda n: featureide(many, each(b"<!-- %d -->", n)), 16_000
    yield "constraints", lambda n: featureide(many, each(rule, n)), 2_000
    yield "one wide constraint", lambda n: featureide(many, wide[0] + each(var, n) + wide[1]), 16_000
    yield "one deep and wide constraint", lambda n: featureide(many, deep[0] + each(var, n) + deep[1]), 16_000
    yield "one constraint of many parts", lambda n: featureide(many, wide[0] + each(part, n) + wide[1]), 4_000


def uvl(features, constraints=b""):
    """A model in UVL with a root above these rows."""
    return b"features\n r\n" + features + b"constraints\n" + constraints


def uvl_lists():
    """Lists of UVL: names, texts by a length, and the shorter length."""
    many = b"  optional\n" + each(b"   f%d\n", 500)

    def opening(number, depth):
        return b" " * (2 * depth + 2) + b"optional\n" + b" " * (2 * depth + 3) + b"f%d\n" % number

    def one(form, count):
        return uvl(many, b" " + each(form, count) + b"f0\n")

    yield "features", lambda n: uvl(b"  optional\n" + each(b"   f%d\n", n)), 62
    yield "features in one another", lambda n: uvl(chains(opening, b"", n)), 62
    yield "groups", lambda n: uvl(each(b"  or\n   f%d\n", n)), 62
    yield "attributes of a feature", lambda n: b"features\n r {" + each(b"a%d 1, ", n) + b"b}\n", 16_000
    yield "levels", lambda n: b"include\n" + b" Boolean\n" * n + b"features\n r\n", 16_000
    yield "comments", lambda n: uvl(many, each(b"/* %d */\n// %d\n", n)), 16_000
    yield "blank rows", lambda n: uvl(many, b" \n" * n), 64_000
    yield "constraints", lambda n: uvl(many, each(b" f%d => f%d\n", n)), 2_000
    yield "one wide constraint", lambda n: one(b"f%d | ", n), 16_000
    yield "one constraint of many parts", lambda n: one(b"!(f%d & f0) | ", n), 4_000
    yield "one chain of arrows", lambda n: one(b"f%d => ", n), 8


def configuration_lists():
    """Lists of configurations in FeatureIDE's XML: names, texts by a length, and the shorter length."""
    setting = b'<feature automatic="undefined" manual="undefined" name="f%d"/>\n'
    whole, inside = (b"<configuration>", b"</configuration>"), (b'<feature name="f">', b"</feature>")
    yield "features", lambda n: whole[0] + each(setting, n) + whole[1], 4_000
    yield "elements in a feature", lambda n: whole[0] + inside[0] + b"<a/>" * n + inside[1] + whole[1], 16_000
    yield "comments", lambda n: whole[0] + b"<!-- -->" * n + whole[1], 16_000


def name_lists():
    """Lists of configurations of names: names, texts by a length, and the shorter length."""
    yield "names", lambda n: b"r\n" * n, 16_000
    yield "comments", lambda n: b"# r\n" * n, 16_000


def lists():
    """Names of lists, words of the program, the file, texts by a length, and the shorter length."""
    begun = ["game", "diagram", "script"]
    for language, words, file, those in (
        ("FeatureIDE", ["diagram", "model.xml"], "model.xml", featureide_lists()),
        ("UVL", ["diagram", "model.uvl"], "model.uvl", uvl_lists()),
        ("configuration in XML", ["run", "--config", "page.xml", *begun], "page.xml", configuration_lists()),
        ("configuration of names", ["run", "--config", "page", *begun], "page", name_lists()),
    ):
        for title, text, short in those:
            yield f"{language}: {title}", words, file, text, short


def timed(program, folder, words):
    """Status and seconds of the processor of a run: the least of five."""
    best = None
    for _ in range(5):
        child = subprocess.Popen([program, *words], stdout=subprocess.DEVNULL, stderr=subprocess.DEVNULL, cwd=folder)
        _, status, used = os.wait4(child.pid, 0)
        child.returncode = os.waitstatus_to_exitcode(status)
        seconds = used.ru_utime + used.ru_stime
        best = seconds if best is None else min(best, seconds)
    return child.returncode, best


def grow(program, folder, picked):
    """Reads each list twice, the second time eight times as long, and returns how many took too long."""
    bad = 0
    for file, text in (("game", GAME), ("diagram", ROOT), ("script", b"")):
        with open(os.path.join(folder, file), "wb") as out:
            out.write(text)
    for title, words, file, text, short in lists():
        if picked and not any(word in title for word in picked):
            continue
        sizes, found = [], []
        for length in (short, 8 * short):
            with open(os.path.join(folder, file), "wb") as out:
                sizes.append(out.write(text(length)))
            found.append(timed(program, folder, words))
        # a process takes about a millisecond to start
        first, second = found[0][1], found[1][1]
        ratio = second / max(first, 0.001)
        right = ratio <= RATIO and found[0][0] == found[1][0] == 0
        bad += not right
        end = "as expected" if right else f"NOT AS EXPECTED: statuses {found[0][0]} and {found[1][0]}"
        figures = f"{sizes[0]:10} and {sizes[1]:8} bytes {first:8.4f} and {second:8.4f} s, ratio {ratio:5.1f}"
        print(f"{figures}  {title}: {end}", flush=True)
    return bad


def run(program, folder, words):
    """Status, standard error, seconds of the processor and peak memory of a run."""
    errors, used = os.path.join(folder, "errors"), os.path.join(folder, "used")
    typed = os.path.join(folder, "script") if words[0] == "desk" else os.devnull
    # a small program in between, since a child's peak memory counts what its parent had when it began
    with open(errors, "wb") as err, open(typed, "rb") as source:
        timed = ["/usr/bin/env", "time", "--quiet", "-f", "%U %S %M", "-o", used, program, *words]
        status = subprocess.run(timed, stdin=source, stdout=subprocess.DEVNULL, stderr=err, cwd=folder).returncode
    with open(errors, "rb") as err, open(used) as figures:
        user, system, kilobytes = figures.read().split()
        return status, err.read(), float(user) + float(system), int(kilobytes) / 1024


def main():
    if len(sys.argv) < 2:
        sys.exit(__doc__)
    program, picked, bad = os.path.abspath(sys.argv[1]), sys.argv[2:], 0
    resource.setrlimit(resource.RLIMIT_CPU, (300, 300))
    with tempfile.TemporaryDirectory() as folder:
        for title, words, game, diagram, script, expected in cases():
            if picked and not any(word in title for word in picked):
                continue
            for file, text in (("game", game), ("diagram", diagram), ("script", script)):
                with open(os.path.join(folder, file), "wb") as out:
                    out.write(text)
            size = len(game) + len(diagram) + len(script)
            status, text, seconds, memory = run(program, folder, words)
            right = status == expected[0] and expected[1] in (None, text)
            right = right and seconds <= 1 + SECONDS * size / 1_000_000 and memory <= MEMORY
            bad += not right
            end = "as expected" if right else f"NOT AS EXPECTED: status {status}, {text[:120]!r}"
            print(f"{size:10} bytes {seconds:7.2f} s {memory:6.0f} MB  {title}: {end}", flush=True)
        bad += grow(program, folder, picked)
    print(f"{bad} ended in another way")
    sys.exit(1 if bad else 0)


if __name__ == "__main__":
    main()
