#!/usr/bin/env python3
"""What an office costs: sessions that call at once, readers beside a session that changes the page, and publishing.

    offices.py VPG_BENCH[,VPG_BENCH..] [RUNS]

Each figure comes of two runs, of which one does more work: the difference of their seconds, reads or megabytes is
divided by that of their work. So reading the files and starting threads is not counted. All that is compared takes
turns, RUNS times (5 if left out), and the median is told. Of several programs, as one before a change and one after it,
`changes` is told of each; the others are told of the first alone.

  calls    100,000 and 200,000 calls of 1 and of 8 sessions, each in a thread of its own: whether order and `end` hold; the seconds of the clock that the
           first take as a whole, microseconds a further call, and bytes of peak memory a further call, also against a run of 32 calls
  reads    millions of reads a second of 1, 4 and 16 watchers, each in a thread of its own, beside a session that decides a feature and undoes that
           without pause; and of as many threads that read the same sheet behind a mutex, where that session puts it. Beside both, how many
           milliseconds a round of that session takes: a decision, its undo, and that the token is forgotten
  changes  microseconds of the processor and by the clock a round where no watch was ever opened, and with one watch that nobody reads; and by the clock
           with one that is read without pause; of each program in turn

The games: examples/mine_pump, the family of `decisions.py` with 65,536 vertices of sixteen edges, and the pump of `families.py` with as many vertices.
"""
import os
import statistics
import subprocess
import sys
import tempfile
import time

sys.dont_write_bytecode = True
import decisions  # noqa: E402

HERE = os.path.dirname(os.path.abspath(__file__))
EXAMPLE = os.path.join(HERE, "..", "examples", "mine_pump")


class Run:
    """Seconds by the clock and of processors, peak memory in bytes, and what a run of the program printed."""

    def __init__(self, program, *words):
        # a program's peak memory includes what this script had as it started it: so `time` starts it
        with tempfile.NamedTemporaryFile("r") as peak:
            command = ["/usr/bin/env", "time", "-f", "%M %U %S", "-o", peak.name, program, *map(str, words)]
            started = time.monotonic()
            ended = subprocess.run(command, stdout=subprocess.PIPE, text=True)
            self.seconds = time.monotonic() - started
            if ended.returncode:
                sys.exit(f"{' '.join(map(str, words))} ended with {ended.returncode}")
            memory, user, system = peak.read().split()
            self.memory, self.spent = int(memory) * 1024, float(user) + float(system)
        self.lines = ended.stdout.split("\n")

    def reads(self):
        return int(self.lines[0].removeprefix("reads "))

    def check(self, calls):
        """The log has these calls and that of the closing session; order and `end` hold."""
        if f"calls {calls + 1} in order true further 0" not in self.lines:
            sys.exit(f"for {calls} calls it printed {self.lines}")


def median(figures):
    return statistics.median(figures)


def called(program, sessions, calls):
    run = Run(program, "calls", sessions, calls)
    run.check(calls // sessions // 4 * sessions * 4)
    return run


def tell_calls(program, runs):
    print("calls              first 100,000      a further call   bytes a call   against few")
    for sessions in (1, 8):
        taken = [[called(program, sessions, calls) for calls in (32, 100000, 200000)] for _ in range(runs)]
        whole = median(one.seconds for _, one, _ in taken)
        further = median((two.seconds - one.seconds) * 10 for _, one, two in taken)
        memory = median((two.memory - one.memory) / 100000 for _, one, two in taken)
        few = median((one.memory - few.memory) / (100000 - 32) for few, one, _ in taken)
        print(f"{sessions} sessions        {whole:10.3f} s   {further:10.2f} us   {memory:10.0f}   {few:10.0f}", flush=True)


def changed(program, game, rounds, how, readers):
    run = Run(program, "changes", f"{game[0]}/game", f"{game[0]}/diagram", game[1], rounds, how, readers)
    run.check(rounds * 3)
    return run


def slope(program, game, rounds, how, readers):
    """Of the further rounds: seconds a round, reads a second, and processor seconds a round."""
    one = changed(program, game, rounds, how, readers)
    two = changed(program, game, rounds * 2, how, readers)
    seconds = two.seconds - one.seconds
    return seconds / rounds, (two.reads() - one.reads()) / seconds, (two.spent - one.spent) / rounds


def rounds_of_a_second(program, game, how, readers):
    """So many rounds that a run takes a second or more, and twice as many fit into a log."""
    rounds = 25
    while rounds < 150000 and changed(program, game, rounds, how, readers).seconds < 1:
        rounds = min(rounds * 2, 150000)
    return rounds


def tell_reads(program, name, game, runs):
    for readers in (1, 4, 16):
        hows = [(how, rounds_of_a_second(program, game, how, readers)) for how in ("watches", "mutex")]
        taken = [[slope(program, game, rounds, how, readers) for how, rounds in hows] for _ in range(runs)]
        print(f"{name:12} {readers:3} readers", end="")
        for (how, _), figures in zip(hows, zip(*taken)):
            rate, round_time = median(reads for _, reads, _ in figures) / 1e6, median(seconds for seconds, _, _ in figures) * 1e3
            print(f"   {how} {rate:8.3f} million a second, {round_time:8.3f} ms a round", end="")
        print(flush=True)


def tell_changes(programs, name, game, runs):
    hows = [(how, readers, rounds_of_a_second(programs[0], game, how, readers)) for how, readers in (("alone", 0), ("idle", 1), ("watches", 1))]
    taken = [[[slope(program, game, rounds, how, readers) for how, readers, rounds in hows] for program in programs] for _ in range(runs)]
    for of_program in zip(*taken):
        alone, idle, read = [[median(figures) * 1e6 for figures in zip(*of_one)] for of_one in zip(*of_program)]
        print(f"{name:12} no watch {alone[2]:10.1f} us of processor, {alone[0]:10.1f} by the clock", end="")
        print(f"   idle {idle[2]:10.1f}, {idle[0]:10.1f}   read by the clock {read[0]:10.1f}", flush=True)


def main():
    if len(sys.argv) < 2:
        sys.exit(__doc__)
    programs, runs = sys.argv[1].split(","), int(sys.argv[2]) if len(sys.argv) > 2 else 5
    with tempfile.TemporaryDirectory() as folder:
        os.mkdir(f"{folder}/edges")
        decisions.write_family(f"{folder}/edges", 65536, 200)
        subprocess.run([sys.executable, f"{HERE}/families.py", "pump", "65536", f"{folder}/pump"], check=True)
        # each with the number of a feature that may be decided in by itself
        games = [("mine pump", (EXAMPLE, 4)), ("16 edges", (f"{folder}/edges", 1)), ("pump", (f"{folder}/pump", 1))]
        tell_calls(programs[0], runs)
        for name, game in games:
            tell_changes(programs, name, game, runs)
        for name, game in games:
            tell_reads(programs[0], name, game, runs)


if __name__ == "__main__":
    main()
