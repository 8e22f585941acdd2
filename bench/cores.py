"""Threads on several cores: ticks a second, what a hand-over costs, and what waiting takes, each beside one core in the same run."""
import glob
import os
import random
import statistics
import subprocess
import time

from grain_picture import write_picture
from measure import ROOT, gen_text, in_turn, robot_trace, row, same, written

# Four branches that each take so many turns a tick, of 20 units.
WORK = """shared output int s = 0 combine mod with plus;
int plus(int x, int y) {{ return x + y; }}
void work(int n) {{
  int x = n;
  while (1) {{
    for (int i = 0; i < {turns}; i++) {{ x = x * 5 + i; x = x ^ x >> 3; }}
    s = x;
    pause;
  }}
}}
void main(void) {{ par(work(1), work(2), work(3), work(4)); }}
"""
UNITS_OF_A_TURN = 20

# A thousand forks and joins of one branch in each tick.
FORKS = 1000
HANDS_OVER = f"void main(void) {{ while (1) {{ for (int i = 0; i < {FORKS}; i++) par({{ }}); pause; }} }}\n"

ROBOT = os.path.join(ROOT, "examples", "robot.forec")
PACE = 0.01  # seconds a row
TIMES = 5


def ticks(name, program, text, source, scratch, counts, rows):
    """Ticks a second on several numbers of cores, beside one core. Gives how many times as fast as one core each of them is."""
    outs = [os.path.join(scratch, f"out{count}") for count in counts]
    runs = [([program, "run", text, "--budget", "100000000", "--cores", str(count)], source, out) for count, out in zip(counts, outs)]
    seconds = in_turn(TIMES, *runs)
    for count, out, took in list(zip(counts, outs, seconds))[1:]:
        assert same(out, outs[0]), "the lines differ from those of one core"
        row(f"{name}, --cores {count}", f"{rows / took / 1e3:.1f} k ticks/s", f"one core: {rows / seconds[0] / 1e3:.1f} k ticks/s",
            f"{seconds[0] / took:.2f}")
    return {count: seconds[0] / took for count, took in zip(counts[1:], seconds[1:])}


def beside(count, words, source):
    """The seconds that so many runs beside each other take."""
    start = time.perf_counter()
    runs = []
    for _ in range(count):
        with open(source, "rb") as stdin:
            runs.append(subprocess.Popen(words, stdin=stdin, stdout=subprocess.DEVNULL))
    for run in runs:
        assert run.wait() == 0
    return time.perf_counter() - start


def machine(program, text, source):
    """What the machine itself gives: as many single runs beside each other as there are cores, beside one alone."""
    words = [program, "run", text, "--budget", "100000000"]
    for count in (2, 4):
        one, many = (statistics.median(beside(n, words, source) for _ in range(TIMES)) for n in (1, count))
        row(f"{count} runs beside each other, one core each", f"{many * 1e3:.0f} ms", f"one run: {one * 1e3:.0f} ms", f"{count * one / many:.2f}")


def grains(program, scratch):
    """Four branches of more and more units: from which on more cores pay. Gives the points of the picture."""
    lines = {2: [], 4: []}
    for turns, rows in ((10, 40_000), (100, 20_000), (1000, 4000), (10_000, 1000)):
        text = written(scratch, "work.forec", WORK.format(turns=turns))
        source = written(scratch, "work.trace", "\n" * (rows + 1))
        speeds = ticks(f"4 branches of {turns * UNITS_OF_A_TURN:,} units", program, text, source, scratch, (1, *lines), rows)
        for count, speed in speeds.items():
            lines[count].append((turns * UNITS_OF_A_TURN, speed))
    machine(program, text, source)
    return lines


def many_cores(program, scratch):
    """Small branches on as many cores as there can be, which pay nowhere, and must not collapse."""
    source = written(scratch, "robot.trace", robot_trace(20_000, random.Random(1)))
    ticks("the robot", program, ROBOT, source, scratch, (1, 4, 64), 20_000)
    tree = os.path.join(ROOT, "bench", "tree200.forec")
    ticks("200 branches", program, tree, written(scratch, "tree.trace", "\n" * 2001), scratch, (1, 4, 64), 2000)
    text = written(scratch, "gen.forec", gen_text(200))
    ticks("the tree of gen 200", program, text, written(scratch, "gen.trace", "\n" * 1001), scratch, (1, 4, 64), 1000)


def hand_over(program, scratch):
    """What it takes to hand a job to another core and to get its reply, beside the same on one core."""
    rows = 200
    text, source = written(scratch, "hands.forec", HANDS_OVER), written(scratch, "hands.trace", "\n" * (rows + 1))
    words = [program, "run", text, "--cores", "2", "--place"]
    there, here = in_turn(TIMES, ([*words, "0,1"], source, os.devnull), ([*words, "0,0"], source, os.devnull))
    there, here = (seconds / rows / FORKS * 1e6 for seconds in (there, here))
    row("a hand-over to a core and back", f"{there:.2f} us", f"on one core: {here:.2f} us", f"{there / here:.2f}")


def processor_time(process):
    """The seconds of processor time that all threads of a process have taken."""
    total = 0
    for path in glob.glob(f"/proc/{process}/task/*/schedstat"):
        with open(path, encoding="ascii") as file:
            total += int(file.read().split()[0])
    return total / 1e9


class Paced:
    """The robot's controller at the other end of a pipe, on so many cores."""

    def __init__(self, program, cores):
        words = [program, "run", ROBOT, "--cores", str(cores)]
        self.child = subprocess.Popen(words, stdin=subprocess.PIPE, stdout=subprocess.PIPE, bufsize=0)
        self.child.stdin.write(b"left right stop\n")
        self.tick()

    def tick(self):
        """The seconds from a row to its line."""
        start = time.perf_counter()
        self.child.stdin.write(b"60 45 0\n")
        assert self.child.stdout.read(200).endswith(b"\n")
        return time.perf_counter() - start

    def measured(self, call):
        """The processor time that a call takes, and what it gives."""
        before = processor_time(self.child.pid)
        given = call()
        return processor_time(self.child.pid) - before, given

    def paced(self):
        """A second of rows at a fixed pace: the median seconds from row to line."""
        waits = []
        for _ in range(round(1 / PACE)):
            time.sleep(PACE)
            waits.append(self.tick())
        return statistics.median(waits)

    def figures(self):
        """Processor time of an idle second and of one of paced rows, and the seconds from row to line."""
        idle, _ = self.measured(lambda: time.sleep(1))
        busy, wait = self.measured(self.paced)
        self.child.stdin.close()
        self.child.wait()
        return idle, busy, wait


def ratio(one, other):
    return f"{one / other:.2f}" if other > 0 else "-"


def waiting(program):
    """What a controller takes that waits for its rows, on four cores and on one."""
    four, one = (Paced(program, cores).figures() for cores in (4, 1))
    names = ("processor time, a second without rows", "processor time, a second of 100 rows", "from row to line, a row every 10 ms")
    for name, ours, reference, (unit, scale) in zip(names, four, one, (("ms", 1e3), ("ms", 1e3), ("us", 1e6))):
        row(f"{name}, --cores 4", f"{ours * scale:.2f} {unit}", f"one core: {reference * scale:.2f} {unit}", ratio(ours, reference))


def cores(program, scratch, plot=False):
    lines = grains(program, scratch)
    if plot:
        write_picture(lines)
    many_cores(program, scratch)
    hand_over(program, scratch)
    waiting(program)
