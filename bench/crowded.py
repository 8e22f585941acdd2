"""Cores beyond processors and cores that wait: what a busy machine leaves of a program on many cores, each figure beside its goal in the
same run."""
import os
import random
import statistics
import subprocess
import sys

from cores import FORKS, HANDS_OVER, WORK, Paced, beside
from measure import ROOT, in_turn, robot_trace, row, run, same, written

sys.path.insert(0, os.path.join(ROOT, "tests"))
from crowds import Busy, chain, held, placed  # noqa: E402

THREADS = 255
TICKS = 100
HOPS = 2 * (THREADS - 1)  # of a tick
ROBOT_TICKS = 20_000
TIMES = 5
COARSE_TIMES = 21  # a machine's processors differ from one second to the next, and a tick waits for the slowest of four


class Goals:
    """Prints each figure beside its goal, and counts those that miss it."""

    def __init__(self):
        self.missed = 0

    def most(self, name, figure, goal, unit):
        """A figure that is to be at most its goal."""
        self.tell(name, figure, f"at most {goal:.2f} {unit}", figure / goal, figure <= goal, unit)

    def least(self, name, figure, goal, unit):
        """A figure that is to be at least its goal."""
        self.tell(name, figure, f"at least {goal:.2f} {unit}", figure / goal, figure >= goal, unit)

    def tell(self, name, figure, goal, ratio, met, unit):
        self.missed += not met
        row(name, f"{figure:.2f} {unit}", goal if met else f"MISSED: {goal}", f"{ratio:.2f}")


def hop(scratch, threads):
    """What a wake and a switch take, in microseconds, on one processor."""
    program = os.path.join(scratch, "switch")
    subprocess.run(["gcc", "-O2", "-pthread", "-o", program, os.path.join(ROOT, "bench", "switch.c")], check=True)
    words = held([min(os.sched_getaffinity(0))], [program, str(threads), "20000"])
    return float(subprocess.run(words, check=True, stdout=subprocess.PIPE, text=True).stdout)


def chains(program, scratch, goals):
    """A chain whose threads are dealt over 64 cores in turn."""
    text, places = chain(THREADS)
    path, source = written(scratch, "chain.forec", text), written(scratch, "chain.trace", "\n" * (TICKS + 1))
    outs = [os.path.join(scratch, name) for name in ("one", "many")]
    words = [program, "run", path]
    switch = hop(scratch, 64)
    row("a wake and a switch, on one processor", f"{switch:.2f} us", f"a tick of {HOPS} hops: {switch * HOPS / 1e3:.2f} ms", "")
    one, many = in_turn(TIMES, (words, source, outs[0]), ([*words, *placed(places)], source, outs[1]))
    row(f"a chain of {THREADS}, --cores 64, {TICKS} ticks", f"{many * 1e3:.1f} ms", f"one core: {one * 1e3:.1f} ms", f"{many / one:.2f}")
    with Busy(os.sched_getaffinity(0)):
        one, many = in_turn(TIMES, (words, source, outs[0]), ([*words, *placed(places)], source, outs[1]))
    assert same(*outs), "the lines differ from those of one core"
    goals.most("the same beside two busy loops a processor", many * 1e3, 40 * one * 1e3 + HOPS * TICKS * switch / 1e3, "ms")


def robot_beside_loops(program, scratch, goals):
    source = written(scratch, "robot.trace", robot_trace(ROBOT_TICKS, random.Random(1)))
    words = [program, "run", os.path.join(ROOT, "examples", "robot.forec"), "--cores", "64"]
    with Busy(os.sched_getaffinity(0)):
        took = statistics.median(run(words, source, os.devnull) for _ in range(TIMES))
    goals.least("the robot, --cores 64, beside busy loops", ROBOT_TICKS / took / 1e3, 5, "k ticks/s")


def waiting(program, goals):
    """A controller that waits for its rows on four cores."""
    (idle, busy, wait), (_, _, alone) = (Paced(program, cores).figures() for cores in (4, 1))
    goals.most("processor time, a second without rows", idle * 1e3, 1, "ms")
    goals.most("processor time, a second of 100 rows", busy * 1e3, 15, "ms")
    row("from row to line, a row every 10 ms", f"{wait * 1e6:.1f} us", f"one core: {alone * 1e6:.1f} us", f"{wait / alone:.2f}")


def coarse(program, scratch, goals):
    """Four coarse branches on four cores, beside what four runs beside each other reach."""
    rows = 300
    text = written(scratch, "work.forec", WORK.format(turns=10_000))
    source = written(scratch, "work.trace", "\n" * (rows + 1))
    words = [program, "run", text, "--budget", "100000000"]
    ratios = []
    for _ in range(COARSE_TIMES):
        one, four = run(words, source, os.devnull), run([*words, "--cores", "4"], source, os.devnull)
        machine = 4 * beside(1, words, source) / beside(4, words, source)
        ratios.append(one / four / machine)
    goals.least("four coarse branches, beside four runs", statistics.median(ratios), 0.85, "")


def hand_over(program, scratch, goals):
    rows = 200
    text, source = written(scratch, "hands.forec", HANDS_OVER), written(scratch, "hands.trace", "\n" * (rows + 1))
    words = [program, "run", text, "--cores", "2", "--place", "0,1"]
    took = statistics.median(run(words, source, os.devnull) for _ in range(TIMES))
    goals.most("a hand-over to a core and back", took / rows / FORKS * 1e6, 2, "us")


def crowded(program, scratch):
    """How many figures miss their goals."""
    goals = Goals()
    chains(program, scratch, goals)
    robot_beside_loops(program, scratch, goals)
    waiting(program, goals)
    coarse(program, scratch, goals)
    hand_over(program, scratch, goals)
    return goals.missed
