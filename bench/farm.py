"""The speeds of `farm`: many traces beside each other against the same on one processor, and one trace against `run`."""
import os
import random
import statistics
import subprocess
import time

from measure import ROOT, beside, robot_trace, row, written

TRACES, ROWS = 64, 1000
GOAL_BESIDE, GOAL_ONE = 2.5, 1.5
PROCESSORS = 4

# A tick that has much to do: what it takes beside the lines is the runs' own.
LONG = """output int sum = 0;
void main(void) {
  while (1) {
    for (int i = 0; i < 400; i++) sum = sum * 31 + (i ^ sum >> 3);
    pause;
  }
}
"""


def taken(words, processors):
    """The seconds that a command takes on these processors."""
    start = time.perf_counter()
    ended = subprocess.run(words, stdin=subprocess.DEVNULL, stdout=subprocess.DEVNULL, stderr=subprocess.DEVNULL, check=False,
                           preexec_fn=lambda: os.sched_setaffinity(0, processors)).returncode
    seconds = time.perf_counter() - start
    assert ended == 0, f"{words[:2]} ended with {ended}"
    return seconds


def farms(program, scratch):
    """Whether a goal is missed: the rows of two programs, the robot and one whose ticks have much to do."""
    chance, missed = random.Random(1), False
    here = sorted(os.sched_getaffinity(0))[:PROCESSORS]
    long = written(scratch, "long.forec", LONG)
    for name, text, trace in (
        ("a robot", os.path.join(ROOT, "examples", "robot.forec"), lambda: robot_trace(ROWS, chance)),
        ("long ticks", long, lambda: "\n" * (ROWS + 1)),
    ):
        traces = [written(scratch, f"farm{number}.trace", trace()) for number in range(TRACES)]
        many = [program, "farm", text, *traces]
        pairs = [(taken(many, here), taken(many, here[:1])) for _ in range(9)]
        ours, alone = (statistics.median(seconds) for seconds in zip(*pairs))
        ratio = statistics.median(other / one for one, other in pairs)
        row(f"farm, {TRACES} traces, {name}, {len(here)} processors", f"{ours * 1000:.1f} ms", f"one processor: {alone * 1000:.1f} ms", f"{ratio:.2f}")
        missed = missed or (len(here) == PROCESSORS and ratio < GOAL_BESIDE)
        one, single, ratio = beside(25, ([program, "farm", text, traces[0]], os.devnull, os.devnull), ([program, "run", text], traces[0], os.devnull))
        row(f"farm, one trace, {name}", f"{one * 1000:.2f} ms", f"run: {single * 1000:.2f} ms", f"{ratio:.2f}")
        missed = missed or ratio < 1 / GOAL_ONE
    return missed
