"""Logs of runs beside their reports: how fast one is written, and how fast one is checked; both are to take ten times as long for ten times
the ticks, with few threads and with many."""
import os
import random
import statistics

from measure import ROOT, beside, gen_text, robot_trace, row, run, written

TICKS = 50_000
PART_OF_RUN = 0.3  # of the speed of `run`
MOST_OF_TEN_TIMES = 15  # the time of ten times the ticks, as a multiple

PAIR = """shared output int s = 0 combine mod with plus;
int plus(int x, int y) { return x + y; }
void one(void) { while (1) { s = s + 1; pause; } }
void main(void) { par(one, one); }
"""


def log_of(program, scratch, name, text, trace):
    """The file of a log, whose replay has to end well."""
    log, told = os.path.join(scratch, f"{name}.log"), os.path.join(scratch, f"{name}.told")
    run([program, "log", text], trace, log)
    run([program, "replay", text, log], trace, told)
    with open(told, "rb") as file:
        file.seek(-10, os.SEEK_END)
        assert file.read() == b"replay ok\n", f"{name}: the replay of its log differs"
    return log


def robot(program, scratch):
    """The robot: a log, and its replay, beside the report of the same run."""
    text = os.path.join(ROOT, "examples", "robot.forec")
    trace, missed = written(scratch, "robot.trace", robot_trace(TICKS, random.Random(1))), 0
    log = log_of(program, scratch, "robot", text, trace)
    for command, words in (("log", [program, "log", text]), ("replay", [program, "replay", text, log])):
        ours, plain, ratio = beside(15, (words, trace, os.devnull), ([program, "run", text], trace, os.devnull))
        row(f"{command}, a robot, {TICKS:,} ticks", f"{TICKS / ours / 1e3:.0f} k ticks/s", f"run: {TICKS / plain / 1e3:.0f} k ticks/s", f"{ratio:.2f}")
        missed += ratio < PART_OF_RUN
    row("bytes of the log of a robot", f"{os.path.getsize(log):,}", f"a tick: {os.path.getsize(log) / TICKS:.0f}", "")
    return missed


def tenfold(program, scratch):
    """Ten times the ticks, with 2 threads and with 200: as many as a log has room for, and a tenth of them, in turn. What no tick takes
    counts for neither."""
    missed = 0
    for threads, ticks, content in ((2, 170_000, PAIR), (200, 1_700, gen_text(200))):
        text = written(scratch, f"{threads}.forec", content)
        traces = [written(scratch, f"{threads}-{count}.trace", "\n" * (count + 1)) for count in (0, ticks // 10, ticks)]
        made = [log_of(program, scratch, f"{threads}-{at}", text, trace) for at, trace in enumerate(traces)]
        for command in ("log", "replay"):
            words = [[program, command, text, *([log] if command == "replay" else [])] for log in made]
            rounds = [[run(each, trace, os.devnull) for each, trace in zip(words, traces)] for _ in range(15)]
            once, ten = (statistics.median(of[at] - of[0] for of in rounds) for at in (1, 2))
            ratio = statistics.median((many - none) / (few - none) for none, few, many in rounds)
            row(f"{command}, {threads} threads, {ticks:,} ticks", f"{ten * 1000:.0f} ms", f"{ticks // 10:,} ticks: {once * 1000:.1f} ms", f"{ratio:.1f}")
            missed += ratio > MOST_OF_TEN_TIMES
    return missed


def logs(program, scratch):
    return robot(program, scratch) + tenfold(program, scratch)
