"""How runs are measured, and how a figure is printed beside one of a reference in the same run."""
import os
import statistics
import subprocess
import time

ROOT = os.path.dirname(os.path.dirname(os.path.realpath(__file__)))


def run(words, source, sink, status=0):
    """Runs a command that has to end with this status, and gives the seconds that it took."""
    with open(source, "rb") as stdin, open(sink, "wb") as stdout:
        start = time.perf_counter()
        ended = subprocess.run(words, stdin=stdin, stdout=stdout, stderr=subprocess.DEVNULL, check=False).returncode
        seconds = time.perf_counter() - start
    assert ended == status, f"{words[:3]} ended with {ended}"
    return seconds


def best(words, source, sink, times, status=0):
    return min(run(words, source, sink, status) for _ in range(times))


def in_turn(times, *runs):
    """The median seconds of each of these runs, made in turn, so that what else the machine does meets all alike."""
    return [statistics.median(seconds) for seconds in zip(*([run(*one) for one in runs] for _ in range(times)))]


def beside(times, ours, reference):
    """The median seconds of two runs that are made in turn, and the median of how many times as long the reference took as its
    neighbour. A machine that gives more time in one second than in the next gives both of a pair the same, but not two medians."""
    pairs = [(run(*ours), run(*reference)) for _ in range(times)]
    mine, theirs = (statistics.median(seconds) for seconds in zip(*pairs))
    return mine, theirs, statistics.median(other / one for one, other in pairs)


def median(words, source, sink, times):
    return statistics.median(run(words, source, sink) for _ in range(times))


def row(what, ours, reference, ratio):
    print(f"{what:<46} {ours:>16} {reference:>30} {ratio:>8}", flush=True)


def written(scratch, name, text):
    path = os.path.join(scratch, name)
    with open(path, "w") as out:
        out.write(text)
    return path


def same(one, other):
    with open(one, "rb") as a, open(other, "rb") as b:
        return a.read() == b.read()


def robot_trace(count, chance):
    """So many rows of two distances, with a stop now and then."""
    block = "".join(f"{chance.randint(0, 99)} {chance.randint(0, 99)} {int(chance.random() < 0.02)}\n" for _ in range(1000))
    return "left right stop\n" + block * (count // 1000)


def gen_text(threads):
    """The text that `gen` runs for so many threads: thread k forks threads 2k and 2k + 1, and those without branches count."""
    lines = []
    for k in range(1, threads + 1):
        below = [f"t{child}" for child in (2 * k, 2 * k + 1) if child <= threads]
        body = f"par({', '.join(below)});" if below else f"int i = {k}; while (1) {{ s = i; i = i + {k}; pause; }}"
        lines.append(f"void t{k}(void) {{ {body} }}\n")
    head = "shared output int s = 0 combine mod with plus;\nint plus(int a, int b) { return a + b; }\n"
    return head + "".join(lines) + "void main(void) { par(t1); }\n"
