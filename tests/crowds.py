"""What makes a machine crowded: programs of many threads that hop from core to core, and busy loops beside them."""
import os
import random
import subprocess
import sys
import tempfile
import time

ROOT = os.path.dirname(os.path.dirname(os.path.realpath(__file__)))
MOST = 64  # cores
LOOPS = 2  # busy loops a processor
PLUS = "shared output int s = 0 combine mod with plus;\nint plus(int a, int b) { return a + b; }\n"


def chain(threads):
    """Each thread but the last forks one branch. Each hop of a tick goes to the next core."""
    last = f"void t{threads - 1}(void) {{ int i = 0; while (1) {{ i++; s = i; pause; }} }}\n"
    links = "".join(f"void t{k}(void) {{ par(t{k + 1}); }}\n" for k in range(threads - 2, 0, -1))
    return PLUS + last + links + "void main(void) { par(t1); }\n", list(range(threads))


def comb(teeth):
    """Branches of one parent, each with two below on the next cores."""
    leaf = "void leaf(int n) { int i = n; while (1) { s = i; i = i + n; pause; } }\n"
    tooth = "void tooth(int n) { par(leaf(n), leaf(n + 1)); }\n"
    text = PLUS + leaf + tooth + "void main(void) { par(" + ", ".join(f"tooth({n})" for n in range(teeth)) + "); }\n"
    return text, [0] + [core for n in range(teeth) for core in (n + 1, n + 2, n + 3)]


def tree(threads):
    """Thread k forks threads 2k and 2k + 1."""
    lines = []
    for k in range(1, threads):
        below = [f"t{child}" for child in (2 * k, 2 * k + 1) if child < threads]
        body = f"par({', '.join(below)});" if below else f"int i = {k}; while (1) {{ s = i; i = i + {k}; pause; }}"
        lines.append(f"void t{k}(void) {{ {body} }}\n")
    return PLUS + "".join(reversed(lines)) + "void main(void) { par(t1); }\n", list(range(threads))


def robot():
    with open(os.path.join(ROOT, "examples", "robot.forec"), encoding="ascii") as file:
        return file.read(), [0, 1, 2, 3, 4]


def placed(places):
    """The words that put threads on these cores, modulo the most that there can be."""
    return ["--cores", str(MOST), "--place", ",".join(str(place % MOST) for place in places)]


def empty_rows(count):
    return b"\n" * (count + 1)


def robot_rows(count, chance=None):
    chance = chance or random.Random(1)
    rows = (f"{chance.randint(0, 99)} {chance.randint(0, 99)} {int(chance.random() < 0.02)}\n" for _ in range(count))
    return ("left right stop\n" + "".join(rows)).encode()


# a name, the text with its places, and the rows
PROGRAMS = [
    ("chain of 255", chain(255), empty_rows),
    ("comb of 64", comb(64), empty_rows),
    ("tree of 255", tree(255), empty_rows),
    ("robot", robot(), robot_rows),
]


def held(processors, words):
    """The words that run these on these processors alone."""
    return ["taskset", "-c", ",".join(map(str, sorted(processors))), *words]


class Busy:
    """Busy loops on these processors, which take what they get until the end of the block."""

    def __init__(self, processors, loops=LOOPS):
        self.processors, self.count, self.loops = sorted(processors), loops * len(processors), []

    def __enter__(self):
        for k in range(self.count):
            on = [self.processors[k % len(self.processors)]]
            self.loops.append(subprocess.Popen(held(on, [sys.executable, "-c", "while True: pass"])))
        time.sleep(0.2)
        return self

    def __exit__(self, *_):
        for loop in self.loops:
            loop.kill()
            loop.wait()


class Ran:
    """A run on these processors: what it printed, its status or None where it took too long, seconds, and switches as the system counts them."""

    def __init__(self, words, source, processors, limit):
        start = time.perf_counter()
        with open(source, "rb") as stdin, tempfile.TemporaryFile() as stdout:
            child = os.fork()
            if child == 0:
                try:
                    os.dup2(stdin.fileno(), 0)
                    os.dup2(stdout.fileno(), 1)
                    os.execvp("taskset", held(processors, words))
                finally:
                    os._exit(127)
            self.status, used = self._wait(child, start + limit)
            stdout.seek(0)
            self.out = stdout.read()
        self.seconds = time.perf_counter() - start
        self.voluntary, self.involuntary = used.ru_nvcsw, used.ru_nivcsw
        self.processor_time = used.ru_utime + used.ru_stime

    @staticmethod
    def _wait(child, until):
        while time.perf_counter() < until:
            done, status, used = os.wait4(child, os.WNOHANG)
            if done:
                return os.waitstatus_to_exitcode(status), used
            time.sleep(0.005)
        os.kill(child, 9)
        _, _, used = os.wait4(child, 0)
        return None, used
