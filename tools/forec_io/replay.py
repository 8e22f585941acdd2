"""Repeats a log: the program of the log over its trace prints the report of the log, byte by byte."""
from __future__ import annotations

import contextlib
import itertools
import os
import subprocess
import threading
from collections.abc import Iterator
from typing import IO

from .config import read_toml
from .log import lines_of
from .program import command
from .table import ConfigFault

DIFFERS = 1


def feed(folder: str, trace: IO[bytes]) -> None:
    """Writes the trace of a log, for as long as the program reads it."""
    with contextlib.suppress(BrokenPipeError), trace:
        for line in lines_of(folder, "trace"):
            trace.write(line)


def judged(recorded: Iterator[bytes], printed: Iterator[bytes]) -> tuple[str, int]:
    """What is told of the recorded report and the printed one, and the status."""
    ticks = 0
    for number, (ours, now) in enumerate(itertools.zip_longest(recorded, printed, fillvalue=b""), 1):
        if not ours:
            more = sum(line.startswith(b"tick ") for line in (now, *printed))
            return f"{ticks} ticks, and the report is the recorded one up to there: the run was cut off, {more} ticks before its end", 0
        if ours != now:
            texts = [line.decode(errors="replace").rstrip("\n") or "nothing" for line in (ours, now)]
            return f"line {number} of the report differs\n  recorded: {texts[0]}\n  replayed: {texts[1]}", DIFFERS
        ticks += ours.startswith(b"tick ")
    return f"{ticks} ticks, and the report is the recorded one", 0


def run(folder: str) -> int:
    """`forec replay-field`: tells whether the recorded report is that of the recorded trace."""
    program = os.path.join(folder, "program.forec")
    if not os.path.isfile(program):
        raise ConfigFault(f"{folder} is no log: there is no {program}")
    options = read_toml(os.path.join(folder, "config.toml")).get("loop", {}).get("options", [])
    with subprocess.Popen([command(), "run", *map(str, options), "--", program], stdin=subprocess.PIPE, stdout=subprocess.PIPE) as child:
        assert child.stdin and child.stdout
        feeder = threading.Thread(target=feed, args=(folder, child.stdin), daemon=True)
        feeder.start()
        text, status = judged(lines_of(folder, "report"), iter(child.stdout))
        child.stdout.close()
        feeder.join()
    print(text)
    return status
