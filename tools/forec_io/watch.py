"""A view of a run, for a terminal: inputs, outputs, the last ticks, and latencies. A value can be forced and freed; a loop that no machine
is bound to can be paused, and stepped tick by tick."""
from __future__ import annotations

import contextlib
import curses
import os
import signal
import sys
import threading
import time
from collections import deque
from typing import Any

from .config import Config
from .log import log_of
from .loop import Loop
from .signals import LEAST, MOST
from .table import ConfigFault

FRAME = 0.1  # seconds between two pictures
LINES_OF_TOLD = 3
LONGEST_NUMBER = 11


class View:
    """What is on the screen. `chosen` is the number of the signal that a key is for, inputs first; `typed` a number that is being typed."""

    def __init__(self, loop: Loop, told: deque[str]) -> None:
        self.loop, self.told = loop, told
        self.names = [("input", name) for name in loop.config.inputs] + [("output", name) for name in loop.config.outputs]
        self.chosen = 0
        self.typed: str | None = None
        self.can_pause = not any(channel.bound for channel in loop.channels)

    def key(self, key: int) -> None:
        """Does what a key means."""
        if self.typed is not None:
            self._type(key)
        elif key == curses.KEY_UP:
            self.chosen = max(0, self.chosen - 1)
        elif key == curses.KEY_DOWN:
            self.chosen = min(len(self.names) - 1, self.chosen + 1)
        elif key == ord("f") and self.names:
            self.typed = ""
        elif key == ord("u") and self.names:
            self._free()
        elif key == ord("p") and self.can_pause:
            self.loop.paused = not self.loop.paused
        elif key == ord("s") and self.can_pause and self.loop.paused:
            self.loop.steps.release()
        elif key == ord("q"):
            self.loop.stop("the key q")

    def _type(self, key: int) -> None:
        """Takes a key of a number that is being typed."""
        typed = self.typed or ""
        if key in (curses.KEY_ENTER, 10, 13):
            self.typed = None
            if typed.lstrip("-").isdigit() and LEAST <= int(typed) <= MOST:
                self._force(int(typed))
        elif key == 27:
            self.typed = None
        elif key in (curses.KEY_BACKSPACE, 8, 127):
            self.typed = typed[:-1]
        elif (chr(key).isdigit() if 0 <= key < 128 else False) or key == ord("-") and not typed:
            self.typed = (typed + chr(key))[:LONGEST_NUMBER]

    def _forced(self, kind: str) -> dict[str, int]:
        return self.loop.forced_inputs if kind == "input" else self.loop.forced_outputs

    def _force(self, value: int) -> None:
        kind, name = self.names[self.chosen]
        self._forced(kind)[name] = value
        self.loop.note(f"{kind} {name} is forced to {value} from the next tick on")

    def _free(self) -> None:
        kind, name = self.names[self.chosen]
        if self._forced(kind).pop(name, None) is not None:
            self.loop.note(f"{kind} {name} is free from the next tick on")

    def lines(self, height: int) -> list[tuple[str, bool]]:
        """The lines of a picture, and whether each is bright."""
        loop = self.loop
        state = "paused" if loop.paused else "runs"
        found = [(f"{os.path.basename(loop.config.program)}   tick {loop.tick}   {state}", True)]
        found += [(f"channel {channel.name}: {channel.fault or 'up'}", bool(channel.fault)) for channel in loop.channels] + [("", False)]
        found += [self._signal(number, kind, name) for number, (kind, name) in enumerate(self.names)] + [("", False)]
        found += [(line, False) for line in loop.statistics()] + [("", False)]
        told = list(self.told)[-LINES_OF_TOLD:]
        space = max(1, height - len(found) - len(told) - 1)
        found += [(line, False) for line in list(loop.recent)[-space:]] + [(line, True) for line in told]
        return found[:height - 1] + [(self._bottom(), True)]

    def _signal(self, number: int, kind: str, name: str) -> tuple[str, bool]:
        loop = self.loop
        values = loop.inputs if kind == "input" else loop.outputs
        signal_ = loop.config.inputs[name] if kind == "input" else loop.config.outputs[name]
        forced = self._forced(kind).get(name)
        marks = [f"forced to {forced}"] if forced is not None else []
        if kind == "input" and signal_.channel and name not in loop.known:
            marks.append("not known")
        pointer = ">" if number == self.chosen else " "
        return f"{pointer} {kind:<7}{name:<20}{values.get(name, '-'):>12} {signal_.unit:<6} {', '.join(marks)}", bool(marks)

    def _bottom(self) -> str:
        if self.typed is not None:
            return f"force {self.names[self.chosen][1]} to: {self.typed}_   (enter; escape)"
        steps = "   p pause   s step" if self.can_pause else ""
        return f"up, down   f force   u free{steps}   q end"


def draw(screen: Any, view: View) -> None:
    """Draws a picture."""
    height, width = screen.getmaxyx()
    screen.erase()
    for at, (line, bright) in enumerate(view.lines(height)):
        screen.addnstr(at, 0, line, width - 1, curses.A_BOLD if bright else curses.A_NORMAL)
    screen.refresh()


def run(config: Config) -> int:
    """`forec watch`: runs the configuration in a thread of its own, and shows it."""
    if not (sys.stdin.isatty() and sys.stdout.isatty()):
        raise ConfigFault("a terminal is wanted; forec loop needs none")
    try:
        curses.setupterm()
    except curses.error as fault:
        raise ConfigFault(f"this terminal can't show it: {fault}") from None
    told: deque[str] = deque(maxlen=100)
    log = log_of(config)
    loop = Loop(config, log, told.append, lambda line: None)
    for number in (signal.SIGTERM, signal.SIGINT, signal.SIGHUP):
        signal.signal(number, lambda number, _: loop.stop(signal.Signals(number).name))
    runner = threading.Thread(target=loop.run, name="loop")
    runner.start()
    try:
        curses.wrapper(watch, View(loop, told), runner)
    finally:
        loop.stop("the view is gone")
        runner.join()
        loop.close_log()
    print("\n".join([*told, *loop.statistics(), *([f"the log is {log.folder}"] if log else [])]))
    return loop.status


def watch(screen: Any, view: View, runner: threading.Thread) -> None:
    """Draws pictures and takes keys for as long as the loop runs."""
    with contextlib.suppress(curses.error):
        curses.curs_set(0)
    screen.timeout(int(1000 * FRAME))
    drawn = 0.0
    while runner.is_alive():
        key = screen.getch()
        if key >= 0:
            view.key(key)
        if key >= 0 or time.monotonic() - drawn >= FRAME:
            draw(screen, view)
            drawn = time.monotonic()
