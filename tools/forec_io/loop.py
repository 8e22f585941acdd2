"""The loop: a tick in each period. It reads the channels, gives the controller the row, waits for the line, and sets the outputs.

The outputs get their safe values before the first tick, where the controller's line doesn't come in time, where a channel is down for too
long, and at the end of the run, whatever ends it.
"""
from __future__ import annotations

import contextlib
import gc
import signal
import sys
import threading
import time
from collections import deque
from collections.abc import Callable, Iterator

from plant import Controller, Ended

from .beat import Beat, Overrun, ServiceManager, real_time, sleep_until
from .channel import Channel, EndOfRows, Number
from .config import Config
from .latencies import HEAD, Latencies
from .log import Log, log_of
from .program import command
from .table import ConfigFault

FIRST_SECONDS = 300  # for the first line: the command may have to compile itself
SLICE = 0.05  # seconds of waiting after which it is seen that the run is to end
RECENT = 100
FAULT = 1  # the status where the loop itself ends the run for a fault


class Loop:
    """A run. `forced_inputs` and `forced_outputs` have the values that a person holds fast; `paused` and `steps` are for single steps."""

    def __init__(self, config: Config, log: Log | None, tell: Callable[[str], None], show: Callable[[str], None]) -> None:
        self.config, self.log, self._tell, self._show = config, log, tell, show
        self.channels: list[Channel] = list(config.channels.values())
        self.beat = Beat(config.loop.period, config.loop.overrun)
        self.inputs = {name: each.default or 0 for name, each in config.inputs.items()}
        self._last = dict(self.inputs)  # the inputs before any is forced
        self.outputs: dict[str, int] = {}
        self.known: set[str] = set()  # the inputs whose channels have a value
        self.forced_inputs: dict[str, int] = {}
        self.forced_outputs: dict[str, int] = {}
        self.recent: deque[str] = deque(maxlen=RECENT)
        self.wake, self.answer, self.whole = Latencies(), Latencies(), Latencies()
        self.paused, self.steps = False, threading.Semaphore(0)
        self.tick, self.safe_ticks, self.late_lines = 0, 0, 0
        self.stopping: str | None = None
        self.status = 0
        self._down_since: dict[str, float] = {}
        self._blocked: str | None = None  # the channel for which the outputs are safe
        self._noted_late, self._closed = 0.0, False
        self._manager = ServiceManager()
        self._told_at = time.monotonic()

    def run(self) -> int:
        """Runs ticks up to the end, and returns the status: the controller's own, or 1 where the loop ended the run for a fault."""
        try:
            self._start()
            with Controller(self.config.program, list(self.config.inputs), forec=command(), options=self.config.loop.options, apart=True,
                            seconds=self.config.loop.watchdog) as controller:
                try:
                    self._ticks(controller)
                finally:
                    self._safe_at_end()
                self._ended(controller.close(), controller.status)
        except Ended as ended:
            self._ended(ended.line, ended.status)
        except (OSError, ConfigFault) as fault:
            # A log that can't be written, or a controller that says nothing: a run that can't be repeated isn't continued.
            self._fail(str(fault))
        except BaseException:
            self.status = FAULT
            raise
        finally:
            self._safe_at_end()
            for channel in self.channels:
                channel.close()
            self._events()
        return self.status

    def stop(self, why: str) -> None:
        """Ends the run after the tick that goes on."""
        self.stopping = self.stopping or why

    def statistics(self) -> Iterator[str]:
        """What is told of the run."""
        yield f"{self.tick} ticks at {1 / self.config.loop.period:g} a second"
        if self.whole.count:
            yield HEAD
            yield self.wake.row("begin of the tick, late by")
            yield self.answer.row("row to line")
            yield self.whole.row("begin to outputs")
        yield f"overruns: {self.beat.late} ticks ended after their period, {self.beat.left_out} periods were left out"
        yield f"safe outputs: in {self.safe_ticks} ticks; lines after the deadline: {self.late_lines}"

    def note(self, text: str) -> None:
        """Writes what happened into the log's notes. Where that isn't possible a row isn't either, and that ends the run."""
        if self.log and not self._closed:
            with contextlib.suppress(OSError):
                self.log.note(self.tick, text)

    def close_log(self) -> None:
        """Ends the log, after the run."""
        self._closed = True
        try:
            if self.log:
                self.log.close()
        except OSError as fault:
            self._fail(f"the log can't be written: {fault.strerror}")

    def _start(self) -> None:
        # The threads of the channels, and the controller, get the same priority: threads of Python hold one lock in turn, so a slow one
        # would hold up the loop.
        for text in real_time(self.config.loop.priority, self.config.loop.lock):
            self._say(text)
        sys.setswitchinterval(0.0005)
        for channel in self.channels:
            channel.start()
            if channel.bound:
                channel.safe()
        until = time.monotonic() + self.config.loop.wait
        while not all(map(self._is_ready, self.channels)) and time.monotonic() < until and not self.stopping:
            time.sleep(0.005)
        told = self._events()
        for channel in self.channels:
            if channel.fault and channel.name not in told:
                self._say(f"the channel {channel.name} is down: {channel.fault}")
        # What there is by now is never looked at again by the collector, which takes so little time in a tick.
        gc.collect()
        gc.freeze()
        if self.log:
            self.log.row(" ".join(self.config.inputs))

    def _is_ready(self, channel: Channel) -> bool:
        """Whether a channel is up, and has a value for each of its inputs. (Where no machine is bound a row isn't read twice.)"""
        if not channel.bound or channel.fault:
            return not channel.fault
        known = channel.read()
        return all(name in known for name, each in self.config.inputs.items() if each.channel == channel.name)

    def _ticks(self, controller: Controller) -> None:
        while not self.stopping and not 0 < self.config.loop.ticks <= self.tick:
            self._wait()
            if self.stopping:
                break
            try:
                self._one(controller)
                if self.beat.due is None:
                    self.beat.begin()
                elif self.beat.done():
                    self._late()
            except EndOfRows as end:
                self.stop(f"no more rows in {end}")
            except Overrun:
                self._fail(f"tick {self.tick} ended after its period")
            self._manager.tell("READY=1\nWATCHDOG=1")
            if 0 < self.config.loop.tell <= time.monotonic() - self._told_at:
                self._told_at = time.monotonic()
                self._tell("\n".join(self.statistics()))

    def _late(self) -> None:
        """A tick ended after its period: that is noted once in a second at most."""
        now = time.monotonic()
        if now - self._noted_late >= 1:
            self.note(f"ended after its period, as {self.beat.late} ticks have so far")
            self._noted_late = now

    def _wait(self) -> None:
        """Sleeps until the period begins, and for as long as the loop is paused and no step is asked for."""
        was_paused = self.paused
        while self.paused and not self.stopping and not self.steps.acquire(timeout=SLICE):
            pass
        if was_paused:
            self.beat.due = time.monotonic_ns()
        if self.beat.due is not None:
            sleep_until(self.beat.due)
            while time.monotonic_ns() < self.beat.due and not self.stopping:
                sleep_until(self.beat.due)  # a signal came
            self.wake.add(time.monotonic_ns() - self.beat.due)

    def _one(self, controller: Controller) -> None:
        """One tick."""
        begun = self.beat.due
        row = self._row()
        if self.log:
            self.log.row(" ".join(map(str, row.values())))
        sent = time.monotonic_ns()
        controller.give(**row)
        in_time = self._awaited(controller)
        outputs = controller.take()
        came = time.monotonic_ns()
        self.inputs, self.outputs = row, outputs
        self.tick = controller.tick
        if in_time:
            self._set(outputs)
        if begun is not None:
            self.answer.add(came - sent)
            self.whole.add(time.monotonic_ns() - begun)
        if self.log:
            self.log.line(controller.line)
        self.recent.append(controller.line)
        self._show(controller.line)
        self._events()

    def _row(self) -> dict[str, int]:
        """The inputs of the next tick."""
        raw: dict[str, Number] = {}
        for channel in self.channels:
            raw.update(channel.read())
        found = {name: each.value(raw[name]) for name, each in self.config.inputs.items() if name in raw}
        self.known = {name for name, value in found.items() if value is not None}
        for name, each in self.config.inputs.items():
            value = found.get(name)
            if value is None:
                value = each.default
            if value is not None:
                self._last[name] = value
        return {**self._last, **self.forced_inputs}

    def _awaited(self, controller: Controller) -> bool:
        """Whether the line comes before the deadline. Where it doesn't, the outputs get their safe values, and the line is waited for. The
        first line has no deadline: the program has to start."""
        first = self.tick == 0
        if not first and controller.answers(self.config.loop.deadline):
            return True
        if not first:
            self.late_lines += 1
            self._make_safe()
            self._say(f"no line within {self.config.loop.deadline:g} s of the row of tick {self.tick + 1}: safe outputs")
        patience = FIRST_SECONDS if first else self.config.loop.watchdog
        until = time.monotonic() + patience
        while not controller.answers(SLICE):
            if self.stopping and first:
                raise TimeoutError(f"{self.stopping}: the run ends before the first line")
            if time.monotonic() > until:
                raise TimeoutError(f"no line for {patience:g} s after tick {self.tick}: the controller is ended")
        return first

    def _set(self, outputs: dict[str, int]) -> None:
        """Sets the outputs, or makes them safe where a channel is down for too long."""
        blocked = self._down_too_long()
        if blocked != self._blocked:
            self._say(f"the channel {blocked} is down for too long: safe outputs" if blocked else "no channel is down for too long")
            self._blocked = blocked
        if blocked:
            self._make_safe()
            return
        raw: dict[str, dict[str, Number]] = {channel.name: {} for channel in self.channels}
        for name, output in self.config.outputs.items():
            raw[output.channel or ""][name] = output.raw(self.forced_outputs.get(name, outputs[name]))
        for channel in self.channels:
            channel.write(raw[channel.name])

    def _down_too_long(self) -> str | None:
        """A channel that is down for longer than its configuration allows, if there is one."""
        now, found = time.monotonic(), None
        for channel in self.channels:
            since = self._down_since.setdefault(channel.name, now) if channel.fault else now
            if not channel.fault:
                self._down_since.pop(channel.name, None)
            elif channel.safe_after is not None and now - since >= channel.safe_after:
                found = channel.name
        return found

    def _make_safe(self) -> None:
        self.safe_ticks += 1
        for channel in self.channels:
            channel.safe()

    def _safe_at_end(self) -> None:
        for channel in self.channels:
            if channel.bound:
                channel.safe()

    def _ended(self, line: str | None, status: int) -> None:
        """The report is at its end, with this line."""
        if line and self.log:
            self.log.line(line)
        if line:
            self._show(line)
        if status < 0:
            self._fail(f"the controller was ended by signal {-status}")
        self.note(f"the run ended: {self.stopping or line}")
        self.status = self.status or status

    def _fail(self, why: str) -> None:
        self.stop(why)
        self.status = FAULT
        self._say(why)

    def _say(self, text: str) -> None:
        self._tell(text)
        self.note(text)

    def _events(self) -> set[str]:
        """Says what has happened to the channels, and returns the names of those of which there was something to say."""
        told = [(channel.name, text) for channel in self.channels for text in channel.told()]
        for name, text in told:
            self._say(f"the channel {name} {text}")
        return {name for name, _ in told}


def run(config: Config, show: Callable[[str], None]) -> int:
    """`forec loop`: runs the configuration up to its end, a signal's or a fault's, and tells the statistics on standard error."""
    def tell(text: str) -> None:
        print("\n".join(f"forec loop: {line}" for line in text.split("\n")), file=sys.stderr, flush=True)

    log = log_of(config)
    loop = Loop(config, log, tell, show)
    for number in (signal.SIGTERM, signal.SIGINT, signal.SIGHUP):
        signal.signal(number, lambda number, _: loop.stop(signal.Signals(number).name))
    signal.signal(signal.SIGUSR1, lambda *_: tell("\n".join(loop.statistics())))
    try:
        status = loop.run()
    finally:
        tell("\n".join(loop.statistics()))
        if log:
            tell(f"the log is {log.folder}")
            loop.close_log()
    return status or loop.status
