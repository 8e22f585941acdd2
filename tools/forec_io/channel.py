"""Channels: what carries values between the loop and a peer, as a PLC, a broker or a bus.

All adapters have the interface `Channel`. What it carries are raw numbers, by the names of the program's inputs and outputs; `config`
turns them into the program's numbers. Neither `read` nor `write` waits for a peer: where the peer is slow, a thread of the channel waits.
"""
from __future__ import annotations

import threading
import time
from collections.abc import Mapping
from dataclasses import dataclass
from typing import Protocol

from .table import Table

Number = int | float
MOST_TOLD = 100  # texts that wait to be taken by `told`


class ChannelFault(Exception):
    """Why a channel is down."""


class EndOfRows(Exception):
    """A channel has no more values, and its configuration says that the run ends then."""


@dataclass(frozen=True)
class Setup:
    """What a channel is made of: its table of the configuration, a table for the place of each input and output, the raw safe values of
    the outputs, the period of the loop in seconds, and the folder in which paths begin."""
    name: str
    table: Table
    inputs: Mapping[str, Table]
    outputs: Mapping[str, Table]
    safe: Mapping[str, Number]
    period: float
    folder: str


class Channel(Protocol):
    """An adapter. Its constructor takes its keys of the tables, and touches nothing; `start` does."""
    name: str
    kind: str
    bound: bool  # whether a machine may be at the other end, so that the loop can't be paused
    fault: str | None  # why the channel is down, or None
    safe_after: float | None  # for how many seconds it may be down before all outputs get their safe values

    def start(self) -> None:
        """Connects, or begins to try."""

    def read(self) -> dict[str, Number]:
        """The newest values of the inputs; one that isn't known now is left out."""

    def write(self, values: Mapping[str, Number]) -> None:
        """Gives the outputs these values."""

    def safe(self) -> None:
        """Gives the outputs their safe values."""

    def close(self) -> None:
        """Ends the channel, after what was written last is out where the peer takes it."""

    def told(self) -> list[str]:
        """What has happened to the channel since this was last asked."""

    def places(self) -> dict[str, set[object]]:
        """For each output what it sets at the peer: no two outputs may set one thing."""


class Polled:
    """A channel whose peer is asked by a thread, over and over. An adapter has `connect`, `send`, `receive` and `disconnect`, which are
    called by that thread alone and raise any exception where the peer is gone or sends nonsense. The channel is down then, and connects
    anew."""
    kind = ""
    bound = True
    again = 0.2  # seconds between two tries to connect
    patience = 1.0  # seconds for the last values at the end

    def __init__(self, setup: Setup, stale: float | None) -> None:
        table = setup.table
        self.name = setup.name
        self.poll = table.take("poll", float, min(setup.period / 2, 0.1), least=1e-5)
        self.refresh = table.take("refresh", float, 0.5, least=0)
        self.stale = table.take("stale", float, stale and max(stale, 2 * self.poll), least=self.poll)
        self.safe_after: float | None = table.take("safe_after", float, None, least=0)
        self._names = tuple(setup.inputs)
        self._fault: str | None = "not connected yet"
        self._old: str | None = None  # an input whose value is missing or too old
        self._tried = False  # whether it was told already why there is no connection
        self._safe = dict(setup.safe)
        self._lock = threading.Lock()
        self._values: dict[str, tuple[Number, float]] = {}
        self._wanted: Mapping[str, Number] = self._safe
        self._told: list[str] = []
        self._bad: set[str] = set()
        self._changed, self._closing = threading.Event(), threading.Event()
        self._thread = threading.Thread(target=self._work, name=f"channel {self.name}", daemon=True)

    def connect(self) -> None:
        raise NotImplementedError

    def send(self, outputs: Mapping[str, Number]) -> None:
        """Sends all outputs."""
        raise NotImplementedError

    def receive(self) -> dict[str, Number | None]:
        """What came of the inputs: None for what is no number."""
        raise NotImplementedError

    def disconnect(self) -> None:
        raise NotImplementedError

    @property
    def fault(self) -> str | None:
        if self._fault or self._old is None:
            return self._fault
        return f"no value of {self._old} for {self.stale:g} s"

    def start(self) -> None:
        self._thread.start()

    def read(self) -> dict[str, Number]:
        oldest = time.monotonic() - self.stale if self.stale is not None else float("-inf")
        with self._lock:
            if self._fault:
                return {}
            found = {name: value for name, (value, at) in self._values.items() if at >= oldest}
            if self.stale is not None:
                self._see_old(next((name for name in self._names if name not in found), None))
            return found

    def write(self, values: Mapping[str, Number]) -> None:
        if values != self._wanted:
            self._wanted = values
            self._changed.set()

    def safe(self) -> None:
        self.write(self._safe)

    def close(self) -> None:
        self._closing.set()
        self._changed.set()
        if self._thread.is_alive():
            self._thread.join(self.patience)

    def told(self) -> list[str]:
        with self._lock:
            told, self._told = self._told, []
        return told

    def _work(self) -> None:
        while True:
            try:
                self.connect()
                self._serve()
                return
            except Exception as fault:  # pylint: disable=broad-except
                # Whatever a peer does, and whatever its library makes of that, the thread goes on.
                self._down(str(fault) or type(fault).__name__)
            finally:
                self._part()
            if self._closing.wait(self.again):
                return

    def _serve(self) -> None:
        """Exchanges values until the channel is closed, the wanted ones of that time included."""
        sent: Mapping[str, Number] | None = None
        sent_at = 0.0
        while True:
            begun, closing = time.monotonic(), self._closing.is_set()
            self._changed.clear()
            wanted = self._wanted
            if wanted != sent or begun - sent_at >= self.refresh:
                self.send(wanted)
                sent, sent_at = wanted, begun
            self._came(self.receive())
            if closing:
                return
            self._changed.wait(max(0.0, begun + self.poll - time.monotonic()))

    def _came(self, values: Mapping[str, Number | None]) -> None:
        now = time.monotonic()
        with self._lock:
            if self._fault:
                self._fault, self._old = None, None
                self._tell("is up")
            for name, value in values.items():
                if value is None:
                    self._values.pop(name, None)
                    if name not in self._bad:
                        self._tell(f"sends nonsense for {name}")
                        self._bad.add(name)
                else:
                    self._values[name] = (value, now)
                    self._bad.discard(name)

    def _down(self, fault: str) -> None:
        with self._lock:
            if self._fault is None or not self._tried:
                self._tell(f"is down: {fault}")
            self._fault, self._tried = fault, True
            self._values.clear()

    def _see_old(self, name: str | None) -> None:
        """An input has no value that is new enough, or none is so."""
        if name and not self._old:
            self._tell(f"has no value of {name} for {self.stale:g} s")
        elif self._old and not name:
            self._tell("has new values of all inputs")
        self._old = name

    def _tell(self, text: str) -> None:
        if len(self._told) < MOST_TOLD:
            self._told.append(text)

    def _part(self) -> None:
        try:
            self.disconnect()
        except Exception:  # pylint: disable=broad-except
            pass  # the peer is gone already
