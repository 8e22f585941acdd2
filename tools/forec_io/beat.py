"""The clock of a loop: periods of one length from its start on, and what the system gives to a loop in real time."""
from __future__ import annotations

import contextlib
import ctypes
import os
import resource
import socket
import time
from collections.abc import Iterator

TIMER_ABSTIME = 1
MCL_CURRENT_AND_FUTURE = 3
LIBC = ctypes.CDLL(None, use_errno=True)


class TimeSpec(ctypes.Structure):
    """The struct timespec of the system."""
    _fields_ = [("seconds", ctypes.c_long), ("nanoseconds", ctypes.c_long)]


def sleep_until(due: int) -> None:
    """Sleeps until a time of the monotonic clock, in nanoseconds, or until a signal comes. The time is absolute, so whatever delays the
    call delays nothing after it."""
    LIBC.clock_nanosleep(time.CLOCK_MONOTONIC, TIMER_ABSTIME, ctypes.byref(TimeSpec(*divmod(due, 1_000_000_000))), None)


class Overrun(Exception):
    """A tick ended after its period, and the configuration says that the run ends then."""


class Beat:
    """Period number n begins n periods after the origin: the beat has no drift, however late single ticks are."""

    def __init__(self, period: float, overrun: str) -> None:
        self.period, self.policy = round(period * 1e9), overrun
        self.due: int | None = None
        self.late, self.left_out = 0, 0

    def begin(self) -> None:
        """The next period begins a period from now."""
        self.due = time.monotonic_ns() + self.period

    def done(self) -> int:
        """The tick of the period is done; the next one is awaited. Returns by how many periods it ended too late."""
        assert self.due is not None
        over = max(0, time.monotonic_ns() - self.due) // self.period
        self.due += self.period
        if over:
            self.late += 1
            if self.policy == "stop":
                raise Overrun
            if self.policy == "skip":
                self.due += over * self.period
                self.left_out += over
        return over


class ServiceManager:
    """The manager that has started the loop, as systemd, where there is one: it ends and restarts a loop that doesn't tell it for too long
    that it goes on."""

    def __init__(self) -> None:
        self._address = os.environ.get("NOTIFY_SOCKET", "")
        self._socket = socket.socket(socket.AF_UNIX, socket.SOCK_DGRAM | socket.SOCK_NONBLOCK) if self._address else None
        self._told = 0.0

    def tell(self, state: str) -> None:
        """Tells it, ten times in a second at most."""
        now = time.monotonic()
        if self._socket and now - self._told >= 0.1:
            self._told = now
            with contextlib.suppress(OSError):
                self._socket.sendto(state.encode(), self._address.replace("@", "\0", 1) if self._address[0] == "@" else self._address)


def real_time(priority: int, lock: bool) -> Iterator[str]:
    """Gives this thread, and the threads and processes that it starts from now on, a real-time priority, and locks the memory of this
    process; what the system doesn't allow is told."""
    if priority:
        try:
            os.sched_setscheduler(0, os.SCHED_FIFO, os.sched_param(priority))
        except OSError as fault:
            yield f"no SCHED_FIFO here: {fault.strerror} (it takes root, CAP_SYS_NICE or a limit, see ulimit -r)"
    if lock:
        if os.geteuid() and resource.getrlimit(resource.RLIMIT_MEMLOCK)[0] != resource.RLIM_INFINITY:
            yield "the memory isn't locked: the limit (see ulimit -l) isn't unlimited"
        elif LIBC.mlockall(MCL_CURRENT_AND_FUTURE):
            yield f"the memory isn't locked: {os.strerror(ctypes.get_errno())}"
