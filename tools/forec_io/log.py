"""The log of a run: a folder with all that it takes to repeat the run at a desk.

    program.forec, config.toml     copies of what ran
    trace.0001, trace.0002, ..     the rows that the controller was given: together they are its trace
    report.0001, ..                the lines that it printed: together they are its report
    notes                          what happened, by ticks: channels that went down and came back, overruns, forced values, the end

A row is in the log before the controller is given it. Lines are written whole, by one call each time, so that a process that is killed
leaves whole lines. Files are never removed or written over.
"""
from __future__ import annotations

import glob
import os
import shutil
import time
from collections.abc import Iterator

from .config import Config, LogPlace


class Parts:
    """A series of files, NAME.0001 and so on, each of at most so many bytes or one piece."""

    def __init__(self, folder: str, name: str, size: int) -> None:
        self._path, self._size = os.path.join(folder, name), size
        self._number, self._file, self._used = 0, -1, 0

    def write(self, piece: bytes) -> None:
        """Writes whole lines."""
        if self._file < 0 or self._used and self._used + len(piece) > self._size:
            self.close()
            self._number += 1
            self._file = os.open(f"{self._path}.{self._number:04}", os.O_WRONLY | os.O_CREAT | os.O_EXCL | os.O_CLOEXEC, 0o644)
            self._used = 0
        try:
            while piece:
                written = os.write(self._file, piece)
                piece, self._used = piece[written:], self._used + written
        except OSError:
            self._cut()
            raise

    def close(self) -> None:
        if self._file >= 0:
            os.close(self._file)
        self._file = -1

    def _cut(self) -> None:
        """Leaves whole lines alone, after a disk became full in the middle of one."""
        with open(f"{self._path}.{self._number:04}", "rb+") as file:
            file.truncate(file.read().rfind(b"\n") + 1)


def lines_of(folder: str, name: str) -> Iterator[bytes]:
    """The lines of all files of a series, one after the other."""
    for path in sorted(glob.glob(os.path.join(glob.escape(folder), name + ".[0-9]*")), key=lambda path: int(path.rpartition(".")[2])):
        with open(path, "rb") as file:
            yield from file


def new_folder(parent: str) -> str:
    """The folder of the next run, 0001 and so on."""
    os.makedirs(parent, exist_ok=True)
    number = max((int(name) for name in os.listdir(parent) if name.isdigit()), default=0)
    while True:
        number += 1
        try:
            os.mkdir(path := os.path.join(parent, f"{number:04}"))
        except FileExistsError:
            continue
        return path


class Log:
    """The files of a run that goes on."""

    def __init__(self, place: LogPlace, program: str, config: str) -> None:
        self.folder = new_folder(place.folder)
        shutil.copyfile(program, os.path.join(self.folder, "program.forec"))
        shutil.copyfile(config, os.path.join(self.folder, "config.toml"))
        self._parts = {name: Parts(self.folder, name, place.size) for name in ("trace", "report")}
        self._held: dict[str, list[str]] = {name: [] for name in self._parts}
        self._each_tick = place.flush == "tick"
        self._flushed = time.monotonic()
        self._notes = os.open(os.path.join(self.folder, "notes"), os.O_WRONLY | os.O_CREAT | os.O_EXCL | os.O_CLOEXEC, 0o644)

    def row(self, row: str) -> None:
        """A row that the controller will be given, or the header."""
        self._keep("trace", row)

    def line(self, line: str) -> None:
        """A line that the controller has printed."""
        self._keep("report", line)

    def note(self, tick: int, text: str) -> None:
        os.write(self._notes, f"tick {tick}: {text}\n".encode())

    def flush(self) -> None:
        """Hands all to the system: rows first, so that no line is there without its row."""
        for name, lines in self._held.items():
            piece = "".join(lines).encode()
            lines.clear()
            if piece:
                self._parts[name].write(piece)
        self._flushed = time.monotonic()

    def close(self) -> None:
        """Writes what is left, and ends the files."""
        try:
            self.flush()
        finally:
            for parts in self._parts.values():
                parts.close()
            os.close(self._notes)

    def _keep(self, name: str, line: str) -> None:
        self._held[name].append(line + "\n")
        if self._each_tick or time.monotonic() - self._flushed >= 1:
            self.flush()


def log_of(config: Config) -> Log | None:
    """The log of a new run, where the configuration wants one."""
    return Log(config.log, config.program, config.path) if config.log else None
