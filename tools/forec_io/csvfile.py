"""Files of comma-separated values: a row of the one is read in each tick, a row of the other written.

The channel's keys: read and write, the paths of the files, and end, which is done where there are no more rows to read: hold the last
values, begin again, or stop the run. The place of a value is a column, by the name in the first line of the file; where it isn't given
it is the name of the input or output.
"""
from __future__ import annotations

import csv
import os
from collections.abc import Iterator, Mapping
from types import SimpleNamespace
from typing import IO, Any

from .channel import EndOfRows, Number, Setup
from .lines import number
from .table import ConfigFault

LIBRARY = None


class CsvFile:
    """A file to read, a file to write, or both."""
    kind = "csv"
    bound = False

    def __init__(self, setup: Setup) -> None:
        table = setup.table
        self.name, self.fault = setup.name, None
        self.safe_after: float | None = None
        self._source, self._target = (os.path.join(setup.folder, path) if path else "" for path in
                                      (table.take("read", str, ""), table.take("write", str, "")))
        self._at_end = table.take("end", str, "hold", among=("hold", "again", "stop"))
        self._inputs = {name: each.take("column", str, name) for name, each in setup.inputs.items()}
        self._outputs = {name: each.take("column", str, name) for name, each in setup.outputs.items()}
        for names, path, key in ((self._inputs, self._source, "read"), (self._outputs, self._target, "write")):
            if bool(names) != bool(path):
                raise ConfigFault(f"{table.name}: '{key}' is {'missing' if names else 'a file for which there are no columns'}")
        self._safe = setup.safe
        self._values: dict[str, Number] = {}
        self._rows: Iterator[list[str]] = iter(())
        self._columns: dict[str, int] = {}
        self._reading: IO[str] | None = None
        self._writing: IO[bytes] | None = None
        self._writer: Any = None
        self._told: list[str] = []
        self._bad = False  # whether a row without a number was told already

    def places(self) -> dict[str, set[object]]:
        return {name: {column} for name, column in self._outputs.items()}

    def start(self) -> None:
        if self._source:
            self._open_source()
        if self._target:
            # pylint: disable-next=consider-using-with
            target = self._writing = open(self._target, "wb", buffering=0)
            # Each row is written whole and at once, so that a process that is killed leaves whole rows.
            self._writer = csv.writer(SimpleNamespace(write=lambda text: target.write(text.encode())), lineterminator="\n")
            self._writer.writerow(self._outputs.values())

    def read(self) -> dict[str, Number]:
        row = next(self._rows, None)
        if row is None and self._at_end == "again":
            self._open_source()
            row = next(self._rows, None)
        if row is None:
            if self._source and self._at_end == "stop":
                raise EndOfRows(self._source)
            return self._values
        found = {name: number(row[at]) if (at := self._columns[column]) < len(row) else None for name, column in self._inputs.items()}
        self._values = {name: value for name, value in found.items() if value is not None}
        if len(self._values) < len(found) and not self._bad:
            self._bad = True
            self._told.append(f"has no number for {next(name for name in found if name not in self._values)} in the row {row}")
        return self._values

    def write(self, values: Mapping[str, Number]) -> None:
        if self._writer:
            self._writer.writerow([values[name] for name in self._outputs])

    def safe(self) -> None:
        self.write(self._safe)

    def close(self) -> None:
        for file in (self._reading, self._writing):
            if file:
                file.close()
        self._writer = None

    def told(self) -> list[str]:
        told, self._told = self._told, []
        return told

    def _open_source(self) -> None:
        """Begins to read at the first row."""
        if self._reading:
            self._reading.close()
        # pylint: disable-next=consider-using-with
        self._reading = open(self._source, encoding="utf-8", newline="")
        self._rows = csv.reader(self._reading)
        names: list[str] = next(self._rows, [])
        self._columns = {column.strip(): at for at, column in enumerate(names)}
        missing = [column for column in self._inputs.values() if column not in self._columns]
        if missing:
            raise ConfigFault(f"{self._source}: there is no column '{missing[0]}'")
