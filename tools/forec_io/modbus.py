"""Modbus TCP, as a client, by pymodbus.

The channel's keys: host, port, unit, timeout. The place of a value is one of coil, discrete, holding and register (an input register),
each with an address from 0; of a register also type (int16, uint16, int32, uint32, float32) and words (which word comes first).
"""
from __future__ import annotations

import inspect
import itertools
import logging
import struct
from collections.abc import Iterator, Mapping
from dataclasses import dataclass
from typing import Any

from .channel import ChannelFault, Number, Polled, Setup
from .table import ConfigFault, Table

LIBRARY = ("pymodbus.client", "python3-pymodbus python3-serial-asyncio")  # the first one's client imports the second
FORMATS = {"int16": "h", "uint16": "H", "int32": "i", "uint32": "I", "float32": "f"}
READS = {"coil": "read_coils", "discrete": "read_discrete_inputs", "holding": "read_holding_registers", "register": "read_input_registers"}
WRITES = {"coil": "write_coils", "holding": "write_registers"}
MOST = {"coil": 1900, "discrete": 1900, "holding": 120, "register": 120}  # places in one request


@dataclass(frozen=True)
class Place:
    """Where a value is: so many bits or registers from an address on."""
    name: str
    table: str
    address: int
    count: int
    form: str  # a format of struct; none for a bit
    high_first: bool

    @classmethod
    def of(cls, name: str, table: Table, tables: Mapping[str, str]) -> Place:
        found = [key for key in table.keys() if key in READS]
        if len(found) != 1 or found[0] not in tables:
            raise ConfigFault(f"{table.name}: one of {', '.join(tables)} is wanted")
        address = table.take(found[0], int, least=0, most=65535)
        if found[0] in ("coil", "discrete"):
            return cls(name, found[0], address, 1, "", True)
        form = FORMATS[table.take("type", str, "int16", among=list(FORMATS))]
        high_first = table.take("words", str, "high first", among=("high first", "low first")) == "high first"
        return cls(name, found[0], address, struct.calcsize(form) // 2, form, high_first)

    @property
    def after(self) -> int:
        return self.address + self.count

    def number(self, found: list[Any]) -> Number:
        """The value that these bits or registers are."""
        if not self.form:
            return int(bool(found[0]))
        return struct.unpack(">" + self.form, struct.pack(f">{self.count}H", *(found if self.high_first else found[::-1])))[0]

    def sent(self, value: Number) -> list[Any]:
        """The bits or registers that a value is; one that is too great becomes the greatest."""
        if not self.form:
            return [bool(value)]
        if self.form != "f":
            bits = 16 * self.count
            low, high = (-(1 << bits - 1), (1 << bits - 1) - 1) if self.form in "hi" else (0, (1 << bits) - 1)
            value = min(max(round(value), low), high)
        words = list(struct.unpack(f">{self.count}H", struct.pack(">" + self.form, value)))
        return words if self.high_first else words[::-1]


@dataclass(frozen=True)
class Run:
    """Places one after the other, for one request."""
    table: str
    address: int
    count: int
    places: tuple[Place, ...]


def runs(places: list[Place]) -> Iterator[Run]:
    """The places as few runs without gaps."""
    for table, group in itertools.groupby(sorted(places, key=lambda place: (place.table, place.address)), lambda place: place.table):
        run: list[Place] = []
        for place in group:
            if run and (place.address > max(each.after for each in run) or place.after - run[0].address > MOST[table]):
                yield run_of(run)
                run = []
            run.append(place)
        yield run_of(run)


def run_of(places: list[Place]) -> Run:
    first = places[0]
    return Run(first.table, first.address, max(place.after for place in places) - first.address, tuple(places))


class Modbus(Polled):
    """A connection to one unit of a Modbus server."""
    kind = "modbus"

    def __init__(self, setup: Setup) -> None:
        super().__init__(setup, stale=0.5)
        self.host = setup.table.take("host", str)
        self.port = setup.table.take("port", int, 502, least=1, most=65535)
        self.unit = setup.table.take("unit", int, 1, least=0, most=255)
        self.timeout = setup.table.take("timeout", float, 0.2, least=0.001)
        self._outputs = [Place.of(name, table, WRITES) for name, table in setup.outputs.items()]
        self._read = list(runs([Place.of(name, table, READS) for name, table in setup.inputs.items()]))
        self._write = list(runs(self._outputs))
        self._client: Any = None
        self._who: dict[str, int] = {}  # the unit, under the name that this pymodbus has for it

    def places(self) -> dict[str, set[object]]:
        return {place.name: {(place.table, place.address + n) for n in range(place.count)} for place in self._outputs}

    def connect(self) -> None:
        from pymodbus.client import ModbusTcpClient  # pylint: disable=import-outside-toplevel
        logging.getLogger("pymodbus").setLevel(logging.CRITICAL)
        client = ModbusTcpClient(self.host, port=self.port, timeout=self.timeout, retries=0)
        if hasattr(client, "params"):
            client.params.timeout = self.timeout  # an older pymodbus cuts it to whole seconds
        self._client = client
        named = inspect.signature(client.read_coils).parameters
        self._who = {"device_id" if "device_id" in named else "slave": self.unit}
        if not client.connect():
            raise ChannelFault(f"no connection to {self.host}:{self.port}")

    def send(self, outputs: Mapping[str, Number]) -> None:
        for run in self._write:
            content: list[Any] = []
            for place in run.places:
                content += place.sent(outputs[place.name])
            self._asked(run, WRITES, values=content)

    def receive(self) -> dict[str, Number | None]:
        came: dict[str, Number | None] = {}
        for run in self._read:
            answer = self._asked(run, READS, count=run.count)
            found = answer.registers if run.table in ("holding", "register") else answer.bits
            if len(found) < run.count:
                raise ChannelFault(f"{len(found)} values for {run.count} from {run.table} {run.address} on")
            for place in run.places:
                start = place.address - run.address
                came[place.name] = place.number(found[start:start + place.count])
        return came

    def disconnect(self) -> None:
        if self._client is not None:
            self._client.close()

    def _asked(self, run: Run, calls: Mapping[str, str], **content: Any) -> Any:
        """The answer to a request, where it is one to this request."""
        answer = getattr(self._client, calls[run.table])(run.address, **content, **self._who)
        if answer is None or answer.isError():
            raise ChannelFault(f"{run.table} {run.address}: {answer}")
        return answer
