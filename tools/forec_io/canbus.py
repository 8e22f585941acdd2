"""CAN, by python-can.

The channel's keys: interface and bus, as socketcan and can0, and bitrate where the interface wants one. The place of a value is the id of
a frame (extended = true for one of 29 bits), the byte in which it begins, and its type (int8 to uint32, float32) and order (big or
little), or a bit of that byte. Outputs with one id are one frame, which is as long as they need, or length.
"""
from __future__ import annotations

import struct
import time
from collections.abc import Mapping
from dataclasses import dataclass
from typing import Any

from .channel import Number, Polled, Setup
from .table import ConfigFault, Table

LIBRARY = ("can", "python3-can")
FORMATS = {"int8": "b", "uint8": "B", "int16": "h", "uint16": "H", "int32": "i", "uint32": "I", "float32": "f"}
SLICE = 0.005  # seconds for the bus before outputs are looked at again


@dataclass(frozen=True)
class Place:
    """Where a value is in the frames of an id."""
    frame: tuple[int, bool]  # the id, and whether it has 29 bits
    byte: int
    bit: int | None
    form: str

    @classmethod
    def of(cls, table: Table) -> Place:
        extended = table.take("extended", bool, False)
        frame = (table.take("id", int, least=0, most=(1 << (29 if extended else 11)) - 1), extended)
        byte, bit = table.take("byte", int, 0, least=0, most=63), table.take("bit", int, None, least=0, most=7)
        if bit is not None:
            return cls(frame, byte, bit, "B")
        order = table.take("order", str, "little", among=("little", "big"))
        return cls(frame, byte, None, "<>"[order == "big"] + FORMATS[table.take("type", str, "int16", among=list(FORMATS))])

    @property
    def after(self) -> int:
        return self.byte + struct.calcsize(self.form)

    def bits(self) -> set[object]:
        """The bits of the frame that the value is made of."""
        bits = [self.bit] if self.bit is not None else range(8)
        return {(self.frame, byte, bit) for byte in range(self.byte, self.after) for bit in bits}

    def number(self, data: bytes) -> Number | None:
        """The value in a frame, or None where the frame is too short."""
        if len(data) < self.after:
            return None
        found = struct.unpack_from(self.form, data, self.byte)[0]
        return found if self.bit is None else found >> self.bit & 1

    def put(self, data: bytearray, value: Number) -> None:
        """Writes a value into a frame; one that is too great becomes the greatest."""
        if self.bit is not None:
            data[self.byte] |= (1 if value else 0) << self.bit
            return
        if self.form[-1] != "f":
            bits = 8 * struct.calcsize(self.form)
            low, high = (-(1 << bits - 1), (1 << bits - 1) - 1) if self.form[-1].islower() else (0, (1 << bits) - 1)
            value = min(max(round(value), low), high)
        struct.pack_into(self.form, data, self.byte, value)


class Can(Polled):
    """A bus."""
    kind = "can"

    def __init__(self, setup: Setup) -> None:
        super().__init__(setup, stale=1.0)
        self.interface, self.bus = setup.table.take("interface", str, "socketcan"), setup.table.take("bus", str)
        self.bitrate = setup.table.take("bitrate", int, None, least=1)
        self.length = setup.table.take("length", int, 0, least=0, most=64)
        self._inputs = {name: Place.of(table) for name, table in setup.inputs.items()}
        self._outputs = {name: Place.of(table) for name, table in setup.outputs.items()}
        self._frames: dict[tuple[int, bool], int] = {}
        for place in self._outputs.values():
            self._frames[place.frame] = max(place.after, self.length, self._frames.get(place.frame, 0))
        if any(length > 8 for length in self._frames.values()):
            raise ConfigFault(f"{setup.table.name}: a frame of more than 8 bytes")
        self._can: Any = None
        self._bus: Any = None

    def places(self) -> dict[str, set[object]]:
        return {name: place.bits() for name, place in self._outputs.items()}

    def connect(self) -> None:
        import can  # pylint: disable=import-outside-toplevel
        more = {} if self.bitrate is None else {"bitrate": self.bitrate}
        bus: Any = can.Bus  # which makes one of the interface
        self._can, self._bus = can, bus(interface=self.interface, channel=self.bus, **more)

    def send(self, outputs: Mapping[str, Number]) -> None:
        for frame, length in self._frames.items():
            data = bytearray(length)
            for name, place in self._outputs.items():
                if place.frame == frame:
                    place.put(data, outputs[name])
            self._bus.send(self._can.Message(arbitration_id=frame[0], is_extended_id=frame[1], data=data), timeout=self.poll)

    def receive(self) -> dict[str, Number | None]:
        came: dict[str, Number | None] = {}
        until = time.monotonic() + self.poll
        while True:
            left = until - time.monotonic()
            message = self._bus.recv(min(SLICE, max(0.0, left)))
            if message is not None and not message.is_error_frame:
                frame = (message.arbitration_id, message.is_extended_id)
                came.update({name: place.number(message.data) for name, place in self._inputs.items() if place.frame == frame})
            if left <= 0 or message is None and self._changed.is_set():
                return came

    def disconnect(self) -> None:
        if self._bus is not None:
            self._bus.shutdown()
