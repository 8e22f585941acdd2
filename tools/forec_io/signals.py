"""Inputs and outputs of a program: how the raw numbers of a channel become its numbers, and its numbers raw ones."""
from __future__ import annotations

import math
from dataclasses import dataclass
from typing import Any

from .channel import Number
from .table import ConfigFault, Table

LEAST, MOST = -2**31, 2**31 - 1


@dataclass(frozen=True, kw_only=True)
class Signal:
    """What an input and an output have in common. `channel` is None for an input that is constant."""
    name: str
    channel: str | None
    scale: float
    offset: float
    limits: tuple[float, float]
    invert: bool
    unit: str

    def scaled(self, number: Number) -> Number:
        """The number times the scale, plus the offset; a whole number stays one where both are."""
        return number * self.scale + self.offset

    def limited(self, number: Number) -> Number:
        return min(max(number, self.limits[0]), self.limits[1])


@dataclass(frozen=True, kw_only=True)
class Input(Signal):
    """An input. Its value while it isn't known is the default, or the last one where the default is None."""
    default: int | None
    outside: str

    def value(self, raw: Number) -> int | None:
        """The program's number of a raw one: raw * scale + offset, rounded; or None where that is no number for it."""
        try:
            number = self.scaled(raw)
            if not math.isfinite(number):
                return None
        except OverflowError:
            return None
        whole = int(not number) if self.invert else round(number)
        if self.limits[0] <= whole <= self.limits[1]:
            return whole
        return int(self.limited(whole)) if self.outside == "clamp" else None


@dataclass(frozen=True, kw_only=True)
class Output(Signal):
    """An output, with the value that it has where nothing else may be trusted."""
    safe: int

    def raw(self, value: int) -> Number:
        """The raw number of the program's: value * scale + offset, after the value is brought within the limits."""
        limited = self.limited(value)
        return self.scaled(int(not limited) if self.invert else limited)


def whole(number: float) -> Number:
    return int(number) if number.is_integer() else number


def common(name: str, table: Table, channel: str | None) -> dict[str, Any]:
    """The keys that inputs and outputs share."""
    limits = table.take("limits", list, [LEAST, MOST])
    if len(limits) != 2 or not all(type(each) in (int, float) and LEAST <= each <= MOST for each in limits) or limits[0] > limits[1]:
        raise ConfigFault(f"{table.name}: limits = {limits} aren't two numbers of 32 bits, the least first")
    scale, offset = whole(table.take("scale", float, 1.0)), whole(table.take("offset", float, 0.0))
    invert = table.take("invert", bool, False)
    if invert and (scale, offset) != (1, 0):
        raise ConfigFault(f"{table.name}: invert is for what is true or false, and has neither scale nor offset")
    return {"name": name, "channel": channel, "scale": scale, "offset": offset, "limits": tuple(limits), "invert": invert,
            "unit": table.take("unit", str, "")}


def input_of(name: str, table: Table) -> Input:
    """An input; the keys of its place are left in the table."""
    if "constant" in table.keys():
        value = table.take("constant", int, least=LEAST, most=MOST)
        return Input(**common(name, table, None), default=value, outside="default")
    default = table.take("default", object)
    if type(default) is not int and default != "hold" or default != "hold" and not LEAST <= default <= MOST:
        raise ConfigFault(f"{table.name}: default = {default!r} is neither a whole number of 32 bits nor 'hold'")
    return Input(**common(name, table, table.take("channel", str)), default=None if default == "hold" else default,
                 outside=table.take("outside", str, "default", among=("default", "clamp")))


def output_of(name: str, table: Table) -> Output:
    """An output; the keys of its place are left in the table."""
    safe = table.take("safe", int, least=LEAST, most=MOST)
    return Output(**common(name, table, table.take("channel", str)), safe=safe)
