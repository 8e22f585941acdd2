"""Tables of a configuration, of which each key is taken once, with its type; what nobody takes is refused."""
from __future__ import annotations

from collections.abc import Mapping, Sequence
from typing import Any

WANTED = object()


class ConfigFault(Exception):
    """What is wrong with a configuration."""


class Table:
    """A table, and its name for what is told of it; that of the whole has none."""

    def __init__(self, name: str, values: Mapping[str, Any]) -> None:
        self.name, self._left = name or "the configuration", dict(values)
        self._prefix = f"{name}." if name else ""

    def take(self, key: str, kind: type, default: Any = WANTED, *, least: float | None = None, most: float | None = None,
             among: Sequence[Any] = ()) -> Any:
        """The value of a key, or the default where the table has none. A whole number is a float, too, and anything is an object."""
        if key not in self._left:
            if default is WANTED:
                raise ConfigFault(f"{self.name}: '{key}' is missing")
            return default
        value = self._left.pop(key)
        if kind is float and type(value) is int:
            value = float(value)
        if kind is not object and type(value) is not kind:
            raise ConfigFault(f"{self.name}: {key} = {value!r} is no {NAMES[kind]}")
        if least is not None and value < least or most is not None and value > most or value != value:
            raise ConfigFault(f"{self.name}: {key} = {value} is outside {least} to {'any' if most is None else most}")
        if among and value not in among:
            raise ConfigFault(f"{self.name}: {key} = {value!r} is none of: {', '.join(map(str, among))}")
        return value

    def table(self, key: str, default: Any = WANTED) -> Table:
        """The table of a key."""
        return Table(self._prefix + key, self.take(key, dict, default))

    def tables(self, key: str) -> dict[str, Table]:
        """The tables of a table, by their names; none where there is no such key."""
        outer = self.table(key, {})
        return {name: outer.table(name) for name in list(outer.keys())}

    def keys(self) -> list[str]:
        """The keys that aren't taken yet."""
        return list(self._left)

    def end(self) -> None:
        """Refuses what is left."""
        if self._left:
            raise ConfigFault(f"{self.name}: '{next(iter(self._left))}' is none of its keys")


NAMES = {str: "text", int: "whole number", float: "number", bool: "true or false", dict: "table", list: "list"}
