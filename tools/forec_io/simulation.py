"""A simulated plant in the loop's own process.

The channel's key: file, a Python file with a class Plant, made without arguments. Its `read()` returns the plant's values by name, its
`write(values)` is given the outputs. `write` comes once for each tick, after `read`. The place of a value is a name; where it isn't
given it is the name of the input or output.
"""
from __future__ import annotations

import os
import runpy
from collections.abc import Mapping
from typing import Any

from .channel import Number, Setup
from .table import ConfigFault

LIBRARY = None


class Simulation:
    """A plant."""
    kind = "simulation"
    bound = False

    def __init__(self, setup: Setup) -> None:
        self.name, self.fault = setup.name, None
        self.safe_after: float | None = None
        self._path = os.path.join(setup.folder, setup.table.take("file", str))
        self._inputs = {name: each.take("name", str, name) for name, each in setup.inputs.items()}
        self._outputs = {name: each.take("name", str, name) for name, each in setup.outputs.items()}
        self._safe = setup.safe
        self._plant: Any = None

    def places(self) -> dict[str, set[object]]:
        return {name: {place} for name, place in self._outputs.items()}

    def start(self) -> None:
        try:
            self._plant = runpy.run_path(self._path, run_name="forec_plant")["Plant"]()
        except (OSError, KeyError) as fault:
            raise ConfigFault(f"{self._path}: {'no class ' if isinstance(fault, KeyError) else ''}{fault}") from None

    def read(self) -> dict[str, Number]:
        values = self._plant.read()
        return {name: values[place] for name, place in self._inputs.items() if place in values}

    def write(self, values: Mapping[str, Number]) -> None:
        self._plant.write({place: values[name] for name, place in self._outputs.items()})

    def safe(self) -> None:
        self.write(self._safe)

    def close(self) -> None:
        if hasattr(self._plant, "close"):
            self._plant.close()

    def told(self) -> list[str]:
        return []
