"""The configuration: a TOML file with the program, the loop, the log, the channels, and a table for each input and output.

docs/MACHINE.md, "From the desk to the machine", has one that is whole; `KEYS` lists all keys.
"""
from __future__ import annotations

import importlib
import os
import tomllib
from collections.abc import Iterator
from dataclasses import dataclass
from typing import Any

from .channel import Channel, Setup
from .program import signals_of
from .signals import Input, Output, Signal, input_of, output_of
from .table import ConfigFault, Table

KINDS = {"modbus": ("modbus", "Modbus"), "mqtt": ("mqtt", "Mqtt"), "can": ("canbus", "Can"), "csv": ("csvfile", "CsvFile"),
         "lines": ("lines", "Lines"), "simulation": ("simulation", "Simulation")}
OVERRUNS = ("skip", "catch up", "stop")

KEYS = """\
program = "tank.forec"      the program; paths begin in the folder of the configuration

[loop]
period = 0.01               seconds from tick to tick
overrun = "skip"            what a tick does that ends after its period: "skip" leaves out the periods that went by, "catch up" runs the
                            missed ticks at once, "stop" ends the run
deadline = 0.01             seconds for the controller's line, the period if it isn't given; after it the outputs get their safe values
watchdog = 1.0              seconds after which a controller that says nothing is ended, and the run with it
wait = 5.0                  seconds at the start for channels that aren't up yet
ticks = 0                   ticks after which the run ends; 0 if it goes on for ever
priority = 0                SCHED_FIFO with this priority, 1 to 99; 0 for none
lock = false                whether the loop's memory is locked
tell = 0                    seconds after which the statistics are told, again and again; 0 for never
options = []                more words for forec run, as ["--cores", "2"]

[log]                       without this table there is no log
folder = "log"              each run gets a folder of its own in it, 0001 and so on
size = 10000000             bytes of a file, after which the next one begins
flush = "tick"              whether what is logged is handed to the system with each "tick" or each "second"

[channels.NAME]
kind = "modbus"             modbus, mqtt, can, csv, lines or simulation; the adapter has the other keys
poll = 0.01                 seconds after which the peer is asked again; half a period if it isn't given, and 0.1 at most
refresh = 0.5               seconds after which outputs that haven't changed are sent again
stale = 0.5                 seconds that a value lasts; if it isn't given 0.5 for modbus, 1.0 for can, and any age for the others
safe_after = 2.0            seconds for which the channel may be down before all outputs get their safe values; never if it isn't given

[inputs.NAME]               each input of the program has a table
channel = "NAME"            and the keys of the place; or constant = 5 instead
scale, offset               the program's number is raw * scale + offset, rounded
limits = [0, 1000]          a number outside of them is none, and the default is taken; with outside = "clamp" the nearer limit is
invert = false              for what is true or false
default = -1                the number while it isn't known; "hold" for the last one that was
unit = "mm"                 is shown

[outputs.NAME]              an output without a table goes nowhere but into the report; that of an element is [outputs."h[0]"]
channel = "NAME"            and the keys of the place
safe = 0                    the program's number that is safe
scale, offset, limits, invert, unit
                            raw is number * scale + offset, after the number is brought within the limits
"""


@dataclass(frozen=True)
class Timing:
    """What the table `loop` says."""
    period: float
    overrun: str
    deadline: float
    watchdog: float
    wait: float
    ticks: int
    priority: int
    lock: bool
    tell: float
    options: tuple[str, ...]

    @classmethod
    def of(cls, table: Table) -> Timing:
        period = table.take("period", float, least=1e-4, most=3600)
        found = cls(period, table.take("overrun", str, "skip", among=OVERRUNS), table.take("deadline", float, period, least=1e-4),
                    table.take("watchdog", float, max(1.0, 10 * period), least=1e-3), table.take("wait", float, 5.0, least=0),
                    table.take("ticks", int, 0, least=0), table.take("priority", int, 0, least=0, most=99), table.take("lock", bool, False),
                    table.take("tell", float, 0.0, least=0), tuple(map(str, table.take("options", list, []))))
        table.end()
        if found.watchdog < found.deadline:
            raise ConfigFault(f"loop: the watchdog ({found.watchdog} s) comes before the deadline ({found.deadline} s)")
        return found


@dataclass(frozen=True)
class LogPlace:
    """What the table `log` says."""
    folder: str
    size: int
    flush: str

    @classmethod
    def of(cls, table: Table, folder: str) -> LogPlace:
        found = cls(os.path.join(folder, table.take("folder", str)), table.take("size", int, 10_000_000, least=1),
                    table.take("flush", str, "tick", among=("tick", "second")))
        table.end()
        return found


@dataclass(frozen=True)
class Config:
    """What a configuration says. `unmapped` are the outputs of the program that have no channel."""
    path: str
    program: str
    loop: Timing
    log: LogPlace | None
    inputs: dict[str, Input]
    outputs: dict[str, Output]
    channels: dict[str, Channel]
    unmapped: tuple[str, ...]


def read_toml(path: str) -> dict[str, Any]:
    try:
        with open(path, "rb") as file:
            return tomllib.load(file)
    except OSError as fault:
        raise ConfigFault(f"{path}: {fault.strerror}") from None
    except (tomllib.TOMLDecodeError, UnicodeDecodeError) as fault:
        raise ConfigFault(f"{path}: {fault}") from None


def read(path: str) -> Config:
    """The configuration in a file, which has to fit the program."""
    folder = os.path.dirname(os.path.abspath(path))
    whole = Table("", read_toml(path))
    program = os.path.join(folder, whole.take("program", str))
    loop = Timing.of(whole.table("loop"))
    log = LogPlace.of(whole.table("log"), folder) if "log" in whole.keys() else None
    signals = {"input": whole.tables("inputs"), "output": whole.tables("outputs")}
    inputs = {name: input_of(name, table) for name, table in signals["input"].items()}
    outputs = {name: output_of(name, table) for name, table in signals["output"].items()}
    channels = dict(opened(whole.tables("channels"), signals, inputs, outputs, loop.period, folder))
    whole.end()
    found = signals_of(program)
    fits(os.path.basename(program), found, inputs, outputs)
    return Config(path, program, loop, log, inputs, outputs, channels, tuple(name for name in found[1] if name not in outputs))


def opened(tables: dict[str, Table], signals: dict[str, dict[str, Table]], inputs: dict[str, Input], outputs: dict[str, Output],
           period: float, folder: str) -> Iterator[tuple[str, Channel]]:
    """The channels, none of them started."""
    every: list[tuple[str, Signal]] = [*(("input", each) for each in inputs.values()), *(("output", each) for each in outputs.values())]
    for kind, signal in every:
        if signal.channel is None:
            signals[kind][signal.name].end()
        elif signal.channel not in tables:
            raise ConfigFault(f"{kind}s.{signal.name}: there is no channel '{signal.channel}'")
    for name, table in tables.items():
        module, word = KINDS[table.take("kind", str, among=list(KINDS))]
        adapter = importlib.import_module(f"forec_io.{module}")
        of_inputs = {each: signals["input"][each] for each, signal in inputs.items() if signal.channel == name}
        of_outputs = {each: signals["output"][each] for each, signal in outputs.items() if signal.channel == name}
        safe = {each: outputs[each].raw(outputs[each].safe) for each in of_outputs}
        channel: Channel = getattr(adapter, word)(Setup(name, table, of_inputs, of_outputs, safe, period, folder))
        for left in (table, *of_inputs.values(), *of_outputs.values()):
            left.end()
        apart(channel)
        yield name, channel


def apart(channel: Channel) -> None:
    """Refuses two outputs that set one thing."""
    seen: dict[object, str] = {}
    for name, places in channel.places().items():
        for place in places:
            if place in seen:
                raise ConfigFault(f"outputs.{name}: sets what outputs.{seen[place]} sets, on the channel {channel.name}")
            seen[place] = name


def fits(program: str, found: tuple[list[str], list[str]], inputs: dict[str, Input], outputs: dict[str, Output]) -> None:
    """Refuses a configuration that doesn't fit the inputs and outputs of its program."""
    faults = [f"inputs.{name} is missing: the input has no channel" for name in found[0] if name not in inputs]
    for kind, known, named in (("input", found[0], [*inputs]), ("output", found[1], [*outputs])):
        faults += [f"{kind}s.{name}: {program} has no such {kind}" for name in named if name not in known]
    if faults:
        raise ConfigFault("\n".join(faults))


def keys() -> Iterator[str]:
    """All keys of a configuration, with those of each adapter."""
    yield KEYS
    for kind, (module, _) in KINDS.items():
        title, _, rest = (importlib.import_module(f"forec_io.{module}").__doc__ or "").partition("\n\n")
        yield f'kind = "{kind}": {title}\n\n{rest}'


def libraries(config: Config) -> list[tuple[str, str]]:
    """The Python modules that the channels need, each with the package of Debian that has it."""
    found = {importlib.import_module(f"forec_io.{KINDS[channel.kind][0]}").LIBRARY for channel in config.channels.values()}
    return sorted(each for each in found if each)


def shown(config: Config) -> Iterator[str]:
    """A line for each input and output."""
    for name, signal in config.inputs.items():
        default = "hold" if signal.default is None else signal.default
        yield f"input {name}: constant {default}" if signal.channel is None else f"input {name}: {signal.channel}, default {default}"
    for name, output in config.outputs.items():
        yield f"output {name}: {output.channel}, safe {output.safe}"
    for name in config.unmapped:
        yield f"output {name}: goes nowhere but into the report"
