"""The commands loop, replay-field and watch."""
from __future__ import annotations

import argparse
import dataclasses
import importlib
import os
import sys

if sys.version_info < (3, 11):
    sys.exit("forec: Python 3.11 or later is wanted, and this one is " + sys.version.split()[0])
# The modules come from beside this package and from the system, and none from the folder in which the command is given.
TOOLS = os.path.dirname(os.path.dirname(os.path.realpath(__file__)))
if not sys.flags.safe_path:
    del sys.path[0]
if TOOLS not in sys.path:
    sys.path.insert(0, TOOLS)

# pylint: disable=wrong-import-position
from forec_io import config as configuration  # noqa: E402
from forec_io import loop, replay, watch  # noqa: E402
from forec_io.table import ConfigFault  # noqa: E402

SYSTEM_PYTHON = "/usr/bin/python3"  # the one for which Debian's packages are
USAGE = """\
usage: forec loop [--ticks N] [--report] CONFIG     runs a controller in real time between channels, up to a signal or for so many
                                                    ticks; --report prints the report
       forec loop --check CONFIG                    only compares the configuration with the program
       forec loop --keys                            lists the keys of a configuration
       forec watch [--ticks N] CONFIG               as loop, with a view of it
       forec replay-field LOG                       shows that the trace of a log gives its report
"""


def find_libraries(config: configuration.Config) -> None:
    """Sees to the libraries of the channels. Where this Python lacks one, the system's Python goes on instead, with the same words; where
    that lacks it, too, the package is told."""
    for module, package in configuration.libraries(config):
        try:
            importlib.import_module(module)
        except ImportError:
            again = os.path.isfile(SYSTEM_PYTHON) and not os.path.samefile(sys.executable, SYSTEM_PYTHON)
            if not again:
                raise ConfigFault(f"{module} isn't installed: apt-get install {package}") from None
            os.environ["PYTHONPATH"] = os.pathsep.join(filter(None, (TOOLS, os.environ.get("PYTHONPATH"))))
            os.execv(SYSTEM_PYTHON, [SYSTEM_PYTHON, "-m", "forec_io", *sys.argv[1:]])


def parser() -> argparse.ArgumentParser:
    """The words of the commands."""
    outer = argparse.ArgumentParser(prog="forec", usage=USAGE[len("usage: "):], add_help=False)
    commands = outer.add_subparsers(dest="command", required=True)
    for name in ("loop", "watch", "replay-field"):
        words = commands.add_parser(name, prog=f"forec {name}", usage=USAGE[len("usage: "):], add_help=False)
        words.add_argument("path", nargs="?")
        if name != "replay-field":
            words.add_argument("--ticks", type=int)
        if name == "loop":
            for option in ("--check", "--report", "--keys"):
                words.add_argument(option, action="store_true")
    return outer


def show(line: str) -> None:
    print(line, flush=True)


def run(words: argparse.Namespace) -> int:
    if words.command == "replay-field":
        return replay.run(words.path)
    config = configuration.read(words.path)
    if words.ticks is not None:
        config = dataclasses.replace(config, loop=dataclasses.replace(config.loop, ticks=max(0, words.ticks)))
    if words.command == "loop" and words.check:
        print("\n".join(configuration.shown(config)))
        return 0
    find_libraries(config)
    if words.command == "watch":
        return watch.run(config)
    return loop.run(config, show if words.report else lambda line: None)


def main() -> int:
    outer = parser()
    words = outer.parse_args()
    if words.command == "loop" and words.keys:
        print("\n".join(configuration.keys()), end="")
        return 0
    if words.path is None:
        outer.error("a configuration is wanted")
    try:
        return run(words)
    except ConfigFault as fault:
        for line in str(fault).split("\n"):
            print(f"forec {words.command}: {line}", file=sys.stderr)
        return 2
    except BrokenPipeError:
        return 8
    except KeyboardInterrupt:
        return 130


if __name__ == "__main__":
    sys.exit(main())
