"""A trace beside the report of its run, tick by tick, and the words of a tool: what the tools that show and test runs have in common."""
import re
import sys

TICK = re.compile(r"tick ([0-9]+)((?: [A-Za-z_][A-Za-z_0-9]*(?:\[[0-9]+\])?=-?[0-9]+)*)")
LAST = re.compile(r"(?:end|rows) [0-9]+|(?:trap|over|row) ([0-9]+) .*")


class Fault(Exception):
    """What is wrong with the trace or the report."""


def asked(doc, words_of):
    """What the words of the command line ask for, or the status where that is all: help was wanted, or they are none of the tool's."""
    if sys.argv[1:] in (["--help"], ["-h"]):
        print(doc, end="")
        return 0
    words = words_of(sys.argv[1:])
    if not words:
        print(doc.split("\n\n")[1], file=sys.stderr)
        return 2
    return words


def text_of(lines):
    return (line.decode(errors="replace").removesuffix("\n") for line in lines)


def as_rows(lines):
    """The lines of a trace, with a number for each name also where it gives changes alone: the names are those that it has, in the order in
    which they come. A word that is no change changes nothing."""
    first = next(lines, "")
    if first.split() != ["#2"]:
        yield first
        yield from lines
        return
    rows = [[word.split("=", 1) for word in line.split() if "=" in word] for line in lines]
    now = dict.fromkeys((name for row in rows for name, _ in row), "0")
    yield " ".join(now)
    for row in rows:
        now.update(row)
        yield " ".join(word or "0" for word in now.values())


class Row:
    """A tick: its number, its inputs, and its outputs or the report's line in place of them."""

    def __init__(self, tick, inputs, outputs=None, line=None):
        self.tick, self.inputs, self.outputs, self.line = tick, inputs, outputs, line

    def cells(self):
        return [self.tick, *self.inputs, *(self.outputs or [])]


class Run:
    """A trace beside its report: `rows` reads both, and sets the names and the report's last line as they come."""

    def __init__(self, trace, report, trace_name, report_name):
        self.trace, self.report = as_rows(text_of(trace)), text_of(report)
        self.trace_name, self.report_name = trace_name, report_name
        self.header, self.outputs, self.last, self.shown = next(self.trace, "").split(), None, "", False

    def rows(self):
        """Each tick of the report as a row."""
        for number, line in enumerate(self.report, 1):
            tick, end = TICK.fullmatch(line), LAST.fullmatch(line)
            if self.last or not (tick or end) or tick and int(tick[1]) != number:
                raise Fault(f"{self.report_name}:{number}: '{line[:80]}' can't stand here in the report of a run")
            if tick:
                yield self.tick(number, [word.split("=") for word in tick[2].split()])
            else:
                self.last = line
                if end[1] and end[1] not in ("0", str(number)):
                    raise Fault(f"{self.report_name}:{number}: '{line[:80]}' isn't of tick {number}")
                if end[1] and end[1] != "0":
                    self.shown = True
                    words = next(self.trace, "").split()
                    yield Row(end[1], (words + [""] * len(self.header))[:len(self.header)], line=line)
        if self.outputs is None and not self.last:
            raise Fault(f"{self.report_name}: it is empty")

    def tick(self, number, pairs):
        """The row of a tick that was done."""
        names = [name for name, _ in pairs]
        if self.outputs is None:
            self.outputs = names
        if self.outputs != names:
            raise Fault(f"{self.report_name}:{number}: these aren't the outputs of the tick before")
        row = next(self.trace, None)
        if row is None:
            raise Fault(f"{self.trace_name}: it has no row {number}, and the report has a tick for it")
        words = row.split()
        if len(words) != len(self.header):
            raise Fault(f"{self.trace_name}:{number + 1}: words in the row: {len(words)}, names in the header: {len(self.header)}")
        return Row(str(number), words, outputs=[value for _, value in pairs])

    def names(self):
        return ["tick", *self.header, *(self.outputs or [])]


def opened(path, name):
    """A file, or standard input."""
    try:
        return open(path if path else 0, "rb")
    except OSError as fault:
        raise Fault(f"{name}: {fault.strerror}") from None
