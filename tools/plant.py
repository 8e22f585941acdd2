"""Runs a controller tick by tick, for a simulator of its plant or a test of the controller.

    from plant import Controller

    with Controller("examples/thermostat.forec") as controller:
        room = 150
        for _ in range(20):
            outputs = controller.step(measured=room, wanted=210)
            room += outputs["valve"] // 10
    print(controller.ended)             # rows 20

`step` gives the inputs of one tick by name and returns its outputs as a dict. An input that isn't given keeps its last value. The first
step, with `inputs` of the constructor, has to name all inputs of the program: `Controller(path, inputs={"stop": 0})` starts with `stop`
at 0, and `inputs=["stop"]` means the same. Inputs are whole numbers of 32 bits, or truth values. With `changes=True` a row has the changes
alone, and an input that was never given is 0.

Where the program doesn't get to the end of the tick, `step` raises `Ended`, whose `line` is the line that the program printed for it, as
`trap 7 12:9 divide` or `end 6` (it ended in tick 6, so there is no tick 7), and whose `status` is the exit status. `close`, which also
leaving the `with` block does, ends the trace and returns the last line, as `rows 20`. Then `ended` and `status` have it too.

`give` and `take` are the two halves of `step`, for a loop that has something to do before the line comes; `answers` says whether it comes
within some time.

The elements of a shared array are outputs of their own: `outputs["h[0]"]`, `outputs["h[1]"]`.

`controller.line` is the printed line of the last tick, `tick` its number, `inputs` and `outputs` its values. With `record="a.trace"` the
rows are also written to a file: `forec run PROGRAM < a.trace` gives the same ticks again.

The folder tools has to be on Python's path: PYTHONPATH=tools python3 simulator.py.
"""
import difflib
import operator
import os
import re
import select
import subprocess
import sys
import time

ROOT = os.path.dirname(os.path.dirname(os.path.realpath(__file__)))
PATIENCE = 10  # seconds for the end of a program whose output has ended, or that was told to end
FIRST_PATIENCE = 600  # seconds more for the first line, where the program has to be compiled


def exit_with(main):
    """Ends the process with what `main` returns; without a traceback where it is interrupted (130), or where its reader has gone (8)."""
    try:
        status = main()
        sys.stdout.flush()
    except KeyboardInterrupt:
        status = 130
    except BrokenPipeError:
        os.dup2(os.open(os.devnull, os.O_WRONLY), 1)
        status = 8
    sys.exit(status)


def is_built():
    """Whether there is a program that runs at once: the one that FOREC_PROGRAM names, that of a release, or one that was built here."""
    places = ("forec_main", "crates/forec_main/out/forec_main", "crates/forec_main/out/unproved/forec")
    return bool(os.environ.get("FOREC_PROGRAM")) or any(os.path.exists(os.path.join(ROOT, place)) for place in places)


def outputs_of(line):
    """The outputs of a line `tick N o=V p=W`."""
    return {name: int(value) for name, value in (word.split("=") for word in line.split()[2:])}


def inputs_of(path):
    """The names of the inputs that the text of an accepted program declares, in order; none where it can't be read."""
    try:
        with open(path, "rb") as file:
            text = re.sub(r"//[^\n]*|/\*.*?\*/", " ", file.read().decode(errors="replace"), flags=re.S)
    except OSError:
        return []
    return [name for names in re.findall(r"\binput\s+int\b([^;]*);", text) for name in re.findall(r"\w+", names)]


class Ended(Exception):
    """The program has ended, so that there is no such tick."""

    def __init__(self, line, status, hint=""):
        super().__init__(f"{line or 'no line was printed'} (status {status}){hint}")
        self.line, self.status = line, status


class Controller:
    """A program that runs, and waits for the inputs of its next tick."""

    def __init__(self, program, inputs=(), *, budget=None, record=None, forec=os.path.join(ROOT, "forec"), seconds=60, options=(),
                 apart=False, changes=False):
        """Starts `forec run` on the program; a tick that takes longer than so many seconds is a TimeoutError, and ends the program (the
        first one may take ten minutes more where the program isn't built, since it is compiled then). `options` are more words of the
        command; `apart` keeps the signals of a terminal, as Ctrl-C, from the program; with `changes` the trace has the changes alone."""
        self._changes, self._written = changes, {}
        self.program, self.seconds, self._patience = program, seconds, 0 if is_built() else FIRST_PATIENCE
        self.inputs = {name: self._number(name, value) for name, value in dict.fromkeys(inputs, 0).items()}
        if isinstance(inputs, dict):
            self.inputs = {name: self._number(name, value) for name, value in inputs.items()}
        self.outputs, self.tick, self.line = {}, 0, None
        self.ended, self.status = None, None
        self._held, self._header = b"", None
        self._record = open(record, "w", encoding="ascii") if record else None
        words = [forec, "run", *([] if budget is None else ["--budget", str(budget)]), *options, "--", program]
        self._child = subprocess.Popen(words, stdin=subprocess.PIPE, stdout=subprocess.PIPE, bufsize=0, start_new_session=apart)

    def __enter__(self):
        return self

    def __exit__(self, kind, *_):
        if kind:
            self._stop()
        self.close()

    def step(self, /, **inputs):
        """Runs one tick with these inputs, and returns its outputs."""
        self.give(**inputs)
        return self.take()

    def give(self, /, **inputs):
        """Gives the row of the next tick, without waiting for its line: `take` returns the outputs."""
        self._raise_if_ended()
        self._set(inputs)
        if self._header is None:
            self._begin()
        if self._changes:
            self._write(" ".join(f"{name}={value}" for name, value in self.inputs.items() if value != self._written.get(name, 0)))
            self._written = dict(self.inputs)
        else:
            self._write(" ".join(str(self.inputs[name]) for name in self._header))

    def take(self):
        """Waits for the line of the tick whose row was given, and returns its outputs."""
        line = self._next_line()
        if line is None or not line.startswith("tick "):
            self._finish(line)
            self._raise_if_ended()
        self.line, self.tick, self.outputs = line, int(line.split()[1]), outputs_of(line)
        return dict(self.outputs)

    def close(self):
        """Ends the trace, waits for the program's end, and returns its last line."""
        if self.status is None:
            if self._header is None:
                self._begin()
            self._finish(None)
        return self.ended

    def _begin(self):
        """Writes the header."""
        self._header = list(self.inputs)
        self._write("#2" if self._changes else " ".join(self._header))

    def _number(self, name, value):
        try:
            number = int(operator.index(value))
        except TypeError:
            raise TypeError(f"{name}={value!r} is no whole number") from None
        if not -2**31 <= number < 2**31:
            raise ValueError(f"{name}={value} is outside -2147483648 to 2147483647")
        return number

    def _set(self, inputs):
        """Takes the values, all of them or none."""
        unknown = [name for name in inputs if self._header is not None and not self._changes and name not in self._header]
        if unknown:
            raise ValueError(f"'{unknown[0]}' wasn't named by the first step, which named: {' '.join(self._header)}")
        self.inputs.update({name: self._number(name, value) for name, value in inputs.items()})

    def _write(self, line):
        """Writes a line of the trace; where the program has gone its last line says why."""
        if self._record:
            self._record.write(line + "\n")
        try:
            self._child.stdin.write(line.encode() + b"\n")
        except BrokenPipeError:
            pass

    def answers(self, seconds):
        """Whether the next line of the report, or its end, comes within so many seconds."""
        until = time.monotonic() + seconds
        ready = select.poll()
        ready.register(self._child.stdout, select.POLLIN)
        while b"\n" not in self._held:
            if not ready.poll(max(0, 1000 * (until - time.monotonic()))):
                return False
            piece = os.read(self._child.stdout.fileno(), 1 << 16)
            if not piece:
                break
            self._held += piece
        return True

    def _next_line(self):
        """The next line of the report, or None at its end."""
        if not self.answers(self.seconds + (0 if self.tick else self._patience)):
            self._stop()
            raise TimeoutError(f"{self.program}: no line after tick {self.tick} for {self.seconds} seconds")
        if b"\n" not in self._held:
            return None
        line, self._held = self._held.split(b"\n", 1)
        return line.decode()

    def _finish(self, line):
        """Ends the trace, reads what is left of the report, and keeps its last line."""
        try:
            self._child.stdin.close()
        except BrokenPipeError:
            pass
        while (more := self._next_line()) is not None:
            line = more
        self._keep(line)

    def _stop(self):
        """Ends the program at once. Nothing more is read: what it started may hold the pipe open for as long as it likes."""
        if self.status is None:
            self._child.terminate()
            try:
                self._child.stdin.close()
            except BrokenPipeError:
                pass
            self._keep(None)

    def _keep(self, line):
        """Keeps the last line and the status of the program, which has ended or is about to."""
        self._child.stdout.close()
        try:
            self.status = self._child.wait(PATIENCE)
        except subprocess.TimeoutExpired:
            self._child.kill()
            self.status = self._child.wait()
        self.ended = line
        if self._record:
            self._record.close()

    def _raise_if_ended(self):
        if self.status is not None:
            raise Ended(self.ended, self.status, self._hint() if re.fullmatch("row [0-9]+ bad", self.ended or "") else "")

    def _hint(self):
        """What is wrong with the names of the first step, where the program's text says which inputs there are."""
        named, inputs = self._header or [], inputs_of(self.program)
        if self._changes:
            unknown = [name for name in self.inputs if name not in inputs]
            return f": {self.program} has no input '{unknown[0]}'" if inputs and unknown else ""
        hint = f": the first step named '{' '.join(named)}', and has to name all inputs of {self.program}"
        for name in named:
            if inputs and name not in inputs:
                near = difflib.get_close_matches(name, inputs, 1)
                return f"{hint}; it has no input '{name}'" + (f", but '{near[0]}'" if near else "")
        missing = [name for name in inputs if name not in named]
        return hint + (f"; missing: {' '.join(missing)}" if missing else "")


if __name__ == "__main__":
    print(__doc__, end="")
    sys.exit(0 if sys.argv[1:] in (["--help"], ["-h"]) else 2)
