"""The program: where the command forec is, and which inputs and outputs a program has."""
from __future__ import annotations

import os
import re
import shutil
import subprocess

from .table import ConfigFault

ROOT = os.path.dirname(os.path.dirname(os.path.dirname(os.path.realpath(__file__))))


def command() -> str:
    """The path of the command forec: that of the folder above tools, or that of the search path."""
    beside = os.path.join(ROOT, "forec")
    found = beside if os.path.isfile(beside) else shutil.which("forec")
    if not found:
        raise ConfigFault("the command forec is neither in the folder above tools nor on the path")
    return found


def declared(text: str, kind: str) -> list[str]:
    """The names that a program which is accepted declares as `input` or `output`, in order: of an array those of its elements."""
    text = re.sub(r"//[^\n]*|/\*.*?\*/", " ", text, flags=re.S)
    names: list[str] = []
    for line in re.findall(rf"\b{kind}\s+(?:shared\s+)?int\b([^;]*);", text):
        for each in outer(re.split(r"\bcombine\b", line)[0]):
            name, length = re.match(r"\s*(\w+)\s*(?:\[\s*(\w+))?", each).groups()  # type: ignore[union-attr]
            names += [name] if length is None else [f"{name}[{i}]" for i in range(number_of(length))]
    return names


def number_of(word: str) -> int:
    """The value of a number as a program has it: octal where it begins with 0."""
    return int(re.sub(r"^0(?=\d)", "0o", word), 0)


def outer(line: str) -> list[str]:
    """A line, cut at its commas outside of brackets."""
    pieces, depth = [""], 0
    for mark in line:
        depth += (mark in "([{") - (mark in ")]}")
        if mark == "," and not depth:
            pieces.append("")
        else:
            pieces[-1] += mark
    return pieces


def signals_of(path: str) -> tuple[list[str], list[str]]:
    """The inputs and the outputs of a program, which the command has to accept."""
    try:
        with open(path, encoding="utf-8", errors="replace") as file:
            text = file.read()
    except OSError as fault:
        raise ConfigFault(f"{path}: {fault.strerror}") from None
    checked = subprocess.run([command(), "check", "--", path], stdin=subprocess.DEVNULL, stdout=subprocess.PIPE, text=True, check=False)
    words = checked.stdout.split()
    if words[:1] != ["ok"]:
        raise ConfigFault(f"{path}: {checked.stdout.strip() or f'check ends with status {checked.returncode}'}")
    inputs, outputs = declared(text, "input"), declared(text, "output")
    if [words[words.index("inputs") + 1], words[words.index("outputs") + 1]] != [str(len(inputs)), str(len(outputs))]:
        raise ConfigFault(f"{path}: its declarations are written so that this tool finds other inputs or outputs: {inputs}, {outputs}")
    return inputs, outputs
