"""What `forec check` says of a file, with the sentence of the page of help and a guess: one place alone. Needs nothing beside Python."""
from __future__ import annotations

import os
import re
import subprocess
import sys

from forec_text import hints
from forec_text.finding import Finding
from forec_text.tree import Place

ROOT = os.path.dirname(os.path.dirname(os.path.dirname(os.path.realpath(__file__))))
LINE = re.compile(r"refused (?:(\d+):(\d+) )?(rule )?(\w+)(.*)")


def of_program(path: str, data: bytes) -> list[Finding]:
    """The line by which the program refuses a file with this text; none where it is accepted. Where the program can't say that, this ends
    with its status."""
    ended = subprocess.run([os.path.join(ROOT, "forec"), "check", "--", path], stdin=subprocess.DEVNULL, stdout=subprocess.PIPE, check=False)
    line = ended.stdout.decode().rstrip("\n")
    found = LINE.fullmatch(line)
    if ended.returncode not in (0, 3):
        sys.exit(ended.returncode)
    if not found:
        return []
    row, column, rule, page, rest = found.groups()
    place = Place(int(row), int(column)) if row else Place(1, 1)
    guess = hints.guess(page, data, *place) if row else ""
    text = f"the program is too large, by the limit {rest.strip()}" if page == "limit" else title(page)
    return [Finding(place, page, text + (f"; perhaps: {guess}" if guess else ""), (), int(page) if rule else None, True, line)]


def title(page: str) -> str:
    """The sentence at the head of a page of help."""
    try:
        with open(os.path.join(ROOT, "docs", "help", f"{page}.txt"), encoding="utf-8") as file:
            return file.readline().rstrip("\n").split(": ", 1)[1]
    except OSError:
        return f"see forec help {page}"
