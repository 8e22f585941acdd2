"""Text for a terminal: a line of a file, and a caret under a column."""
from __future__ import annotations

import unicodedata

BEFORE, AFTER = 90, 50


def shown(text: bytes) -> str:
    """Bytes as text for a terminal: what can't be shown is a question mark, a tab is a blank."""
    return "".join(" " if c == "\t" else c if c.isprintable() else "?" for c in text.decode(errors="replace"))


def width(text: str) -> int:
    """How many columns a text takes."""
    return sum(0 if unicodedata.combining(c) else 2 if unicodedata.east_asian_width(c) in "WF" else 1 for c in text)


def pointed(front: bytes, back: bytes) -> tuple[str, str]:
    """The two parts of a line, cut where it is too long, and a line with a caret between them."""
    before, after = shown(front), shown(back)
    before = before if len(before) <= BEFORE else ".. " + before[-BEFORE:]
    after = after if len(after) <= AFTER else after[:AFTER] + " .."
    return f"    {before}{after}", f"    {' ' * width(before)}^"
