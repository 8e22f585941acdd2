"""What is found in a text: an error where the program refuses it, with all places that it speaks of, and warnings elsewhere."""
from __future__ import annotations

import sys
import threading

from forec_text import hints, loops, names, text, threads, warnings
from forec_text.finding import Finding
from forec_text.tree import Place

DEEP = 200_000
STACK = 1 << 29
REFUSED = {
    "long": f"the text has more than {text.MOST_BYTES} bytes",
    "lex": "no token begins here",
    "many": f"this token is one more than {text.MOST_TOKENS}",
    "syntax": "no program goes on so",
    "deep": f"this opens level {text.MOST_LEVELS + 1}",
}


def of(data: bytes) -> list[Finding]:
    """All that is found, in the order of the places; the first error is the one that the program tells."""
    try:
        program = text.read(data)
    except text.Refused as refused:
        place = refused.place or Place(1, 1)
        guess = hints.guess(refused.kind, data, *place)
        return [Finding(place, refused.kind, REFUSED[refused.kind] + (f"; perhaps: {guess}" if guess else ""))]
    known = names.Names(program)
    if known.faults:
        return [Finding(each.place, str(each.rule), each.text, (), each.rule) for each in known.faults]
    broken = [*loops.Loops(known).faults(), *threads.Threads(known).faults()]
    found = [Finding(fault.place, str(fault.rule), fault.text, tuple(notes), fault.rule) for fault, notes in broken]
    found += [Finding(each.place, each.page, each.text, each.notes, None, False) for each in warnings.of(known)]
    return sorted(found, key=lambda each: (not each.is_error, each.place, each.rule or 0))


def of_deep(data: bytes) -> list[Finding]:
    """The same for functions that call one another over more levels than Python allows by itself."""
    found: list[list[Finding]] = []
    sys.setrecursionlimit(DEEP)
    threading.stack_size(STACK)
    thread = threading.Thread(target=lambda: found.append(of(data)))
    thread.start()
    thread.join()
    if not found:
        raise SystemExit(70)
    return found[0]
