"""A list of exceptions from a rule, which only becomes shorter: what two checks share.

In a list a part begins with `## NAME MOST`, where MOST is how many lines it has, and with why these are exceptions, in lines that begin with `#`.
Each other line has what is meant, and after the last space how far it goes.
"""
import re


def listed(path):
    """The head of a list, and its parts: each name with its greatest length, why, and its exceptions."""
    with open(path, encoding="utf-8") as file:
        head, *parts = re.split(r"^## ", file.read(), flags=re.M)
    found = {}
    for part in parts:
        first, *lines = part.rstrip("\n").split("\n")
        name, most = first.split()
        kept = [line.rsplit(" ", 1) for line in lines if line and line[0] != "#"]
        found[name] = int(most), [line for line in lines if line[:1] == "#"], {what: int(count) for what, count in kept}
    return head, found


def faults(name, part, there):
    """What is wrong with a part of a list, where `there` has what was found of it."""
    most, _, kept = part
    for what, count in there.items():
        if what not in kept:
            yield f"{name}: {what} ({count}) is a new exception"
        elif count != kept[what]:
            yield f"{name}: {what} is at {count}, and {kept[what]} is listed" + ("; run the check with --shrink" if count < kept[what] else "")
    yield from (f"{name}: {what} isn't there any more; run the check with --shrink" for what in kept if what not in there)
    if len(kept) != most:
        yield f"{name}: {len(kept)} exceptions, and {most} are said"


def shrunk(kept, there):
    """Exceptions without those that aren't there any more, none of them further than it goes."""
    return {what: min(count, there[what]) for what, count in kept.items() if what in there}


def written(parts):
    """The parts of a list, each given as why it is there and its exceptions."""
    return "\n\n".join("\n".join([f"## {name} {len(kept)}", *why, *(f"{what} {count}" for what, count in kept.items())]) for name, (why, kept) in parts.items())


def write(path, head, parts):
    with open(path, "w", encoding="utf-8") as file:
        file.write(head + written(parts) + "\n")
