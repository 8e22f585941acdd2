"""A log with each of its lines changed: in one word, cut, left out, doubled, and swapped with the next one; and with a job more or less,
which its thread's first line counts."""
import random

WORDS = (b"0", b"1", b"-1", b"5*", b"-0", b"01", b"4611686018427387904", b"4611686018427387905", b"18446744073709551615", b"18446744073709551616",
         b"2147483647", b"2147483648", b"-2147483648*", b"start", b"wake", b"paused", b"ended", b"over", b"trapped", b"thread", b"1:1", b"divide", b"")


def another_word(word, chance):
    """Another word in the place of this one: a number is often one near it, a value with a mark often the same without it."""
    digits, star = word.removesuffix(b"*").removeprefix(b"-"), word.endswith(b"*")
    near = []
    if digits.isdigit():
        value = int(word.removesuffix(b"*"))
        near = [b"%d" % (value + 1) + b"*" * star, b"%d" % (value - 1) + b"*" * star, word.removesuffix(b"*") if star else word + b"*"]
    return chance.choice([other for other in near * 3 + list(WORDS) if other != word])


def changes_of_jobs(data):
    """The same of each job: with its reply it comes twice, or not at all; behind the last one of a thread that ended it wakes."""
    lines, head = data.splitlines(keepends=True), 0
    for at, line in enumerate(lines):
        if line.startswith(b"thread "):
            head, jobs = at, int(line.split()[3])
        elif line.startswith((b"start ", b"wake ")):
            pair, last = lines[at:at + 2], at == head + 2 * jobs - 1
            awake = [pair[0].replace(b"start", b"wake"), pair[1]] if line.startswith(b"start ") else pair
            forms = [("comes twice", pair * 2), ("doesn't come", [])] + ([("wakes once more", pair + awake)] if last else [])
            for what, instead in forms:
                first = b" ".join(lines[head].split()[:3]) + b" %d\n" % (jobs + len(instead) // 2 - 1)
                yield f"the job at line {at + 1} {what}", b"".join([*lines[:head], first, *lines[head + 1:at], *instead, *lines[at + 2:]])


def changes(data, seed):
    """Pairs of what is done to a line, and the log with that."""
    yield from changes_of_jobs(data)
    chance, lines = random.Random(seed), data.splitlines(keepends=True)
    for at, line in enumerate(lines):
        def with_this(*instead, at=at, until=at + 1):
            return b"".join(lines[:at] + list(instead) + lines[until:])

        words = line[:-1].split(b" ")
        for _ in range(2):
            which = chance.randrange(len(words))
            other = another_word(words[which], chance)
            yield f"line {at + 1}: word {which + 1} is {other!r}", with_this(b" ".join(words[:which] + [other] + words[which + 1:]) + b"\n")
        yield f"line {at + 1} is cut", with_this(line[:chance.randrange(len(line))])
        yield f"the log ends in line {at + 1}", b"".join(lines[:at]) + line[:chance.randrange(len(line))]
        yield f"line {at + 1} is left out", with_this()
        yield f"line {at + 1} is doubled", with_this(line, line)
        if at + 1 < len(lines):
            yield f"line {at + 1} is swapped with the next", with_this(lines[at + 1], line, until=at + 2)
        if at + 3 < len(lines) and line.startswith((b"start ", b"wake ")) and lines[at + 2].startswith((b"start ", b"wake ")):
            yield f"the pair at line {at + 1} is swapped with the next", with_this(*lines[at + 2:at + 4], *lines[at:at + 2], until=at + 4)
