"""Value change dumps of runs, written and read in a second way: a report becomes its dump, a dump its report or the byte at which it is none."""

SCOPE = b"$timescale 1 ns $end\n$scope module forec $end\n"
DECLARED = b"$upscope $end\n$enddefinitions $end\n"
MOST_OUTPUTS = 64
FIRST_LETTER = 33
MOST_BYTES = 1048576  # of a dump that is read


class Bad(ValueError):
    """These bytes are no dump; `at` is how many of them a dump can begin with."""

    def __init__(self, at):
        super().__init__(f"byte {at + 1}")
        self.at = at


# ---- writing

def _shown(name):
    return name.replace(b"[", b"(").replace(b"]", b")")


def written(names, ticks, ending):
    """The dump of a run: the names of its outputs, their values in each tick, and the last line of the report, without its end."""
    lines, before = [SCOPE], [None] * len(names)
    for k, name in enumerate(names):
        lines.append(b"$var wire 32 %c %s $end\n" % (FIRST_LETTER + k, _shown(name)))
    lines.append(DECLARED)
    for number, values in enumerate(ticks, 1):
        lines.append(b"#%d\n" % number)
        for k, value in enumerate(values):
            if value != before[k]:
                lines.append(b"b%s %c\n" % (format(value % 2 ** 32, "032b").encode(), FIRST_LETTER + k))
        before = values
    return b"".join(lines) + b"$comment %s $end\n" % ending


def parts(report):
    """The names of the outputs as the report has them (none where it has no tick), their values in each tick, and the last line."""
    *ticks, ending = report.splitlines()
    pairs = [[word.split(b"=") for word in line.split()[2:]] for line in ticks]
    return [name for name, _ in pairs[0]] if pairs else [], [[int(value) for _, value in line] for line in pairs], ending


# ---- reading

class _Reader:
    """Takes byte after byte, and is Bad at the first one with which no dump goes on."""

    def __init__(self, text):
        self.text, self.at = text, 0

    def next(self):
        """The next byte; a text that ends too early is Bad at its end."""
        if self.at == len(self.text):
            raise Bad(self.at)
        return self.text[self.at]

    def take(self, fits):
        byte = self.next()
        if not fits(byte):
            raise Bad(self.at)
        self.at += 1
        return byte

    def literal(self, wanted):
        for byte in wanted:
            self.take(lambda found, byte=byte: found == byte)

    def one_of(self, choices):
        """Which of these bytes comes next."""
        return self.take(lambda byte: byte in choices)

    def names(self):
        found = []
        while True:
            self.literal(b"$")
            if self.one_of(b"vu" if len(found) < MOST_OUTPUTS else b"u") == ord("u"):
                self.literal(DECLARED[2:])
                return found
            self.literal(b"ar wire 32 %c " % (FIRST_LETTER + len(found)))
            name = bytearray()
            while (byte := self.take(lambda byte: byte == 32 or 33 <= byte <= 126 and byte not in b"$[]")) != 32:
                name.append(byte)
            self.literal(b"$end\n")
            found.append(bytes(name).replace(b"(", b"[").replace(b")", b"]"))

    def value(self, before, told):
        """A value behind its `b`: the number of its output, and the value. The outputs below `told` are past, and one that had no value
        before can't be left out."""
        last = next((k for k in range(told, len(before)) if before[k] is None), len(before) - 1)
        bits = 0
        for place in range(32):
            byte = self.one_of(b"01")
            bits = bits * 2 + byte - ord("0")
            if place == 31:
                value = bits - 2 ** 32 if bits >= 2 ** 31 else bits
                fitting = [k for k in range(told, last + 1) if before[k] != value]
                if not fitting:
                    raise Bad(self.at - 1)
        self.literal(b" ")
        output = self.take(lambda byte: byte - FIRST_LETTER in fitting) - FIRST_LETTER
        self.literal(b"\n")
        return output, value

    def ticks(self, outputs):
        """The values of each tick; what is left begins behind the `$` of the ending."""
        found, before = [], [None] * outputs
        while self.one_of(b"#$") == ord("#"):
            self.literal(b"%d\n" % (len(found) + 1))
            now, told = list(before), 0
            while told < outputs and (None in now[told:] or self.next() == ord("b")):
                self.literal(b"b")
                output, value = self.value(before, told)
                now[output], told = value, output + 1
            found.append(now)
            before = now
        return found

    def ending(self):
        self.literal(b"comment ")
        found = bytearray()
        while (byte := self.take(lambda byte: 32 <= byte <= 126 and (byte != ord("$") or len(found) > 1 and found[-1] == 32))) != ord("$"):
            found.append(byte)
        self.literal(b"end\n")
        return bytes(found[:-1])


def read(text):
    """The names, ticks and ending of a dump."""
    reader = _Reader(text)
    reader.literal(SCOPE)
    names = reader.names()
    ticks = reader.ticks(len(names))
    ending = reader.ending()
    if reader.at != len(text):
        raise Bad(reader.at)
    return names, ticks, ending


def told(text):
    """What `unwave` prints of these bytes, and its status."""
    if len(text) > MOST_BYTES:
        return b"refused long\n", 3
    try:
        names, ticks, ending = read(text)
    except Bad as bad:
        return b"refused byte %d\n" % (bad.at + 1), 3
    lines = [b" ".join([b"tick %d" % number, *(b"%s=%d" % pair for pair in zip(names, values))]) + b"\n" for number, values in enumerate(ticks, 1)]
    return b"".join(lines) + ending + b"\n", 0
