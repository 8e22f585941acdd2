"""Dumps of runs beside their reports: how fast one is written, and how fast one is read back."""
import os
import subprocess

from measure import beside, best, row, run, same, written

TICKS = 100_000
PART_OF_RUN = 0.7  # of the speed of `run`
MOST_SECONDS, MOST_MEMORY = 0.1, 30  # MB, for a dump of nearly 1 MB
MOST_BYTES = 1_048_576

NAMES = ("pos", "speed", "force", "heat", "left", "right", "lamp", "count")


def eight(changing):
    """A program of eight outputs of which so many change in each tick."""
    set_each = "".join(f"{name} = {name} * 5 + n + {k};\n" for k, name in enumerate(NAMES[:changing]))
    return f"output int {', '.join(f'{name} = 0' for name in NAMES)};\nint n;\nvoid main(void) {{ while (1) {{ n++;\n{set_each}pause; }} }}\n"


def many(ticks):
    """64 outputs that stay as they are: of all dumps those that tell the most values in so many bytes."""
    names = ", ".join(f"o{k} = {k}" for k in range(64))
    return f"output int {names};\nvoid main(void) {{ while (1) pause; }}\n", "\n" * (ticks + 1)


def peak(words, source):
    """Peak memory in MB of a command that does its work, as GNU time tells it: a process that Python starts begins with Python's own peak."""
    with open(source, "rb") as stdin:
        done = subprocess.run(["time", "-f", "%M", *words], stdin=stdin, stdout=subprocess.DEVNULL, stderr=subprocess.PIPE, check=False)
    assert done.returncode == 0, f"{words[:3]} ended with {done.returncode}"
    return int(done.stderr.split()[-1]) / 1024


def writing(program, scratch):
    """Dumps of 100,000 ticks beside reports of the same, and of twice as many."""
    missed = 0
    trace, double = written(scratch, "ticks.trace", "\n" * (TICKS + 1)), written(scratch, "double.trace", "\n" * (2 * TICKS + 1))
    for changing in (8, 1):
        text = written(scratch, "eight.forec", eight(changing))
        ours, plain, ratio = beside(15, ([program, "wave", text], trace, os.devnull), ([program, "run", text], trace, os.devnull))
        row(f"wave, {TICKS:,} ticks, {changing} of 8 outputs", f"{TICKS / ours / 1e3:.0f} k ticks/s",
            f"run: {TICKS / plain / 1e3:.0f} k ticks/s", f"{ratio:.2f}")
        missed += ratio < PART_OF_RUN
        twice = best([program, "wave", text], double, os.devnull, 5)
        once = best([program, "wave", text], trace, os.devnull, 5)
        row("wave, twice the ticks", f"{twice * 1000:.0f} ms", f"half: {once * 1000:.0f} ms", f"{twice / once:.2f}")
    few, most = peak([program, "wave", text], written(scratch, "few.trace", "\n" * 1001)), peak([program, "wave", text], double)
    row(f"peak memory, wave, {2 * TICKS:,} ticks", f"{most:.2f} MB", f"1,000 ticks: {few:.2f} MB", f"{most / few:.2f}")
    return missed


def dump_of(program, scratch, name, text, trace):
    """The file of a dump, and of the report that it tells."""
    dump, report, rows = os.path.join(scratch, f"{name}.vcd"), os.path.join(scratch, f"{name}.report"), written(scratch, f"{name}.trace", trace)
    text = written(scratch, f"{name}.forec", text)
    run([program, "wave", text], rows, dump)
    run([program, "run", text], rows, report)
    assert os.path.getsize(dump) <= MOST_BYTES, f"{name}: a dump of {os.path.getsize(dump)} bytes"
    return dump, report


def told_back(program, scratch, name, dump, report):
    """Seconds and MB of reading a dump; what it tells is the report."""
    told = os.path.join(scratch, f"{name}.told")
    run([program, "unwave", dump], os.devnull, told)
    assert same(told, report), "unwave tells another report than run"
    return best([program, "unwave", dump], os.devnull, os.devnull, 5), peak([program, "unwave", dump], os.devnull)


def reading(program, scratch):
    """A dump of nearly 1 MB, and one of half of it; and the one that tells the most values."""
    each = len("#1000\n") + 8 * 36
    half, whole = (dump_of(program, scratch, f"eight{ticks}", eight(8), "\n" * (ticks + 1))
                   for ticks in (MOST_BYTES // each // 2, MOST_BYTES // each - 4))
    (less, _), (seconds, memory) = (told_back(program, scratch, name, *files) for name, files in (("half", half), ("whole", whole)))
    size = os.path.getsize(whole[0])
    row(f"unwave, {size:,} bytes", f"{seconds * 1000:.1f} ms", f"at most {MOST_SECONDS * 1000:.0f} ms", f"{seconds / MOST_SECONDS:.2f}")
    row("unwave, twice the bytes", f"{seconds * 1000:.1f} ms", f"half: {less * 1000:.1f} ms", f"{seconds / less:.2f}")
    row(f"peak memory, unwave, {size:,} bytes", f"{memory:.1f} MB", f"at most {MOST_MEMORY} MB", f"{memory / MOST_MEMORY:.2f}")
    dump, report = dump_of(program, scratch, "many", *many(131_000))
    slow, most = told_back(program, scratch, "many", dump, report)
    values = 64 * 131_000
    row(f"unwave, {values:,} values that stay", f"{slow * 1000:.0f} ms", f"a report of {os.path.getsize(report) / 1e6:.0f} MB", f"{slow / seconds:.2f}")
    row("peak memory, the same", f"{most:.1f} MB", f"values alone: {4 * values / 1e6:.1f} MB", f"{most / (4 * values / 1e6):.2f}")
    return (seconds > MOST_SECONDS) + (memory > MOST_MEMORY)


def waves(program, scratch):
    return writing(program, scratch) + reading(program, scratch)
