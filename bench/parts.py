"""Where the instructions of a tick go: those of the processor by what they are for, counted by valgrind, which is always the same."""
import os
import re
import shutil
import subprocess

from measure import row, written

# What the functions are for whose names begin so; the first that fits counts. What is inlined counts where it is inlined.
PARTS = (
    ("frames: steps and operands", "core_machine::thread::Thread::run_frame", "thread_steps::block_run", "thread_steps::handlers",
     "thread_steps::operations", "thread_steps::moves", "thread_steps::pairs", "thread_steps::fused"),
    ("functions that only decide", "thread_steps::decisions"),
    ("branches joined", "core_machine::thread::Thread::join", "core_machine::thread::Thread::start_joins", "core_machine::merging",
     "core_machine::thread::Thread::fold", "core_machine::thread::Thread::end_join", "combine_tree"),
    ("threads entered and left", "one_core", "core_machine", "thread_state", "core_seats", "core_host", "trace_tickers::hosted"),
    ("the row", "trace_rows::form", "trace_rows::rows", "trace_rows::lines", "trace_rows::buffer", "trace_rows::steps", "trace_rows::values",
     "trace_rows::numbers", "trace_rows::changes", "trace_rows::names", "trace_rows::words", "memchr", "tick_jobs::job"),
    ("the line", "trace_rows::tick_line", "trace_rows::decimals", "itoa", "trace_ticks::waiting", "trace_ticks::format"),
    ("the loop over rows", "trace_ticks::ticks", "trace_runs::hosting"),
    ("memory copied and cleared", "__mem", "mem"),
)
REST = "the rest"
LINE = re.compile(r"\s*([\d,]+) \([ \d.]+%\)  \S+?:(.*?)(?: \[.*)?$")


def part_of(function):
    for name, *starts in PARTS:
        if function.startswith(tuple(starts)):
            return name
    return REST


def counted(program, text, source, scratch):
    """The instructions of a run by part."""
    file = os.path.join(scratch, "callgrind.out")
    words = ["valgrind", "--tool=callgrind", f"--callgrind-out-file={file}", program, "run", text, "--budget", "100000000"]
    with open(source, "rb") as stdin:
        subprocess.run(words, stdin=stdin, stdout=subprocess.DEVNULL, stderr=subprocess.DEVNULL, check=True)
    words = ["callgrind_annotate", "--threshold=100", "--auto=no", file]
    table = subprocess.run(words, stdout=subprocess.PIPE, stderr=subprocess.DEVNULL, text=True, check=True).stdout
    parts = {}
    for each in filter(None, map(LINE.match, table.splitlines())):
        name = part_of(each.group(2))
        parts[name] = parts.get(name, 0) + int(each.group(1).replace(",", ""))
    return parts


def parts_of_ticks(program, scratch, workloads):
    """A table for each of these: a name, a text, the function that writes so many rows, how many rows, and by how much a tick is divided."""
    if shutil.which("callgrind_annotate") is None:
        print("where a tick goes: left out, since the package valgrind isn't installed")
        return
    for name, text, rows, count, share in workloads:
        few, many = (counted(program, text, written(scratch, "parts.trace", rows(times)), scratch) for times in (count, 3 * count))
        each = {part: (many[part] - few.get(part, 0)) / (2 * count * share) for part in many}
        total = sum(each.values())
        for part in [part for part, *_ in PARTS if each.get(part, 0) >= 1.5] + [REST]:
            row(f"{name}: {part}", f"{each.get(part, 0):,.0f}", f"all: {total:,.0f}", f"{each.get(part, 0) / total:.2f}")
