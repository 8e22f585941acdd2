"""Runs of the program, for the checks of several cores: each has a limit of time, and lists of places are drawn by chance."""
import os
import signal
import subprocess

ROOT = os.path.dirname(os.path.dirname(os.path.realpath(__file__)))
LIMIT = float(os.environ.get("PATIENCE", "60"))  # seconds
LATE = "late"
OPTIONS_OF_CORES = ("--cores", "--place")
FLAGS = ("--fold",)


def ended(words, given=b"", limit=LIMIT, **how):
    """What a run prints, and its status, or LATE where it takes too long. `given` is its standard input, where `how` names none."""
    pipe = {} if "stdin" in how else {"stdin": subprocess.PIPE}
    with subprocess.Popen(words, stdout=how.pop("stdout", subprocess.PIPE), start_new_session=True, **pipe, **how) as child:
        try:
            out, _ = child.communicate(given if pipe else None, timeout=limit)
            return out, child.returncode
        except subprocess.TimeoutExpired:
            os.killpg(child.pid, signal.SIGKILL)
            out, _ = child.communicate()
            return out, LATE


def left_behind(session):
    """The processes of a session, which began with the process of this number."""
    found = []
    for number in filter(str.isdigit, os.listdir("/proc")):
        try:
            with open(f"/proc/{number}/stat", encoding="latin-1") as file:
                if int(file.read().rpartition(")")[2].split()[3]) == session:
                    found.append(int(number))
        except OSError:
            pass
    return found


def threads(program, words, **how):
    """How many threads a program has, which these words run, or 0 where it is refused; that of `gen N` has N and `main`."""
    command, operand = words[0], words[-1]
    if command == "gen":
        return int(operand) + 1
    out, status = ended([program, "threads", "--", operand], **how)
    return out.count(b"\nthread ") + 1 if status == 0 else 0


def places(chance, cores, count):
    """The words that put so many threads on cores that are drawn by chance."""
    return ["--cores", str(cores), "--place", ",".join(str(chance.randrange(cores)) for _ in range(count))]


def parted(words):
    """A command's words in this order: the command, the options but for those of cores, and `--` and the file or number."""
    plain, options, rest = [], [], [part for word in words for part in (word.split("=", 1) if word.startswith("--") else [word])]
    while rest:
        word = rest.pop(0)
        if word == "--":
            plain, rest = plain + rest, []
        elif word in FLAGS:
            options.append(word)
        elif word.startswith("--"):
            value = rest.pop(0)
            options += [] if word in OPTIONS_OF_CORES else [word, value]
        else:
            plain.append(word)
    return [plain[0], *options, "--", *plain[1:]]
