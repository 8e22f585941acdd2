"""What checks share: where the repository is, how a command ended, and what is wrong so far."""
import os
import subprocess

ROOT = os.path.dirname(os.path.dirname(os.path.realpath(__file__)))
FOREC = os.path.join(ROOT, "forec")
MOST = 600  # characters of a value that are shown
WRONG = []


def shown(value, other):
    """A value as Python writes it; of a long one the part in which it begins to differ from the other."""
    text = repr(value)
    if len(text) <= MOST:
        return text
    at = max(0, min(len(os.path.commonprefix([text, repr(other)])) - MOST // 4, len(text) - MOST))
    return f"{'..' if at else ''}{text[at:at + MOST]}{'..' if at + MOST < len(text) else ''}"


def expect(what, found, wanted):
    """Says what isn't as it should be, and keeps it for the verdict."""
    if found != wanted:
        WRONG.append(what)
        print(f"{what}: {shown(found, wanted)}, expected {shown(wanted, found)}", flush=True)


def verdict(well=""):
    """The status of the check; says that all is well where it is, else how much isn't."""
    said = f"{len(WRONG)} things are wrong" if WRONG else well
    if said:
        print(said)
    return 1 if WRONG else 0


def ended(*words, given=None, limit=120, **how):
    """How a command ended: its status, and what it wrote on standard output and on standard error, where `how` doesn't lead them elsewhere.

    `given` is its standard input, a text or bytes; it takes `limit` seconds at most. `how` is as subprocess.run takes it.
    """
    if given is not None:
        how["input"] = given.encode() if isinstance(given, str) else given
    else:
        how.setdefault("stdin", subprocess.DEVNULL)
    done = subprocess.run(words, timeout=limit, check=False, **{"stdout": subprocess.PIPE, "stderr": subprocess.PIPE, **how})
    return done.returncode, (done.stdout or b"").decode(errors="replace"), (done.stderr or b"").decode(errors="replace")
