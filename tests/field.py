"""What the checks of the loop at the machine share: interpreters with the libraries, free ports, peers, and runs of the loop."""
import contextlib
import ctypes
import importlib
import os
import random
import shutil
import signal
import socket
import subprocess
import sys
import tempfile
import threading
import time

ROOT = os.path.dirname(os.path.dirname(os.path.realpath(__file__)))
FOREC = os.path.join(ROOT, "forec")
SYSTEM_PYTHON = "/usr/bin/python3"
PR_SET_PDEATHSIG = 1
LIBC = ctypes.CDLL(None)
PATIENCE = float(os.environ.get("PATIENCE", "60"))  # seconds for what has to happen
sys.path.insert(0, os.path.join(ROOT, "tools"))

PLANT = """\
class Plant:
    def read(self):
        return {"level": 20, "press": 1}
    def write(self, values):
        pass
"""
# A controller in the place of the program, which takes so long for one of its ticks.
SLOW = """\
#!/usr/bin/env python3
import sys, time
if sys.argv[1] == "check":
    print("ok threads 1 inputs 2 outputs 2")
    sys.exit()
sys.stdin.readline()
for n, row in enumerate(sys.stdin, 1):
    level, press = map(int, row.split())
    time.sleep({seconds} if n == {tick} else 0)
    print(f"tick {{n}} twice={{2 * level}} lamp={{press + 5}}", flush=True)
print(f"rows {{n}}")
"""
ECHO = """\
input int level, press;
output int twice = 0, lamp = 0;
void main(void) { while (1) { twice = level * 2; lamp = press + 5; pause; } }
"""
# The inputs of ECHO on the channel `field`, and its outputs; the places are put in. lamp goes to the channel `panel`.
TABLES = """\
program = "echo.forec"
[loop]
period = 0.01
deadline = 5.0
watchdog = 20.0
wait = 10.0
[log]
folder = "log"
{channel}
safe_after = 0.3
[channels.panel]
kind = "lines"
path = "panel"
[inputs.level]
channel = "field"
{level}
limits = [0, 1000]
default = -1
[inputs.press]
channel = "field"
{press}
default = 0
[outputs.twice]
channel = "field"
{twice}
safe = 8
[outputs.lamp]
channel = "panel"
safe = 9
"""


def left_out(package):
    """Ends the check with the line that says why it isn't run."""
    print(f"{package} isn't installed here: the check is left out")
    sys.exit(0)


def with_library(module, package):
    """Goes on with the system's Python where this one lacks the module; leaves the check out where that lacks it, too."""
    try:
        return importlib.import_module(module)
    except ImportError:
        if not os.path.isfile(SYSTEM_PYTHON) or os.path.samefile(sys.executable, SYSTEM_PYTHON):
            left_out(package)
        os.execv(SYSTEM_PYTHON, [SYSTEM_PYTHON, *sys.argv])


def command(name, package):
    """The path of a command, also of one for administrators."""
    found = shutil.which(name, path=os.environ["PATH"] + ":/usr/sbin:/sbin")
    return found or left_out(package)


def free_port():
    with socket.socket() as taken:
        taken.bind(("127.0.0.1", 0))
        return taken.getsockname()[1]


def write(folder, name, text):
    with open(os.path.join(folder, name), "w", encoding="utf-8") as file:
        file.write(text)


def read(*path):
    with open(os.path.join(*path), encoding="utf-8") as file:
        return file.read()


def until(holds, seconds=PATIENCE):
    """Waits until something holds, and returns whether it does."""
    end = time.monotonic() + seconds
    while not holds():
        if time.monotonic() > end:
            return False
        time.sleep(0.01)
    return True


def listens(port):
    with contextlib.suppress(OSError), socket.create_connection(("127.0.0.1", port), 1):
        return True
    return False


def die_with_check():
    """Where the check is killed, as by the limit of its time, so are the processes that it has started."""
    LIBC.prctl(PR_SET_PDEATHSIG, signal.SIGKILL)


@contextlib.contextmanager
def child(*words, **more):
    """A process that is ended at the end, whatever happens."""
    process = subprocess.Popen(words, stdin=subprocess.DEVNULL, preexec_fn=die_with_check, **more)
    try:
        yield process
    finally:
        if process.poll() is None:
            process.kill()
        process.wait()


@contextlib.contextmanager
def broker(folder, port):
    """A mosquitto on the loopback."""
    write(folder, "mosquitto.conf", f"listener {port} 127.0.0.1\nallow_anonymous true\npersistence false\n")
    with child(command("mosquitto", "mosquitto"), "-c", os.path.join(folder, "mosquitto.conf"), stderr=subprocess.DEVNULL,
               stdout=subprocess.DEVNULL) as process:
        if not until(lambda: listens(port)):
            raise TimeoutError("mosquitto doesn't listen")
        yield process


class Proxy:
    """Stands between the loop and a peer. `mode` is pass, late (answers come a second later), nonsense (answers are other bytes) or dead
    (no connection is taken, and those that were are gone)."""

    def __init__(self, upstream):
        self.upstream, self.mode, self.connections = upstream, "pass", []
        self.port = free_port()
        self.server = None
        self.set("pass")

    def set(self, mode):
        """Changes the mode; connections of the mode before are gone."""
        self.mode = mode
        for each in self.connections:
            with contextlib.suppress(OSError):
                each.shutdown(socket.SHUT_RDWR)
        self.connections = []
        if mode == "dead" and self.server:
            self.server.shutdown(socket.SHUT_RDWR)
            self.server.close()
            self.server = None
        elif mode != "dead" and not self.server:
            self.server = socket.create_server(("127.0.0.1", self.port))
            threading.Thread(target=self._serve, args=(self.server,), daemon=True).start()

    def _serve(self, server):
        with contextlib.suppress(OSError):
            while True:
                ours = server.accept()[0]
                theirs = socket.create_connection(("127.0.0.1", self.upstream))
                self.connections += [ours, theirs]
                threading.Thread(target=self._pump, args=(ours, theirs, False), daemon=True).start()
                threading.Thread(target=self._pump, args=(theirs, ours, True), daemon=True).start()

    def _pump(self, source, target, answers):
        with contextlib.suppress(OSError), source, target:
            while piece := source.recv(1 << 16):
                if answers and self.mode == "late":
                    time.sleep(1)
                if answers and self.mode == "nonsense":
                    piece = random.Random(len(piece)).randbytes(len(piece))
                target.sendall(piece)


class Panel:
    """A server of lines on a Unix socket: it keeps the last line that it was sent, and each that differed from the one before."""

    def __init__(self, path):
        self.line, self.seen = "", []
        self.server = socket.socket(socket.AF_UNIX)
        self.server.bind(path)
        self.server.listen()
        threading.Thread(target=self._serve, daemon=True).start()

    def _serve(self):
        with contextlib.suppress(OSError):
            while True:
                with self.server.accept()[0] as peer, peer.makefile() as file:
                    for line in file:
                        self.seen += [line.strip()] if line.strip() != self.line else []
                        self.line = line.strip()


class Run:
    """A run of the loop on a configuration in a folder."""

    def __init__(self, folder, config, *words):
        self.folder = folder
        self.process = subprocess.Popen([FOREC, "loop", *words, os.path.join(folder, config)], stdin=subprocess.DEVNULL,
                                        stdout=subprocess.PIPE, stderr=subprocess.PIPE, text=True, cwd=folder, preexec_fn=die_with_check)

    def part(self, name):
        """What the log's files of a name hold."""
        from forec_io.log import lines_of
        return b"".join(lines_of(os.path.join(self.folder, "log", "0001"), name)).decode()

    def row(self):
        """The last whole row of the trace, by names."""
        lines = self.part("trace").split("\n")[:-1]
        return dict(zip(lines[0].split(), map(int, lines[-1].split()))) if len(lines) > 1 else {}

    def notes(self):
        path = os.path.join(self.folder, "log", "0001", "notes")
        return read(path) if os.path.isfile(path) else ""

    def ended(self, number=None, seconds=PATIENCE):
        """Ends the run by a signal, where one is named, and returns its status, standard output and standard error."""
        if number is not None:
            self.process.send_signal(number)
        try:
            out, said = self.process.communicate(timeout=seconds)
        except subprocess.TimeoutExpired:
            self.process.kill()
            out, said = self.process.communicate()
            return None, out, said
        return self.process.returncode, out, said

    def close(self):
        if self.process.poll() is None:
            self.process.kill()
            self.process.communicate()


def replayed(folder):
    """The status of replay-field on the log of a folder, and what it prints."""
    found = subprocess.run([FOREC, "replay-field", os.path.join(folder, "log", "0001")], stdin=subprocess.DEVNULL, capture_output=True,
                           text=True, timeout=PATIENCE, check=False)
    return found.returncode, found.stdout + ("" if found.returncode < 2 else found.stderr)


class Gone(Exception):
    """What a check waits for doesn't come; the text is what the run said, where that has ended."""


class Check:
    """What a check has found."""

    def __init__(self):
        self.wrong = []
        self.run = None  # the run that something is awaited of

    def expect(self, what, found, wanted):
        if found != wanted:
            self.wrong.append(f"{what}: found {found!r}, expected {wanted!r}")

    def holds(self, what, holds):
        """That something holds, within the time that it has; else the check is over, since what comes next builds on it."""
        if until(lambda: holds() or self.run and self.run.process.poll() is not None) and holds():
            return
        self.wrong.append(f"{what}: it doesn't come to that")
        raise Gone(self.run.ended()[2] if self.run and self.run.process.poll() is not None else "")

    def end(self):
        print("\n".join(self.wrong) or "all as it should be")
        sys.exit(1 if self.wrong else 0)


@contextlib.contextmanager
def scratch(check):
    """A folder for a check, with the program that it is for."""
    os.environ["FOREC_PROGRAM"] = os.path.realpath(sys.argv[1])
    with tempfile.TemporaryDirectory() as folder:
        try:
            yield folder
        except Gone as gone:
            check.wrong += [f"the run has ended: {gone}"] if str(gone) else []


TERM, INT, KILL, USR1 = signal.SIGTERM, signal.SIGINT, signal.SIGKILL, signal.SIGUSR1
