"""Lines over a socket: the peer sends words `level=120`, as many in a line as it likes, and is sent a line with all outputs.

The channel's keys: host and port, or path of a Unix socket; the loop is the client. The place of a value is a word, the name in the
lines; where it isn't given it is the name of the input or output.
"""
from __future__ import annotations

import os
import select
import socket
import time
from collections.abc import Mapping

from .channel import ChannelFault, Number, Polled, Setup
from .table import ConfigFault

LIBRARY = None
LONGEST = 1 << 16  # bytes of a line
SLICE = 0.005  # seconds for the peer before outputs are looked at again


def number(text: str) -> Number | None:
    """The number of a word, or None where it is none."""
    try:
        return int(text)
    except ValueError:
        pass
    try:
        return float(text)
    except ValueError:
        return None


class Lines(Polled):
    """A connection to a server of lines."""
    kind = "lines"

    def __init__(self, setup: Setup) -> None:
        super().__init__(setup, stale=None)
        table = setup.table
        path = table.take("path", str, "")
        self.path = os.path.join(setup.folder, path) if path else ""
        self.host, self.port = table.take("host", str, ""), table.take("port", int, 0, least=0, most=65535)
        if bool(self.path) == bool(self.host) or bool(self.host) != bool(self.port):
            raise ConfigFault(f"{table.name}: host and port, or path, are wanted")
        self.timeout = table.take("timeout", float, 1.0, least=0.001)
        words = {name: each.take("word", str, name) for name, each in setup.inputs.items()}
        self._inputs: dict[str, list[str]] = {}
        for name, word in words.items():
            self._inputs.setdefault(word, []).append(name)
        self._outputs = {name: each.take("word", str, name) for name, each in setup.outputs.items()}
        self._socket: socket.socket | None = None
        self._held = b""

    def places(self) -> dict[str, set[object]]:
        return {name: {word} for name, word in self._outputs.items()}

    def connect(self) -> None:
        self._held = b""
        if self.path:
            self._socket = socket.socket(socket.AF_UNIX)
            self._socket.settimeout(self.timeout)
            self._socket.connect(self.path)
        else:
            self._socket = socket.create_connection((self.host, self.port), self.timeout)
            # A peer that is gone without a word, as behind a cut cable, is found out within some seconds.
            for level, option, value in ((socket.IPPROTO_TCP, socket.TCP_NODELAY, 1), (socket.SOL_SOCKET, socket.SO_KEEPALIVE, 1),
                                         (socket.IPPROTO_TCP, socket.TCP_KEEPIDLE, 1), (socket.IPPROTO_TCP, socket.TCP_KEEPINTVL, 1),
                                         (socket.IPPROTO_TCP, socket.TCP_KEEPCNT, 3)):
                self._socket.setsockopt(level, option, value)

    def send(self, outputs: Mapping[str, Number]) -> None:
        assert self._socket
        if self._outputs:
            self._socket.sendall(" ".join(f"{word}={outputs[name]}" for name, word in self._outputs.items()).encode() + b"\n")

    def receive(self) -> dict[str, Number | None]:
        assert self._socket
        came: dict[str, Number | None] = {}
        until = time.monotonic() + self.poll
        while True:
            left = until - time.monotonic()
            if select.select([self._socket], [], [], min(SLICE, max(0.0, left)))[0]:
                came.update(self._received())
            if left <= 0 or self._changed.is_set():
                return came

    def disconnect(self) -> None:
        if self._socket is not None:
            self._socket.close()

    def _received(self) -> dict[str, Number | None]:
        """What is there to read, as far as it is whole lines."""
        assert self._socket
        piece = self._socket.recv(1 << 16)
        if not piece:
            raise ChannelFault("the peer has closed the connection")
        *lines, self._held = (self._held + piece).split(b"\n")
        if len(self._held) > LONGEST:
            raise ChannelFault(f"a line of more than {LONGEST} bytes")
        came: dict[str, Number | None] = {}
        for word, _, text in (each.partition("=") for line in lines for each in line.decode(errors="replace").split()):
            came.update({name: number(text) for name in self._inputs.get(word, ())})
        return came
