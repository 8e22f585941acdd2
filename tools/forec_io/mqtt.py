"""MQTT, by paho-mqtt: topics in, topics out.

The channel's keys: host, port, client, user, password_file, keepalive, qos, will. The place of a value is a topic, whose message is a
number, or with field a key of its JSON object; of an output also retain. Outputs with one topic are one message.

A connection has one last will, which the broker sends where the loop is gone: the safe values. It goes to the topic of the outputs where
they have one topic; else to the topic that will names, as an object of all of them.
"""
from __future__ import annotations

import json
import os
import time
from collections.abc import Mapping
from dataclasses import dataclass
from typing import Any

from .channel import ChannelFault, Number, Polled, Setup
from .table import ConfigFault, Table

LIBRARY = ("paho.mqtt", "python3-paho-mqtt")
SLICE = 0.005  # seconds for the network before outputs are looked at again


@dataclass(frozen=True)
class Place:
    """A topic, and the field of its messages: none where a message is the number alone."""
    topic: str
    field: str
    retain: bool

    @classmethod
    def of(cls, table: Table, output: bool) -> Place:
        topic = table.take("topic", str)
        if not topic or "#" in topic or "+" in topic:
            raise ConfigFault(f"{table.name}: '{topic}' is no topic of one value")
        return cls(topic, table.take("field", str, ""), output and table.take("retain", bool, True))


def number(payload: bytes, field: str) -> Number | None:
    """The number of a message, or None where it has none."""
    try:
        found = json.loads(payload)
        found = found[field] if field else found
    except (ValueError, KeyError, TypeError, RecursionError):
        return None
    return found if isinstance(found, (int, float)) else None


class Mqtt(Polled):
    """A connection to a broker."""
    kind = "mqtt"

    def __init__(self, setup: Setup) -> None:
        super().__init__(setup, stale=None)
        table = setup.table
        self.host = table.take("host", str)
        self.port = table.take("port", int, 1883, least=1, most=65535)
        self.client_id = table.take("client", str, "")
        self.user = table.take("user", str, "")
        password_file = table.take("password_file", str, "")
        self.password_file = os.path.join(setup.folder, password_file) if password_file else ""
        self.keepalive = table.take("keepalive", int, 10, least=1, most=65535)
        self.timeout = table.take("timeout", float, 2.0, least=0.001)
        self.qos = table.take("qos", int, 0, among=(0, 1, 2))
        self._inputs = {name: Place.of(each, False) for name, each in setup.inputs.items()}
        self._outputs = {name: Place.of(each, True) for name, each in setup.outputs.items()}
        self._topics: dict[str, list[str]] = {}
        for name, place in self._outputs.items():
            self._topics.setdefault(place.topic, []).append(name)
        for topic, names in self._topics.items():
            if len({self._outputs[name].retain for name in names}) > 1 or len(names) > 1 and not all(self._outputs[n].field for n in names):
                raise ConfigFault(f"{table.name}: outputs with the topic {topic} have to have a field each, and the same retain")
        self.will = table.take("will", str, next(iter(self._topics)) if len(self._topics) == 1 else "")
        self._client: Any = None
        self._answer: int | None = None
        self._came_now: dict[str, Number | None] = {}

    def places(self) -> dict[str, set[object]]:
        return {name: {(place.topic, place.field)} for name, place in self._outputs.items()}

    def connect(self) -> None:
        import paho.mqtt.client as paho  # pylint: disable=import-outside-toplevel
        versions = getattr(paho, "CallbackAPIVersion", None)
        client = paho.Client(versions.VERSION2, self.client_id) if versions else paho.Client(self.client_id)
        client.on_connect, client.on_message = self._connected, self._message
        client.username_pw_set(*self._login()) if self.user else None
        if self.will:
            client.will_set(self.will, *self._last_will())
        self._client, self._answer, self._came_now = client, None, {}
        client.connect(self.host, self.port, self.keepalive)
        until = time.monotonic() + self.timeout
        while self._answer is None:
            self._pump(SLICE)
            if time.monotonic() > until:
                raise ChannelFault(f"{self.host}:{self.port} takes the connection, and says nothing")
        if self._answer:
            raise ChannelFault(f"{self.host}:{self.port} refuses the connection: {self._answer}")
        for topic in {place.topic for place in self._inputs.values()}:
            client.subscribe(topic, self.qos)

    def send(self, outputs: Mapping[str, Number]) -> None:
        for topic, names in self._topics.items():
            self._client.publish(topic, self._payload(names, outputs), self.qos, self._outputs[names[0]].retain)

    def receive(self) -> dict[str, Number | None]:
        until = time.monotonic() + self.poll
        while True:
            left = until - time.monotonic()
            self._pump(min(SLICE, max(0.0, left)))
            if left <= 0 or self._changed.is_set():
                break
        came, self._came_now = self._came_now, {}
        return came

    def disconnect(self) -> None:
        if self._client is not None:
            self._client.disconnect()
            self._client.loop(0.01)

    def _login(self) -> tuple[str, str | None]:
        if not self.password_file:
            return self.user, None
        with open(self.password_file, encoding="utf-8") as file:
            return self.user, file.read().strip()

    def _last_will(self) -> tuple[str, int, bool]:
        """The message, its quality of service, and whether it is retained."""
        names = self._topics.get(self.will)
        if names is None:
            return json.dumps(self._safe), self.qos, True
        return self._payload(names, self._safe), self.qos, self._outputs[names[0]].retain

    def _payload(self, names: list[str], values: Mapping[str, Number]) -> str:
        """The message of a topic with these outputs."""
        if not self._outputs[names[0]].field:
            return json.dumps(values[names[0]])
        return json.dumps({self._outputs[name].field: values[name] for name in names})

    def _pump(self, seconds: float) -> None:
        """Lets the library work for so long."""
        fault = self._client.loop(seconds)
        if fault:
            raise ChannelFault(f"the connection to {self.host}:{self.port} is gone ({fault})")

    def _connected(self, _client: Any, _data: Any, _flags: Any, code: Any, *_more: Any) -> None:
        self._answer = int(getattr(code, "value", code))

    def _message(self, _client: Any, _data: Any, message: Any) -> None:
        for name, place in self._inputs.items():
            if place.topic == message.topic:
                self._came_now[name] = number(message.payload, place.field)
