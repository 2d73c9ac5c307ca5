"""What the rows of observations share: our sensor and a peer's client, a peer's server and our reader, what lies between each two, and what
is seen of them outside the protection (RFC 8613, 4.1.3.5 and 4.2; RFC 7641, 2 and 3)."""

from __future__ import annotations

import contextlib
import dataclasses
import re
import subprocess
from typing import Iterator, List, NamedTuple, Optional, Sequence, Tuple

import coap_reading
import oscore_reading
import outside
from asker import EMPTY, code_name
from bench import THE_LOCK, Observer, ended
from oscore_reading import HOSTS, OBSERVE
from relay import Relay
from rows import CHALLENGED, Rows

THE_SENSOR = THE_LOCK._replace(client="04", server="03")
"""As bindings/c/examples/sensor.c has it."""
REGISTERS, CANCELS = ("0.05", 0), ("0.05", 1)
"""Code and Observe of such a request outside (RFC 8613, 4.1.3.5.1 and 4.2)."""


def temperature(at: int) -> str:
    """The sensor's: 20.0 at first, and more each time."""
    return f"{20 + at // 10}.{at % 10}"


def heard(*ats: int) -> List[str]:
    return [temperature(at) for at in ats]


def without_numbers(lines: Sequence[str]) -> List[str]:
    """What an end of ours said, but for Sender Sequence Numbers, and for what it saved."""
    kept = [line for line in lines if not re.match(r"saved |next Sender Sequence Number ", line)]
    return [re.sub(r"^(\d+|no Partial IV of its own): | under number \d+$", "", line) for line in kept]


class AtSensor(NamedTuple):
    """Our sensor, a peer's client that observes it, and what lies between."""

    sensor: subprocess.Popen
    relay: Relay
    observer: Observer


class AtServer(NamedTuple):
    """A peer's server, our reader that observes it, and what lies between."""

    server: object
    relay: Relay
    reader: subprocess.Popen
    first: bytes
    """The first notification, which isn't handed on yet."""

    def notification(self, at: int) -> bytes:
        """That of a new temperature."""
        self.server.measure(temperature(at))
        return self.relay.notification()

    def pass_on(self, *ats: int) -> None:
        for at in ats:
            self.relay.hand(self.notification(at))


class Observing(Rows):
    lives = 0
    """How many servers of the peer's were begun. Of one name the next one has lost what the last one saw."""

    @contextlib.contextmanager
    def at_sensor(self, datagrams: int, name: str = "sensor", program: str = "sensor", **more: int) -> Iterator[AtSensor]:
        """A sensor that takes so many datagrams. Of one name the next one goes on where the last one was."""
        with self.bench.server(program, "0", str(datagrams), str(self.bench.work / name), *self.bench.first(name)) as (sensor, port), \
                Relay(port) as relay, self.peer.observer("sensor", THE_SENSOR, relay.port, self.bench.next_token_len(), **more) as observer:
            yield AtSensor(sensor, relay, observer)

    @contextlib.contextmanager
    def at_server(self, count: int, kind: str = "CON") -> Iterator[AtServer]:
        """A server that notifies by messages of one kind, and a reader that cancels after so many notifications."""
        self.lives += 1
        with self.peer.observed("temperature", THE_SENSOR, kind) as server, Relay(server.port) as relay:
            server.measure(temperature(0))
            line = [str(self.bench.ours / "reader"), str(relay.port), str(self.bench.work / "reader.record"), str(count)]
            line += self.bench.first("reader.record")
            with ended(subprocess.Popen(line, stdout=subprocess.PIPE, text=True)) as reader:
                yield AtServer(server, relay, reader, relay.notification())

    def asks(self) -> int:
        """How often the last server that was begun asks for an Echo value."""
        return int(self.peer.first_asks_echo or self.lives > 1)

    def hears(self, what: str, ends: AtSensor, at: int) -> bytes:
        """The next notification is handed on, and heard."""
        datagram = ends.relay.notification()
        ends.relay.hand(datagram)
        self.check(f"{what}: notification {at}", temperature(at), ends.observer.heard())
        return datagram

    def sensor_says(self, what: str, ends: AtSensor, wanted: List[str], last: str = "4.04") -> None:
        """Until both have ended."""
        ends.relay.pass_all(ends.observer.process)
        self.check(f"{what}: the last response", [last], ends.observer.rest())
        self.check(f"{what}: what the sensor says", wanted, without_numbers(self.bench.told(ends.sensor)))

    def reader_says(self, what: str, ends: AtServer, wanted: List[str]) -> List[Optional[int]]:
        """Until it has ended. Answers the Partial IVs of the notifications that it heard, None where one has none."""
        ends.relay.pass_all(ends.reader)
        told = self.bench.told(ends.reader)
        self.check(f"{what}: what the reader says", ["registers"] + [CHALLENGED, "registers"] * self.asks() + wanted, without_numbers(told))
        numbers = [re.match(r"(?:(\d+)|no Partial IV of its own): ", line) for line in told]
        return [int(number[1]) if number[1] else None for number in numbers if number]

    def tokens(self, relay: Relay) -> List[bytes]:
        """Those of the requests."""
        return [message.token for message in map(coap_reading.read, dict.fromkeys(relay.of_client)) if message.code != EMPTY]

    def requests_outside(self, what: str, relay: Relay, wanted: List[Tuple[str, int]]) -> None:
        seen = outside.see_all(relay.of_client)
        self.check(f"{what}: code and Observe of the requests outside", wanted, [(one.code, one.observe) for one in seen])
        self.check(f"{what}: whether their Partial IVs grow", True, outside.grows([one.number for one in seen]))
        self.check(f"{what}: what else stands outside of requests", set(), set().union(*(one.others for one in seen)) - set(HOSTS))

    def replies_outside(self, what: str, relay: Relay, count: int) -> list:
        """Answers the Partial IVs of the notifications."""
        seen = outside.see_all(relay.of_server)
        notifications = [one for one in seen if one.observe is not None]
        self.check(f"{what}: codes of the notifications outside", ["2.05"] * count, [one.code for one in notifications])
        self.check(f"{what}: whether Observe grows", True, outside.grows([one.observe for one in notifications]))
        self.check(f"{what}: what else stands outside of replies", set(), set().union(*(one.others for one in seen)))
        return [one.number for one in notifications]

    def opened(self, relay: Relay) -> List[object]:
        """Code, Observe and payload inside of each notification of the sensor's to the last request, by this folder's own reading."""
        secret, client, server = (bytes.fromhex(word) for word in (THE_SENSOR.secret, THE_SENSOR.client, THE_SENSOR.server))
        context = dataclasses.replace(oscore_reading.derive(secret, b"", None, client, server), observe=True)
        request = outside.see_all(relay.of_client)[-1].number
        opened = [oscore_reading.open_response(context, request, datagram, True) for datagram in filter(outside.notifies, relay.of_server)]
        return [(code_name(one.code), oscore_reading.first(one.options, OBSERVE), one.payload) for one in opened]
