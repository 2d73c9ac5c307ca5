"""Both ends of an observation by the command `oscore run --follow`, over UDP on 127.0.0.1: each sends what is confirmable again until it is
acknowledged (RFC 7252, 4.2), and acknowledges what comes again."""

from __future__ import annotations

import queue
import secrets
import select
import socket
import threading
import time
from typing import Dict, List, NamedTuple, Optional, Tuple

import coap_reading
from asker import ECHO, EMPTY, UNAUTHORIZED, URI_PATH
from blocks import GET, uint
from coap_reading import ACK, CON, Message
from command import Client, Life, Server, bytes_of, options_of
from losing import WAITED_S
from oscore_reading import OBSERVE, first
from serving import CONTENT

HASTY_S, FIRST_S, MOST_WAIT_S = 0.1, 0.5, 110
"""So long what is confirmable waits for its acknowledgment, a first request, and each at most. A first request may be challenged: libcoap's
server gives another Echo value where it comes twice, and answers nothing to who brings back the one before."""
PATH, NOT_FOUND = b"temperature", 0x84
REGISTERS, CANCELS = b"", b"\x01"
"""The values of Observe in a request (RFC 7641, 2)."""


class Again:
    """A confirmable message, which is sent again, each time after twice the time."""

    def __init__(self, udp: socket.socket, datagram: bytes, to: Optional[object] = None, wait_s: float = HASTY_S):
        self.udp, self.datagram, self.to, self.wait_s, self.until = udp, datagram, to, wait_s, 0.0
        self.send()

    def send(self) -> None:
        if self.to is None:
            self.udp.send(self.datagram)
        else:
            self.udp.sendto(self.datagram, self.to)
        self.until = time.monotonic() + self.wait_s
        self.wait_s *= 2

    def send_if_due(self) -> None:
        if self.until < time.monotonic() and self.wait_s < MOST_WAIT_S:
            self.send()

    def is_said_by(self, datagram: bytes) -> bool:
        """Whether an empty message is about this one: an ACK, or an RST."""
        return len(datagram) == 4 and datagram[2:] == self.datagram[2:4]


def sealed(entry: List[str]) -> bytes:
    """The response that an entry has."""
    if entry[0] != "replied":
        raise SystemExit(f"oscore run: {entry}")
    return bytes.fromhex(entry[1])


class Observed(NamedTuple):
    event: int
    to: object
    token: bytes


class CommandServer(Server):
    """One client at a time observes it, the one that registered last, as of sensor.c. What it has to say newly takes the place of what wasn't
    acknowledged (RFC 7641, 4.5.2)."""

    def __init__(self, life: Life):
        super().__init__(life, lambda request: self.plain(ACK, 0, CONTENT))
        self.lock, self.temperature, self.measured, self.message_id = threading.RLock(), b"", 0, secrets.randbelow(1 << 15)
        self.sender: object = None
        self.observed: Optional[Observed] = None
        self.unacknowledged: Optional[Again] = None
        self.clock = threading.Thread(target=self.send_again, daemon=True)

    def __enter__(self) -> "CommandServer":
        self.clock.start()
        return super().__enter__()

    def __exit__(self, *words: object) -> None:
        self.is_over.set()
        self.clock.join()
        super().__exit__(*words)

    def send_again(self) -> None:
        while not self.is_over.is_set():
            time.sleep(0.01)
            with self.lock:
                if self.unacknowledged:
                    self.unacknowledged.send_if_due()

    def plain(self, kind: int, message_id: int, code: int, notifies: bool = False) -> Message:
        options = ((OBSERVE, uint(self.measured)),) if notifies else ()
        return Message(kind, code, message_id, b"", options, self.temperature if code == CONTENT else b"")

    def reply_to(self, sender: object, datagram: bytes) -> Optional[bytes]:
        with self.lock:
            if coap_reading.read(datagram).code == EMPTY:
                if self.unacknowledged and self.unacknowledged.is_said_by(datagram):
                    self.unacknowledged = None
                return None
            self.sender = sender
            return super().reply_to(sender, datagram)

    def respond(self, at: int, request: Message) -> List[str]:
        observe = first(request.options, OBSERVE)
        if observe == REGISTERS:
            self.drop()
            self.observed = Observed(at, self.sender, request.token)
            return self.notification(ACK, request.message_id)
        if observe == CANCELS and self.observed and self.observed.token == request.token:
            self.drop()
        return super().respond(at, request)

    def drop(self) -> None:
        if self.observed:
            self.life.happens(f"drop {self.observed.event}")
        self.observed = self.unacknowledged = None

    def notification(self, kind: int, message_id: int) -> List[str]:
        self.measured += 1
        plain = self.plain(kind, message_id, CONTENT, True)
        return self.life.happens(f"notify {self.observed.event} {coap_reading.write(plain).hex()}")

    def next_id(self) -> int:
        self.message_id += 1
        return self.message_id

    def measure(self, temperature: str) -> None:
        with self.lock:
            self.temperature = temperature.encode()
            if self.observed:
                self.unacknowledged = Again(self.udp, sealed(self.notification(CON, self.next_id())), self.observed.to)

    def delete(self) -> None:
        """The last response, as a message of its own."""
        with self.lock:
            plain = coap_reading.write(self.plain(CON, 0, NOT_FOUND))
            datagram = sealed(self.life.happens(f"reply {self.observed.event} own 0000 {plain.hex()}"))
            message = coap_reading.read(datagram)._replace(kind=CON, message_id=self.next_id())
            self.unacknowledged = Again(self.udp, coap_reading.write(message), self.observed.to)
            self.observed = None

    def is_alone(self) -> bool:
        return self.observed is None


class CommandCaller:
    """Takes the lines "register", "cancel" and "ask", and says what came by lines, as aiocoap_losses.py does."""

    SAYS = {"register": "last", "cancel": "cancelled", "ask": "answered"}

    def __init__(self, life: Life, port: int):
        self.life, self.lock, self.lines, self.count = life, threading.RLock(), queue.Queue(), 0
        self.udp = socket.socket(socket.AF_INET, socket.SOCK_DGRAM)
        self.udp.connect(("127.0.0.1", port))
        self.asked: Dict[int, str] = {}
        self.unanswered: Dict[int, Again] = {}
        self.taken: List[bytes] = []
        self.token, self.is_over = b"", threading.Event()
        self.thread = threading.Thread(target=self.run, daemon=True)

    def __enter__(self) -> "CommandCaller":
        self.thread.start()
        return self

    def __exit__(self, *_: object) -> None:
        self.is_over.set()
        self.thread.join()
        self.udp.close()
        self.life.end()

    def say(self, line: str, *more: Tuple[int, bytes]) -> None:
        """A cancellation has the token of the registration (RFC 7641, 3.6)."""
        with self.lock:
            self.count += 1
            token = self.token if line == "cancel" else self.count.to_bytes(2, "big")
            self.token = token if line == "register" else self.token
            observe = {"register": ((OBSERVE, REGISTERS),), "cancel": ((OBSERVE, CANCELS),)}.get(line, ())
            plain = Message(CON, GET, self.count, token, (*observe, (URI_PATH, PATH), *more), b"")
            number, datagram = Client(self.life).seal(plain)
            self.asked[number] = line
            self.unanswered[number] = Again(self.udp, datagram, None, HASTY_S if self.taken else FIRST_S)

    def line(self) -> str:
        try:
            return self.lines.get(timeout=WAITED_S)
        except queue.Empty:
            return ""

    def run(self) -> None:
        while not self.is_over.is_set():
            readable = select.select([self.udp], [], [], 0.01)[0]
            with self.lock:
                if readable:
                    self.take(self.udp.recv(2000))
                for again in self.unanswered.values():
                    again.send_if_due()

    def take(self, datagram: bytes) -> None:
        message = coap_reading.read(datagram)
        if message.code == EMPTY:
            self.unanswered = {number: again for number, again in self.unanswered.items() if not again.is_said_by(datagram)}
        elif self.hears(self.life.happens(f"take {self.life.now()} {datagram.hex()}")) or datagram in self.taken:
            self.taken.append(datagram)
            if message.kind == CON:
                self.udp.send(coap_reading.write(Message(ACK, EMPTY, message.message_id, b"", (), b"")))

    def hears(self, entry: List[str]) -> bool:
        """Whether it is a notification, an old one, or a response to what was asked."""
        if entry[0] not in ("notified", "deliver"):
            return entry[0] == "old"
        number, payload = int(entry[1]), bytes_of(entry[5])
        self.unanswered.pop(number, None)
        if entry[0] == "notified":
            self.lines.put(f"heard {payload.decode()}")
            return True
        asked, echo = self.asked.pop(number), first(tuple(options_of(entry[4])), ECHO)
        if entry[3] == UNAUTHORIZED and echo:
            self.say(asked, (ECHO, echo))
        else:
            self.lines.put(f"{self.SAYS[asked]} {entry[3]} {payload.decode()}".strip() if asked != "register" else f"last {entry[3]}")
        return True
