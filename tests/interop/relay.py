"""What lies between a client and a server on 127.0.0.1 and keeps all that it sees. It hands on each datagram of the client as it comes, and
one of the server only where a row says so: once, twice, behind another one, or not at all. So nothing rests on how fast anybody is.

    with Relay(PORT) as relay:
        relay.port                      # where the client is to send
        relay.hand(relay.notification())"""

from __future__ import annotations

import contextlib
import select
import socket
import subprocess
import time
from typing import List, Optional

import outside
from bench import GIVEN_UP_S

MOST_DATAGRAM = 2000


class Relay:
    def __init__(self, port: int):
        self.front, self.back = (socket.socket(socket.AF_INET, socket.SOCK_DGRAM) for _ in range(2))
        self.front.bind(("127.0.0.1", 0))
        self.back.connect(("127.0.0.1", port))
        self.port, self.client = self.front.getsockname()[1], None
        self.of_client: List[bytes] = []
        self.of_server: List[bytes] = []

    def __enter__(self) -> "Relay":
        return self

    def __exit__(self, *_: object) -> None:
        self.front.close()
        self.back.close()

    def step(self, waits_s: float) -> Optional[bytes]:
        """Hands on a datagram of the client where one is there, else answers one of the server. Where one of them isn't there any more,
        what was sent to it is an error of the next call."""
        readable = select.select([self.front, self.back], [], [], waits_s)[0]
        with contextlib.suppress(ConnectionError):
            if self.front in readable:
                datagram, self.client = self.front.recvfrom(MOST_DATAGRAM)
                self.of_client.append(datagram)
                self.forward(datagram)
            elif self.back in readable:
                self.of_server.append(self.back.recv(MOST_DATAGRAM))
                return self.of_server[-1]
        return None

    def forward(self, datagram: bytes) -> None:
        """To the server."""
        self.back.send(datagram)

    def take(self) -> bytes:
        """The server's next datagram, which isn't handed on."""
        until = time.monotonic() + GIVEN_UP_S
        while time.monotonic() < until:
            if datagram := self.step(0.1):
                return datagram
        raise TimeoutError(f"the server says nothing behind {[outside.see(datagram) for datagram in self.of_server[-1:]]}")

    def hand(self, datagram: bytes) -> None:
        self.front.sendto(datagram, self.client)

    def notification(self) -> bytes:
        """The server's next notification, which isn't handed on; what comes before it is."""
        while not outside.notifies(datagram := self.take()):
            self.hand(datagram)
        return datagram

    def pass_all(self, client: subprocess.Popen, slowly_s: float = 0) -> None:
        """Hands on what both say until the client has ended, what the server says so much later."""
        until = time.monotonic() + GIVEN_UP_S
        while client.poll() is None and time.monotonic() < until:
            if datagram := self.step(0.05):
                time.sleep(slowly_s)
                self.hand(datagram)
        while self.front in select.select([self.front], [], [], 0)[0]:
            self.step(0)

    def acknowledged(self, datagram: bytes) -> None:
        """Hands on what the client says until it has acknowledged a datagram."""
        until = time.monotonic() + GIVEN_UP_S
        while not any(outside.acknowledges(said, datagram) for said in self.of_client):
            if time.monotonic() > until or self.step(0.1):
                raise TimeoutError("no acknowledgment comes first")

    def is_silent(self) -> bool:
        """Whether the server has said nothing that wasn't taken."""
        return self.back not in select.select([self.back], [], [], 0)[0]
