"""A relay that loses three datagrams of each ten, both ways, in an order by chance. Which ones is the same for a seed, as far as both
ends say the same.

    with Losing(PORT, random.Random(SEED)) as relay:
        relay.port                      # where the client is to send"""

from __future__ import annotations

import contextlib
import random
import threading
import time
from typing import Callable, Dict, List, Optional

import coap_reading
import outside
from bench import PING
from coap_reading import ACK, NON
from relay import Relay

LOST, OF = 3, 10
WAITED_S = 150
"""So long something may take whose datagrams are lost again and again."""
CLIENT, SERVER = "client", "server"


def soon(holds: Callable[[], bool]) -> bool:
    """Waits until it does."""
    until = time.monotonic() + WAITED_S
    while not (is_so := holds()) and time.monotonic() < until:
        time.sleep(0.005)
    return is_so


class Losing(Relay):
    def __init__(self, port: int, chance: random.Random):
        super().__init__(port)
        self.chance = chance
        self.decks: Dict[str, List[bool]] = {CLIENT: [], SERVER: []}
        self.came, self.lost = {CLIENT: 0, SERVER: 0}, {CLIENT: 0, SERVER: 0}
        self.arrived: List[bytes] = []
        """What the client was handed."""
        self.is_over = threading.Event()
        self.thread = threading.Thread(target=self.run, daemon=True)

    def __enter__(self) -> "Losing":
        self.thread.start()
        return self

    def __exit__(self, *words: object) -> None:
        self.is_over.set()
        self.thread.join()
        super().__exit__(*words)

    def is_lost(self, end: str, datagram: bytes) -> Optional[bool]:
        """What is sure of a datagram, where chance has no say: then it counts for nothing."""

    def arrives(self, end: str, datagram: bytes) -> bool:
        is_lost = self.is_lost(end, datagram)
        if is_lost is not None:
            return not is_lost
        if not self.decks[end]:
            self.decks[end] = self.chance.sample([False] * LOST + [True] * (OF - LOST), OF)
        arrives = self.decks[end].pop()
        self.came[end] += 1
        self.lost[end] += not arrives
        return arrives

    def forward(self, datagram: bytes) -> None:
        if self.arrives(CLIENT, datagram):
            super().forward(datagram)

    def run(self) -> None:
        while not self.is_over.is_set():
            datagram = self.step(0.02)
            if datagram and self.arrives(SERVER, datagram):
                self.arrived.append(datagram)
                self.hand(datagram)

    def leads_to(self, port: int) -> None:
        """The server is another one from now on."""
        self.back.connect(("127.0.0.1", port))

    def pings(self, count: int) -> None:
        """Somebody else says something to the server."""
        for _ in range(count):
            with contextlib.suppress(ConnectionError):
                self.back.send(PING)

    def notifications(self) -> List[bytes]:
        """Those of the server that came to the relay, each once."""
        return list(dict.fromkeys(filter(outside.notifies, list(self.of_server))))

    def handed(self) -> List[bytes]:
        """The notifications that the client was handed, each once."""
        return list(dict.fromkeys(filter(outside.notifies, list(self.arrived))))

    def hands(self, count: int) -> bool:
        """Whether the client was handed so many, as soon as it was."""
        return soon(lambda: len(self.handed()) >= count)

    def acknowledged(self) -> int:
        """How many notifications the client acknowledged."""
        said = {datagram[2:] for datagram in list(self.of_client) if datagram[0] == 0x40 | ACK << 4 and len(datagram) == 4}
        return sum(datagram[2:4] in said for datagram in self.notifications())

    def acknowledges(self, count: int) -> bool:
        """Whether the client acknowledged so many, as soon as it did."""
        return soon(lambda: self.acknowledged() >= count)


class OfSensor(Losing):
    """sensor.c sends the last response once, and then ends: a NON without Observe. So that is never lost. All notifications are while it is to
    be quiet."""

    is_quiet = False

    def is_lost(self, end: str, datagram: bytes) -> Optional[bool]:
        if end == CLIENT or outside.notifies(datagram):
            return True if end == SERVER and self.is_quiet else None
        return False if coap_reading.read(datagram).kind == NON else None


class OfReader(Losing):
    """To a reader that cancels behind so many notifications. Whether its acknowledgment of the last of them is lost isn't left to chance."""

    def __init__(self, port: int, chance: random.Random, count: int, is_last_lost: bool):
        super().__init__(port, chance)
        self.count, self.is_last_lost = count, is_last_lost

    def is_lost(self, end: str, datagram: bytes) -> Optional[bool]:
        last = self.handed()[self.count - 1:self.count]
        return self.is_last_lost if end == CLIENT and last and outside.acknowledges(datagram, last[0]) else None
