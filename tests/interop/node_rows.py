"""Exchanges of the lock and the key of examples/, which stand on a node, with a peer's ends over 127.0.0.1, also over networks that lose and
double datagrams by chance, and hand them on in another order."""

from __future__ import annotations

import pathlib
import random
import subprocess
import time
from typing import Callable, List

from bench import GIVEN_UP_S, THE_LOCK, Bench, Words
from network import MOST_DELAY_S, Network, by_chance
from rows import Rows, did

WISHES = ("open", "shut") * 5
LOSSES, DOUBLED, SEED = (0, 10, 30), 20, 7
"""Of a hundred datagrams."""
MAX_TRANSMIT_WAIT_S, LATER_S = 93, 5
"""RFC 7252, 4.8.2, and what a slow machine needs besides."""
QUIET_S = 2 * MOST_DELAY_S
"""What is still on its way then has come: libcoap's client is another program for each command, which takes what comes for its own."""
MANY = 100_000


class NodeBench(Bench):
    """A record of these programs lies in three files."""

    def first(self, record: str) -> List[str]:
        return [] if (self.work / f"{record}.lock").exists() else ["first"]

    def began(self, record: str, words: Words) -> None:
        with self.lock(record, 0) as (lock, _):
            self.told(lock)


def is_part(some: List[str], of: List[str]) -> bool:
    """Whether all of these stand there in this order, each at a place of its own."""
    rest = iter(of)
    return all(one in rest for one in some)


class NodeRows(Rows):
    def network(self, port: int, lost: int) -> Network:
        ways = by_chance(random.Random(SEED), lost, DOUBLED)
        return Network(port, (ways, ways))

    def agrees(self, what: str, answered: List[str], obeyed: List[str], asked: List[str]) -> None:
        """What was answered was obeyed, and what was obeyed was asked for, each once."""
        self.check(f"{what}: whether each command that was answered was obeyed", True, is_part(answered, obeyed))
        self.check(f"{what}: whether each command was obeyed once at most", True, is_part(obeyed, asked))
        print(f"{what}: {len(asked)} commands, {len(obeyed)} obeyed, {len(answered)} answered", flush=True)

    def answered_by(self, client) -> List[str]:
        """The commands that a client of the peer's had a success for."""
        answered = []
        for wish in WISHES:
            if client.ask("CON", "put", "lock", wish.encode(), 2)[0][0] == "2":
                answered.append(wish)
            time.sleep(QUIET_S)
        return answered

    def client_over_losses(self) -> None:
        for lost in LOSSES:
            what = f"{self.peer.name}'s client to the lock where {lost} of a hundred datagrams are lost"
            with self.bench.lock(f"lock.{self.peer.name}.lost.{lost}", MANY) as (lock, port), self.network(port, lost) as network, \
                    self.peer.client("lock", THE_LOCK, network.port) as client:
                answered = self.answered_by(client)
                lock.kill()
                said = did([*lock.communicate(timeout=GIVEN_UP_S)[0].splitlines(), ""])
            self.agrees(what, answered, [line.split()[1] for line in said if line in ("Done: open", "Done: shut")], list(WISHES))

    def key_over_losses(self) -> None:
        for lost in LOSSES:
            what = f"the key to {self.peer.name}'s server where {lost} of a hundred datagrams are lost"
            answered = []
            with self.peer.server("lock", THE_LOCK, True) as (port, end), self.network(port, lost) as network:
                self.bench.key(port, "shut")
                for wish in WISHES:
                    begun = time.monotonic()
                    status, _ = self.bench.key(network.port, wish)
                    answered += [wish] if status == 0 else []
                    self.check(f"{what}: whether it ends in time", True, time.monotonic() - begun < MAX_TRANSMIT_WAIT_S + LATER_S)
                time.sleep(QUIET_S)
                obeyed = self.peer.obeyed(end)
            # libcoap's server doesn't say that it obeyed the first command, which made the resource.
            self.agrees(what, answered, obeyed, ["shut", *WISHES])

    def peers_over_losses(self) -> None:
        """For comparison: the peer's client and its server, where as much is lost."""
        for lost in LOSSES:
            with self.peer.server("lock", THE_LOCK) as (port, _), self.network(port, lost) as network, \
                    self.peer.client("lock", THE_LOCK, network.port) as client:
                answered = self.answered_by(client)
            print(f"{self.peer.name}'s client to its server where {lost} of a hundred datagrams are lost: {len(WISHES)} commands, "
                  f"{len(answered)} answered", flush=True)

    def steps(self) -> List[Callable[[], None]]:
        return [self.client_to_lock, self.key_to_server, self.client_over_networks, self.key_over_networks, self.client_over_losses,
                self.key_over_losses, self.peers_over_losses]
