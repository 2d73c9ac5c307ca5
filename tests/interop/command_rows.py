"""Exchanges of `oscore run`, as both ends, with a peer's: the rows of rows.py over contexts, methods, kinds, payloads and tokens; and three
lives over one file of numbers, in each of which what was overheard before is sent again."""

from __future__ import annotations

import socket
from typing import Callable, List

import command
from asker import Asker
from bench import CONTEXTS, METHODS, Bench, answer_code, mirrored
from command import Life, context_words
from rows import Rows

LIVES, WAITED_S = 3, 5
FIRST_OF_A_LIFE = 64
"""So many numbers are reserved at a time."""


class CommandRows(Rows):
    def __init__(self, bench: Bench, peer, program: str):
        super().__init__(bench, peer)
        self.program = program

    def server_life(self, at: int, *more: str) -> Life:
        return Life(self.program, ["--role", "server", *context_words(CONTEXTS[at], False), *more])

    def kept_life(self, role: str) -> Life:
        """Under the second context, over a file that the lives of this role share."""
        file = self.bench.work / f"{self.peer.name}.{role}.numbers"
        return Life(self.program, ["--role", role, *context_words(CONTEXTS[1], role == "client")], file)

    def client_to_command(self) -> None:
        for at, words in enumerate(CONTEXTS):
            with command.Server(self.server_life(at)) as server, self.peer.client(f"command{at}", words, server.port) as client:
                self.mirror_rows(client, at)
            self.check("what the command's server failed at", None, server.failure)
            self.check("the numbers that it delivered, each once", sorted(set(server.delivered)), sorted(server.delivered))

    def command_to_server(self) -> None:
        for at, words in enumerate(CONTEXTS):
            life = Life(self.program, ["--role", "client", *context_words(words, True)])
            with self.peer.server(f"command{at}", words) as (port, _), Asker(command.Client(life), port) as asker:
                self.server_rows(asker, at)

    def say_again(self, port: int, datagrams: List[bytes]) -> None:
        """Sends each datagram once more, as somebody who overheard it, and waits for what comes back."""
        for datagram in datagrams:
            with socket.socket(socket.AF_INET, socket.SOCK_DGRAM) as udp:
                udp.settimeout(WAITED_S)
                udp.sendto(datagram, ("127.0.0.1", port))
                self.check("an old datagram gets an answer that delivers nothing", True, len(udp.recv(2000)) > 0)

    def ask_command(self, client, method: str, payload: bytes, what: str) -> None:
        """libcoap's client takes a token of its own where it brings an Echo value, so the token isn't compared."""
        code, said = client.ask("CON", method, "mirror", payload, 3)
        wanted = mirrored("CON", method, 3, payload)
        self.check(what, (*self.shown(answer_code(method), wanted[:8]), wanted[16:]), (code, said[:8], said[16:]))

    def lives_of_server(self) -> None:
        """In each life but the first a client is asked for an Echo value (RFC 8613, B.1.2)."""
        overheard: List[bytes] = []
        for at in range(LIVES):
            life = self.kept_life("server")
            with command.Server(life) as server, self.peer.client("kept", CONTEXTS[1], server.port) as client:
                self.say_again(server.port, overheard)
                self.ask_command(client, "put", b"open", f"{self.peer.name}'s client to the command in life {at}")
                self.say_again(server.port, list(dict.fromkeys(server.datagrams)))
                self.ask_command(client, "get", b"", f"the same behind what was said again in life {at}")
            overheard = list(dict.fromkeys(overheard + server.datagrams))
            entries = [entry.split()[0] for entry in life.entries]
            self.check(f"what the command failed at in life {at}", None, server.failure)
            self.check(f"how often something was delivered in life {at}", 2, entries.count("deliver"))
            self.check(f"whether an Echo value was asked for in life {at}", at > 0, "challenge" in entries)

    def lives_of_client(self) -> None:
        """Each life begins above what was reserved, and an old response opens for nobody."""
        old: List[bytes] = []
        for at in range(LIVES):
            life = self.kept_life("client")
            with self.peer.server("kept", CONTEXTS[1]) as (port, _), Asker(command.Client(life), port) as asker:
                for datagram in old:
                    entry = life.happens(f"take {life.now()} {datagram.hex()}")
                    self.check(f"an old response in life {at}", "unknown-token", entry[0])
                method, path, sent, wanted = self.peer.server_rows(b"kept")[0]
                came = asker.ask("CON", METHODS.index(method) + 1, path, sent, 8)
                self.check(f"the command to {self.peer.name}'s server in life {at}", wanted, came)
            sent_numbers = [int(entry.split()[1]) for entry in life.entries if entry.startswith("sent ")]
            self.check(f"the first number of life {at}", at * FIRST_OF_A_LIFE, sent_numbers[0])
            old += [bytes.fromhex(event.split()[2]) for event in life.events if event.startswith("take ")]

    def steps(self) -> List[Callable[[], None]]:
        return [self.client_to_command, self.command_to_server, self.lives_of_server, self.lives_of_client]
