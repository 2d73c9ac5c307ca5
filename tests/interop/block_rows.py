"""Bodies in blocks inside the protection (RFC 7959; RFC 8613, 4.1.3.4.1): a peer's client to a resource of ours, and a client of ours to
the peer's server. All contexts of ours allow blocks here. Which blocks a body has, and what each is answered, is what RFC 7959 says."""

from __future__ import annotations

import contextlib
import itertools
from typing import Callable, Iterator, List, Sequence, Tuple

import blocks
import coap_reading
import command
from asker import Calls
from bench import CONTEXTS, KINDS, Words
from blocks import MOST_SIZE, Block
from body_asker import BodyAsker, Part
from command import Life, context_words
from network import Network
from oscore_reading import HOSTS, OSCORE
from rows import Rows
from serving import Bodies, CallsServer

LENGTHS = (1100, 10000)
SMALLER = 64
"""What an end asks for that is offered the largest size."""
NETWORKS = ("the request is lost", "the reply is lost", "each datagram comes twice", "the request is late", "the reply is late")
PLACES_OUTSIDE = {OSCORE, *HOSTS}
"""The OSCORE option, Uri-Host and Uri-Port."""
Expected = List[Tuple[Block, int]]
"""Blocks, and the lengths of their payloads."""


def expected(body: bytes, size: int) -> Expected:
    return [(block, len(payload)) for block, payload in blocks.cut(body, size)]


def smaller_from_second(body: bytes) -> Expected:
    """Smaller blocks are counted from the body's beginning too (RFC 7959, 2.5)."""
    return expected(body, MOST_SIZE)[:1] + expected(body, SMALLER)[MOST_SIZE // SMALLER:]


def asked(body: bytes, size: int) -> List[Block]:
    """What a client asks for has no more (RFC 7959, 2.3)."""
    return [block._replace(more=False) for block, _ in expected(body, size)]


def from_difference(wanted: Sequence, came: Sequence) -> Tuple[Tuple[int, Sequence], Tuple[int, Sequence]]:
    """Both from where they differ, so that what is printed shows it."""
    same = sum(1 for _ in itertools.takewhile(lambda pair: pair[0] == pair[1], zip(wanted, came)))
    return (same, wanted[same:]), (same, came[same:])


class BlockRows(Rows):
    """By the C library, which CommandBlockRows changes."""

    most_blocks = 1000
    """No body has more."""

    def sizes_of(self, length: int) -> List[int]:
        return [size for size in blocks.SIZES if length <= size * self.most_blocks]

    def longest_in(self, size: int) -> bytes:
        """The longest body that is moved in blocks of a size."""
        return self.bench.letters(max(length for length in LENGTHS if size in self.sizes_of(length)))

    def our_server(self, words: Words, bodies: Bodies, was_restarted: bool = False):
        return CallsServer(str(self.bench.ours / "calls"), words, True, bodies, was_restarted)

    def body_asker(self, words: Words, port: int) -> BodyAsker:
        return BodyAsker(Calls(str(self.bench.ours / "calls"), words, 0, True), port)

    def check_list(self, what: str, wanted: Sequence, came: Sequence) -> None:
        self.check(what, *from_difference(wanted, came))

    def puts(self, client, server, kind: str, size: int, body: bytes, wanted: Expected, where: str = "") -> None:
        what = f"{self.peer.name}'s client sends {len(body)} bytes by {kind} in blocks of {size}{where}"
        self.check(what, self.shown("2.04", b""), client.ask(kind, "put", "body", body, 4, str(size)))
        seen = server.resource.came
        self.check_list(f"{what}: the blocks", wanted, [(came.block, came.length) for came in seen])
        self.check_list(f"{what}: the body", body, server.resource.body)
        self.check(f"{what}: how long it says that the body is", [len(body)], [came.body_length for came in seen[:1]])
        self.look_at(what, server, len(wanted))

    def gets(self, client, server, kind: str, size: int, wanted: List[Block], where: str = "") -> None:
        body = server.resource.body
        what = f"{self.peer.name}'s client gets {len(body)} bytes by {kind} in blocks of {size}{where}"
        self.check(what, self.shown("2.05", body), client.ask(kind, "get", "body", b"", 4, str(size)))
        self.check_list(f"{what}: what it asked for", wanted, [came.block for came in server.resource.came])
        self.look_at(what, server, len(wanted))

    def look_at(self, what: str, server, block_count: int) -> None:
        """Each block was delivered once, and nothing of blocks stands outside."""
        self.check(f"{what}: what failed", None, server.failure)
        answered = [came for came in server.statuses if came != "Challenge"]
        self.check_list(f"{what}: what the calls answered", ["Done"] * block_count, answered)
        numbers = {number for datagram in server.datagrams for number, _ in coap_reading.read(datagram).options}
        self.check(f"{what}: what stands outside beside {PLACES_OUTSIDE}", set(), numbers - PLACES_OUTSIDE)

    def moves(self, at: int, kinds: Sequence[str]) -> Iterator[Tuple[int, int, str]]:
        """Lengths, sizes and kinds: the longer body under the first context alone."""
        for length in LENGTHS if at == 0 else LENGTHS[:1]:
            for size, kind in itertools.product(self.sizes_of(length), kinds):
                yield length, size, kind

    @contextlib.contextmanager
    def over_network(self, how: str, bodies: Bodies) -> Iterator[Tuple[object, object]]:
        with self.our_server(CONTEXTS[0], bodies) as server, Network(server.port, how) as network, \
                self.peer.client("blocks0", CONTEXTS[0], network.port) as client:
            yield client, server

    @contextlib.contextmanager
    def both(self, at: int, bodies: Bodies, was_restarted: bool = False) -> Iterator[Tuple[object, object]]:
        """The peer's client under a context, and our server of it."""
        with self.our_server(CONTEXTS[at], bodies, was_restarted) as server, \
                self.peer.client(f"blocks{at}", CONTEXTS[at], server.port) as client:
            yield client, server

    def client_to_bodies(self) -> None:
        for at in range(len(CONTEXTS)):
            for length, size, kind in self.moves(at, KINDS):
                body, sent_size = self.bench.letters(length), min(size, self.peer.most_block(at))
                with self.both(at, Bodies()) as (client, server):
                    self.puts(client, server, kind, size, body, expected(body, sent_size))
                with self.both(at, Bodies(body)) as (client, server):
                    self.gets(client, server, kind, size, asked(body, size))

    def client_gets_what_it_sent(self) -> None:
        """A body in Block1 whose answer is in Block2: what is left of that is asked for without a Block1 (RFC 7959, 2.7)."""
        body = self.bench.letters(LENGTHS[0])
        for size in self.sizes_of(len(body)):
            what = f"{self.peer.name}'s client sends {len(body)} bytes in blocks of {size}, and gets as many"
            with self.both(0, Bodies()) as (client, server):
                self.check(what, self.shown("2.04", body[::-1]), client.ask("CON", "post", "body", body, 4, str(size)))
                wanted = expected(body, size) + [(block, 0) for block in asked(body, size)[1:]]
                self.check_list(f"{what}: the blocks", wanted, [(came.block, came.length) for came in server.resource.came])
                self.look_at(what, server, len(wanted))

    def client_is_challenged(self) -> None:
        """A server that was restarted asks for an Echo value, which the first block alone may bring back."""
        body = self.bench.letters(LENGTHS[-1])
        for size in self.sizes_of(len(body)):
            with self.both(0, Bodies(), True) as (client, server):
                self.puts(client, server, "CON", size, body, expected(body, size))
            self.check(f"how often {self.peer.name}'s client that sends was asked for an Echo value", 1, server.statuses.count("Challenge"))
            with self.both(0, Bodies(body), True) as (client, server):
                self.gets(client, server, "CON", size, asked(body, size))
            self.check(f"how often {self.peer.name}'s client that gets was asked for an Echo value", 1, server.statuses.count("Challenge"))

    def client_takes_smaller(self) -> None:
        """A server may ask for smaller blocks than it is offered (RFC 7959, 2.4 and 2.5)."""
        body = self.longest_in(SMALLER)
        with self.both(0, Bodies(b"", SMALLER)) as (client, server):
            self.puts(client, server, "CON", MOST_SIZE, body, smaller_from_second(body))
        with self.both(0, Bodies(body, SMALLER)) as (client, server):
            self.gets(client, server, "CON", MOST_SIZE, [Block(0, False, MOST_SIZE)] + asked(body, SMALLER)[1:])

    def sends(self, asker: BodyAsker, size: int, body: bytes, last: str) -> None:
        """2.31 to all blocks but the last one, which gets the answer to the whole; each is named once more (RFC 7959, 2.3 and 2.5)."""
        wanted = [Part("2.31" if block.more else last, block, length) for block, length in expected(body, size)]
        came = asker.put(self.peer.body_path, body, size)
        self.check_list(f"{len(body)} bytes to {self.peer.name}'s server in blocks of {size}", wanted, came)

    def fetches(self, asker: BodyAsker, size: int, body: bytes, wanted: Expected) -> None:
        what = f"{len(body)} bytes from {self.peer.name}'s server in blocks of {size}"
        got = asker.get(self.peer.body_path, size)
        self.check_list(what, [Part("2.05", *piece) for piece in wanted], got.parts)
        self.check_list(f"{what}: the body", body, got.body)
        self.check(f"{what}: how many ETags", 1, len(got.etags - {None}))
        self.check(f"{what}: what stands outside beside {PLACES_OUTSIDE}", set(), asker.outside - PLACES_OUTSIDE)

    def bodies_to_server(self) -> None:
        for at, words in enumerate(CONTEXTS):
            with self.peer.server(f"blocks{at}", words) as (port, _), self.body_asker(words, port) as asker:
                last = self.peer.first_put
                for length, size, _ in self.moves(at, ("CON",)):
                    body = self.bench.letters(length)
                    self.sends(asker, size, body, last)
                    self.fetches(asker, size, body, expected(body, size))
                    last = "2.04"

    def server_wants_smaller(self) -> None:
        """Where a peer's server can be told to."""
        if not self.peer.can_be_told:
            return
        body = self.longest_in(SMALLER)
        with self.peer.server("smaller", CONTEXTS[0], most_block=SMALLER) as (port, _), self.body_asker(CONTEXTS[0], port) as asker:
            self.sends(asker, SMALLER, body, self.peer.first_put)
            self.fetches(asker, MOST_SIZE, body, expected(body, SMALLER))

    def client_over_networks(self) -> None:
        """Each block is taken once, whatever becomes of the first one's datagrams, or of all."""
        body, size = self.bench.letters(LENGTHS[0]), SMALLER
        for how in (how for how in NETWORKS if how not in self.peer.blocks_otherwise):
            with self.over_network(how, Bodies()) as (client, server):
                self.puts(client, server, "CON", size, body, expected(body, size), f" where {how}")
            with self.over_network(how, Bodies(body)) as (client, server):
                self.gets(client, server, "CON", size, asked(body, size), f" where {how}")

    def client_gives_up(self) -> None:
        """Where a peer's client ends early. What it shows of a body that it gets is the first block."""
        body, size = self.bench.letters(LENGTHS[0]), SMALLER
        for how, shown in self.peer.blocks_otherwise.items():
            with self.over_network(how, Bodies()) as (client, server):
                came = client.ask("CON", "put", "body", body, 4, str(size))
                self.check(f"{self.peer.name}'s client sends blocks where {how}", ((shown, b""), b""), (came, server.resource.body))
            with self.over_network(how, Bodies(body)) as (client, _):
                came = client.ask("CON", "get", "body", b"", 4, str(size))
                self.check(f"{self.peer.name}'s client gets blocks where {how}", self.shown("2.05", body[:size]), came)

    def client_begins_late(self) -> None:
        """A body that lacks its first blocks is 4.08, and nothing is kept of it (RFC 7959, 2.9.2); where a peer's client can be told to."""
        if not self.peer.can_be_told:
            return
        with self.both(0, Bodies()) as (client, server):
            came = client.ask("CON", "put", "body", self.bench.letters(LENGTHS[-1]), 4, f"2,{SMALLER}")
            self.check(f"{self.peer.name}'s client sends a body from block 2 on", (("4.08", b""), b""), (came, server.resource.body))

    def block_orders_at_server(self) -> None:
        """What a peer's server answers to blocks of a body of four, in an order that isn't theirs."""
        body = self.bench.letters(4 * SMALLER)
        pieces = blocks.cut(body, SMALLER)
        for order, wanted in self.peer.block_orders.items():
            with self.peer.server(f"blocks {order}", CONTEXTS[0]) as (port, _), self.body_asker(CONTEXTS[0], port) as asker:
                came = [asker.put_piece(self.peer.body_path, pieces[int(number)], len(body)).code for number in order.split()]
            self.check(f"{self.peer.name}'s server gets the blocks {order}", wanted, " ".join(came))

    def steps(self) -> List[Callable[[], None]]:
        return [self.client_to_bodies, self.client_gets_what_it_sent, self.client_is_challenged, self.client_takes_smaller,
                self.client_over_networks, self.client_gives_up, self.client_begins_late, self.bodies_to_server, self.server_wants_smaller,
                self.block_orders_at_server]


class CommandBodies(command.Server):
    """What it came to by the names of the C library."""

    NAMES = {"deliver": "Done", "challenge": "Challenge"}

    @property
    def statuses(self) -> List[str]:
        taken = [entry.split()[0] for event, entry in zip(self.life.events, self.life.entries) if event.startswith("take ")]
        return [self.NAMES.get(name, name) for name in taken]


class CommandBlockRows(BlockRows):
    """By `oscore run --allow blocks`."""

    def __init__(self, bench, peer, program: str):
        super().__init__(bench, peer)
        self.program = program

    def life(self, words: Words, role: str, *more: str) -> Life:
        return Life(self.program, ["--role", role, *context_words(words, role == "client"), "--allow", "blocks", *more])

    def our_server(self, words: Words, bodies: Bodies, was_restarted: bool = False):
        return CommandBodies(self.life(words, "server", *(["--restarted"] if was_restarted else [])), bodies)

    def body_asker(self, words: Words, port: int) -> BodyAsker:
        return BodyAsker(command.Client(self.life(words, "client")), port)
