"""Servers over UDP on 127.0.0.1, each in a thread of its own, and a resource that takes and gives bodies in blocks."""

from __future__ import annotations

import secrets
import socket
import subprocess
import threading
import time
from typing import Callable, Dict, List, NamedTuple, Optional, Tuple

import blocks
import coap_reading
from bench import Words
from blocks import BLOCK1, BLOCK2, ETAG, GET, POST, PUT, SIZE1, SIZE2, Block, Joined, option_of, uint
from coap_reading import ACK, CON, Message, Options
from library import Library, answer_of, shown

CONTENT, CHANGED, CONTINUE, BAD_REQUEST, NOT_ALLOWED, INCOMPLETE = 0x45, 0x44, 0x5F, 0x80, 0x85, 0x88
Resource = Callable[[Message], Message]
"""What a request gets, of which code, options and payload are used."""


class Answer(NamedTuple):
    reply: Optional[bytes]
    was_delivered: bool


class UdpServer:
    """What `answer` says to a datagram goes back to its sender. A request that was delivered and comes again gets the same reply if it is a
    CON, and nothing if it is a NON (RFC 7252, 4.5)."""

    def __init__(self) -> None:
        self.datagrams: List[bytes] = []
        self.kept: Dict[Tuple[object, bytes], Optional[bytes]] = {}
        self.udp = socket.socket(socket.AF_INET, socket.SOCK_DGRAM)
        self.udp.bind(("127.0.0.1", 0))
        self.udp.settimeout(0.05)
        self.port, self.is_over, self.failure = self.udp.getsockname()[1], threading.Event(), None
        self.thread = threading.Thread(target=self.run, daemon=True)

    def __enter__(self):
        self.thread.start()
        return self

    def __exit__(self, *_: object) -> None:
        self.is_over.set()
        self.thread.join()
        self.udp.close()

    def answer(self, datagram: bytes) -> Answer:
        raise NotImplementedError

    def reply_to(self, sender: object, datagram: bytes) -> Optional[bytes]:
        if (sender, datagram) in self.kept:
            return self.kept[sender, datagram]
        reply, was_delivered = self.answer(datagram)
        if was_delivered:
            self.kept[sender, datagram] = reply if coap_reading.read(datagram).kind == CON else None
        return reply

    def run(self) -> None:
        while not self.is_over.is_set():
            try:
                datagram, sender = self.udp.recvfrom(2000)
            except TimeoutError:
                continue
            self.datagrams.append(datagram)
            try:
                reply = self.reply_to(sender, datagram)
            except (SystemExit, subprocess.TimeoutExpired) as failure:
                self.failure = str(failure)
                return
            if reply:
                self.udp.sendto(reply, sender)


class CallsServer(UdpServer):
    """By the C library's calls on a peer, through the program calls.c. Each second response has a Partial IV of its own."""

    SLOT = 0

    def __init__(self, program: str, words: Words, allows_blocks: bool, resource: Resource, was_restarted: bool = False):
        super().__init__()
        self.library, self.resource, self.statuses = Library(program), resource, []
        ends = f"{words.secret} {words.salt} {words.id_context} {words.server} {words.client}"
        self.library.ask([f"derive {self.SLOT} 0 {int(allows_blocks)} 0 {ends}", f"serve {self.SLOT} {int(was_restarted)}"])

    def __exit__(self, *_: object) -> None:
        super().__exit__()
        self.library.end()

    def answer(self, datagram: bytes) -> Answer:
        line = f"take {int(time.monotonic() * 1000)} {secrets.randbelow(1 << 16)} {shown(datagram)}"
        taken = answer_of(self.library.ask([line])[0])
        self.statuses.append(taken.status)
        if taken.opened is None:
            return Answer(taken.datagram or None, False)
        opened = taken.opened
        plain = self.resource(Message(opened.kind, opened.code, opened.message_id, opened.token, opened.options, opened.payload))
        line = f"reply {len(self.statuses) % 2} {secrets.randbelow(1 << 16)} {shown(coap_reading.write(plain))}"
        return Answer(answer_of(self.library.ask([line])[0]).datagram, True)


def response(code: int, options: Options = (), payload: bytes = b"") -> Message:
    """Its code, options and payload; the end that seals it adds the rest."""
    return Message(ACK, code, 0, b"", tuple(options), payload)


class Came(NamedTuple):
    """What stood in a request: its block, the length of its payload, and how long it says that the body is."""

    block: Optional[Block]
    length: int
    body_length: Optional[int]


class Bodies:
    """A resource whose body PUT sets and GET reads, both in blocks of a size or less (RFC 7959, 2.3 to 2.5, 2.9 and 4). POST sets it too,
    and says it back from its end (2.7)."""

    def __init__(self, body: bytes = b"", most_size: int = blocks.MOST_SIZE) -> None:
        self.body, self.most_size, self.etag, self.joined, self.came = body, most_size, 1, Joined(), []

    def __call__(self, request: Message) -> Message:
        return {PUT: self.put, GET: self.get, POST: self.post}.get(request.code, lambda _: response(NOT_ALLOWED))(request)

    def note(self, request: Message, number: int) -> Optional[Block]:
        """The block that a request says by this option."""
        value, size1 = option_of(request.options, number), option_of(request.options, SIZE1)
        block = None if value is None else blocks.read(value)
        self.came.append(Came(block, len(request.payload), None if size1 is None else int.from_bytes(size1, "big")))
        return block

    def take(self, request: Message) -> Tuple[int, Options]:
        """2.31 while more blocks follow, and 4.08 for a block that doesn't go where the one before it ended. The block is named once more,
        with the size that is wanted from now on."""
        said = self.note(request, BLOCK1)
        block = said or Block(0, False, blocks.MOST_SIZE)
        named = ((BLOCK1, blocks.write(said._replace(size=min(said.size, self.most_size)))),) if said else ()
        if not self.joined.takes((block, request.payload), blocks.operation_of(request.code, request.options)):
            return INCOMPLETE, named
        if block.more:
            return CONTINUE, named
        self.body, self.etag = self.joined.body, self.etag + 1
        return CHANGED, named

    def give(self, code: int, body: bytes, asked: Block, more: Options = ()) -> Message:
        """A block of a body, where it has such a one."""
        size = min(asked.size, self.most_size)
        block, payload = blocks.piece_of(body, asked.start // size, size)
        if block.number > 0 and not payload:
            return response(BAD_REQUEST)
        return response(code, [*more, (ETAG, uint(self.etag)), (BLOCK2, blocks.write(block)), (SIZE2, uint(len(body)))], payload)

    def put(self, request: Message) -> Message:
        return response(*self.take(request))

    def get(self, request: Message) -> Message:
        """In blocks where they are asked for, and where the body has more than one."""
        asked = self.note(request, BLOCK2)
        if asked is None and len(self.body) <= self.most_size:
            return response(CONTENT, [(ETAG, uint(self.etag))], self.body)
        return self.give(CONTENT, self.body, asked or Block(0, False, self.most_size))

    def post(self, request: Message) -> Message:
        """What is said back begins with the answer to the last block, in blocks of that one's size."""
        if option_of(request.options, BLOCK1) is None:
            return self.give(CHANGED, self.body[::-1], self.note(request, BLOCK2) or Block(0, False, self.most_size))
        code, named = self.take(request)
        if code != CHANGED:
            return response(code, named)
        return self.give(code, self.body[::-1], blocks.read(named[0][1])._replace(number=0), named)
