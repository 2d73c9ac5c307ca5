"""A client over UDP that sends and gets bodies in blocks (RFC 7959, 2.4, 2.5 and 2.9)."""

from __future__ import annotations

from typing import List, NamedTuple, Optional, Set

import blocks
import coap_reading
from asker import Asker, Response
from blocks import BLOCK1, BLOCK2, ETAG, GET, PUT, SIZE1, Block, Piece, option_of, uint

CONTINUE, CONTENT = "2.31", "2.05"


class Part(NamedTuple):
    """What a response says of one block: a Block1 of what was sent, or a Block2 of what came."""

    code: str
    block: Optional[Block]
    length: int


def block_in(response: Response, number: int) -> Optional[Block]:
    value = option_of(response.options, number)
    return None if value is None else blocks.read(value)


class Got(NamedTuple):
    """A body as its parts came, and its ETags, of which there is one as long as the body stays the same."""

    parts: List[Part]
    body: bytes
    etags: Set[Optional[bytes]]


class BodyAsker(Asker):
    def __init__(self, *words, **named):
        super().__init__(*words, **named)
        self.outside: Set[int] = set()

    def receive(self, token: bytes) -> bytes:
        datagram = super().receive(token)
        self.outside |= {number for number, _ in coap_reading.read(datagram).options}
        return datagram

    def put_piece(self, path: str, piece: Piece, length: int) -> Response:
        """The first block of a body says how long that is (RFC 7959, 4)."""
        block, payload = piece
        more = [(BLOCK1, blocks.write(block))] + ([] if block.number else [(SIZE1, uint(length))])
        return self.response_to("CON", PUT, path, payload, more=more)

    def put(self, path: str, body: bytes, size: int) -> List[Part]:
        """Each block once the one before it was taken."""
        parts = []
        for piece in blocks.cut(body, size):
            response = self.put_piece(path, piece, len(body))
            parts.append(Part(response.code, block_in(response, BLOCK1), len(piece[1])))
            if response.code != CONTINUE:
                break
        return parts

    def get(self, path: str, size: int) -> Got:
        """Each block once the one before it came, which has to begin where that one ended. Where the server wants smaller ones, they are
        so from the next one on."""
        got, more = Got([], b"", set()), True
        while more:
            wish = Block(len(got.body) // size, False, size)
            response = self.response_to("CON", GET, path, b"", more=[(BLOCK2, blocks.write(wish))])
            block = block_in(response, BLOCK2)
            got.parts.append(Part(response.code, block, len(response.payload)))
            if response.code != CONTENT or block is None or block.start != len(got.body):
                return got
            got.etags.add(option_of(response.options, ETAG))
            got, size, more = got._replace(body=got.body + response.payload), min(size, block.size), block.more
        return got
