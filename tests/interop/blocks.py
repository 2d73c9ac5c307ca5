"""Bodies in blocks (RFC 7959), as this harness cuts and joins them. It shares nothing with osc_blocks."""

from __future__ import annotations

from typing import Iterable, List, NamedTuple, Optional, Tuple

from bench import METHODS

GET, POST, PUT = (METHODS.index(method) + 1 for method in ("get", "post", "put"))
ETAG, BLOCK2, BLOCK1, SIZE2, SIZE1 = 4, 23, 27, 28, 60
SIZES = (16, 64, 1024)
"""Some of the seven sizes, the smallest and the largest among them."""
MOST_SIZE = 1024
RESERVED_SIZE = 7


def option_of(options: Iterable[Tuple[int, bytes]], number: int) -> Optional[bytes]:
    """The first option of a number."""
    return next((value for found, value in options if found == number), None)


class Block(NamedTuple):
    """What a Block1 or a Block2 says (RFC 7959, 2.2)."""

    number: int
    more: bool
    size: int

    @property
    def start(self) -> int:
        return self.number * self.size


Piece = Tuple[Block, bytes]
"""A block, and the payload beside it."""


def read(value: bytes) -> Optional[Block]:
    """None for a value of more than three bytes, or of the size that is reserved."""
    whole = int.from_bytes(value, "big")
    if len(value) > 3 or whole & 7 == RESERVED_SIZE:
        return None
    return Block(whole >> 4, whole & 8 != 0, 16 << (whole & 7))


def uint(value: int) -> bytes:
    """A number in its shortest bytes, and 0 in none (RFC 7252, 3.2)."""
    return value.to_bytes((value.bit_length() + 7) // 8, "big")


def write(block: Block) -> bytes:
    return uint(block.number << 4 | block.more << 3 | (block.size.bit_length() - 5))


def piece_of(body: bytes, number: int, size: int) -> Piece:
    """A block of a body: it is full where more follow, and the last one has what is left."""
    start = number * size
    return Block(number, start + size < len(body), size), body[start:start + size]


def cut(body: bytes, size: int) -> List[Piece]:
    """All blocks of a body, in order."""
    return [piece_of(body, number, size) for number in range(max(1, -(-len(body) // size)))]


def operation_of(code: int, options: Iterable[Tuple[int, bytes]]) -> Tuple:
    """What has to be the same in all blocks of a body that is sent: the code, and all options but those of blocks and the elective
    ones of class NoCacheKey, among them Size1 and Echo (RFC 9175, 3.1 and 3.3; RFC 7252, 5.4.6)."""
    return code, tuple(option for option in options if option[0] not in (BLOCK1, BLOCK2) and option[0] & 0x1F != 0x1C)


class Joined:
    """A body as its blocks come: block 0 begins it anew, and each other one goes where the one before it ended, in the same operation
    (RFC 7959, 2.5)."""

    def __init__(self) -> None:
        self.body, self.operation = b"", None

    def takes(self, piece: Piece, operation: Tuple) -> bool:
        block, payload = piece
        if block.number == 0:
            self.body, self.operation = b"", operation
        is_full = len(payload) == block.size if block.more else len(payload) <= block.size
        if block.start != len(self.body) or operation != self.operation or not is_full:
            return False
        self.body += payload
        return True
