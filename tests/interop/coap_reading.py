"""Messages of CoAP (RFC 7252, 3) as this harness reads and writes them. An option is a pair of its number and its value."""

from __future__ import annotations

from typing import Iterable, NamedTuple, Tuple

Options = Tuple[Tuple[int, bytes], ...]

CON, NON, ACK = 0, 1, 2
PAYLOAD_MARKER = 0xFF


class Malformed(Exception):
    """The bytes are no message."""


class Message(NamedTuple):
    kind: int
    code: int
    message_id: int
    token: bytes
    options: Options
    payload: bytes


def extended(part: int) -> Tuple[int, bytes]:
    """The nibble of a delta or a length, and the bytes that it takes more (RFC 7252, 3.1)."""
    if part < 13:
        return part, b""
    if part < 269:
        return 13, bytes([part - 13])
    return 14, (part - 269).to_bytes(2, "big")


def write_rest(options: Iterable[Tuple[int, bytes]], payload: bytes) -> bytes:
    """Options in ascending order of their numbers, those of one number as they came, and behind them the payload."""
    written = bytearray()
    before = 0
    for number, value in sorted(options, key=lambda option: option[0]):
        delta, more_delta = extended(number - before)
        length, more_length = extended(len(value))
        written += bytes([delta << 4 | length]) + more_delta + more_length + value
        before = number
    if payload:
        written += bytes([PAYLOAD_MARKER]) + payload
    return bytes(written)


def take(rest: bytes, length: int) -> Tuple[bytes, bytes]:
    if len(rest) < length:
        raise Malformed("it ends too early")
    return rest[:length], rest[length:]


def read_part(nibble: int, rest: bytes) -> Tuple[int, bytes]:
    if nibble == 15:
        raise Malformed("a nibble 15")
    more, rest = take(rest, {13: 1, 14: 2}.get(nibble, 0))
    return {13: 13, 14: 269}.get(nibble, nibble) + int.from_bytes(more, "big"), rest


def read_rest(rest: bytes) -> Tuple[Options, bytes]:
    options = []
    number = 0
    while rest and rest[0] != PAYLOAD_MARKER:
        head, rest = rest[0], rest[1:]
        delta, rest = read_part(head >> 4, rest)
        length, rest = read_part(head & 15, rest)
        value, rest = take(rest, length)
        number += delta
        options.append((number, value))
    if rest == bytes([PAYLOAD_MARKER]):
        raise Malformed("a payload marker, and no payload")
    return tuple(options), rest[1:]


def write(message: Message) -> bytes:
    """Version 1, kind, length of the token, code, message ID, token, and the rest."""
    head = bytes([1 << 6 | message.kind << 4 | len(message.token), message.code]) + message.message_id.to_bytes(2, "big")
    return head + message.token + write_rest(message.options, message.payload)


def read(datagram: bytes) -> Message:
    head, rest = take(datagram, 4)
    if head[0] >> 6 != 1 or head[0] & 15 > 8:
        raise Malformed("another version, or a token of more than 8 bytes")
    token, rest = take(rest, head[0] & 15)
    options, payload = read_rest(rest)
    return Message(head[0] >> 4 & 3, head[1], int.from_bytes(head[2:], "big"), token, options, payload)
