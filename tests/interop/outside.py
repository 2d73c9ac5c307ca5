"""What a stranger sees of an observation: what stands outside the protection (RFC 8613, 4.1.3.5 and 4.2; RFC 7641, 2)."""

from __future__ import annotations

from typing import FrozenSet, Iterable, List, NamedTuple, Optional

import coap_reading
import oscore_reading
from asker import EMPTY, code_name
from coap_reading import ACK
from oscore_reading import OBSERVE, OSCORE


class Outside(NamedTuple):
    code: str
    observe: Optional[int]
    number: Optional[int]
    """The Partial IV."""
    others: FrozenSet[int]
    """The options beside Observe and OSCORE, those that are there twice, and OSCORE where it isn't there."""


def number_of(value: Optional[bytes]) -> Optional[int]:
    return None if value is None else int.from_bytes(value, "big")


def see(datagram: bytes) -> Outside:
    message = coap_reading.read(datagram)
    numbers = [number for number, _ in message.options]
    partial_iv, _, _ = oscore_reading.read_option(oscore_reading.first(message.options, OSCORE) or b"")
    others = {number for number in {*numbers, OSCORE} if numbers.count(number) != (1 if number in (OSCORE, OBSERVE) else 0)}
    return Outside(code_name(message.code), number_of(oscore_reading.first(message.options, OBSERVE)), number_of(partial_iv or None),
                   frozenset(others))


def see_all(datagrams: Iterable[bytes]) -> List[Outside]:
    """Each message that isn't empty, once."""
    return [see(datagram) for datagram in dict.fromkeys(datagrams) if coap_reading.read(datagram).code != EMPTY]


def notifies(datagram: bytes) -> bool:
    return oscore_reading.first(coap_reading.read(datagram).options, OBSERVE) is not None


def acknowledges(said: bytes, datagram: bytes) -> bool:
    """Whether that is an empty ACK of this."""
    return said[:2] == bytes([0x40 | ACK << 4, EMPTY]) and said[2:] == datagram[2:4]


def grows(numbers: List[Optional[int]]) -> bool:
    """Each is there, and above the one before."""
    return None not in numbers and all(before < behind for before, behind in zip(numbers, numbers[1:]))
