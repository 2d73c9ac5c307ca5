"""Contexts and messages at random, the same for a seed."""

from __future__ import annotations

import random
from dataclasses import replace
from typing import Iterator, List, NamedTuple, Optional, Tuple

import oscore_reading
from coap_reading import ACK, CON, NON, Message
from oscore_reading import BLOCKS, OBSERVE, Context

MESSAGES_OF_A_CONTEXT = 8
OPTIONS = (1, 3, 4, 5, 7, 8, 11, 12, 14, 15, 16, 17, 20, 21, 28, 60, 252, 258, 292)
"""The options of RFC 8613, 4.1, with Hop-Limit (RFC 8768), EDHOC (RFC 9668), Echo and Request-Tag (RFC 9175), but for those that are
refused by each context or by some."""
MOST_NUMBER = 2**40 - 1


class Pair(NamedTuple):
    """What a context is derived from, and the context at both ends."""

    secret: bytes
    salt: bytes
    client: Context
    server: Context


class Trial(NamedTuple):
    """One message, and under which number it is sealed. A response has the request's number, and its own or None."""

    is_request: bool
    number: int
    own: Optional[int]
    message: Message


def bytes_up_to(chance: random.Random, most: int, least: int = 0) -> bytes:
    return chance.randbytes(chance.randint(least, most))


def make_pair(chance: random.Random) -> Pair:
    secret, salt = bytes_up_to(chance, 64, 1), bytes_up_to(chance, 64)
    id_context = bytes_up_to(chance, 32, 1) if chance.random() < 0.5 else None
    sender = recipient = bytes_up_to(chance, 7)
    while recipient == sender:
        recipient = bytes_up_to(chance, 7)
    blocks, observe = chance.random() < 0.5, chance.random() < 0.5
    ends = [oscore_reading.derive(secret, salt, id_context, *names) for names in ((sender, recipient), (recipient, sender))]
    return Pair(secret, salt, *(replace(end, blocks=blocks, observe=observe) for end in ends))


def make_number(chance: random.Random) -> int:
    """A number of each length as often, and the edges of the lengths in bytes."""
    edge = 1 << 8 * chance.randint(0, 5)
    return chance.choice((edge - 1, edge % (MOST_NUMBER + 1))) if chance.random() < 0.1 else chance.getrandbits(chance.randint(1, 40))


def make_length(chance: random.Random) -> int:
    """The length of a value: mostly below 13, and past the edges where its spelling changes (RFC 7252, 3.1)."""
    return chance.choice((chance.randint(0, 12), chance.randint(0, 12), chance.randint(0, 20), chance.choice((13, 268, 269, 300))))


def make_options(chance: random.Random, context: Context, is_request: bool) -> List[Tuple[int, bytes]]:
    """Half of the requests that may have Observe have it: once or more, of each length that it may have and of others."""
    options, known = [], OPTIONS + (BLOCKS if context.blocks else ())
    for _ in range(chance.randint(0, 6)):
        number = chance.choice(known) if chance.random() < 0.8 else chance.getrandbits(chance.randint(1, 16))
        if number not in context.refused(is_request) and number != OBSERVE:
            options += [(number, chance.randbytes(make_length(chance))) for _ in range(chance.choice((1, 1, 2, 3)))]
    if is_request and context.observe and chance.random() < 0.5:
        options += [(OBSERVE, bytes_up_to(chance, 4) if chance.random() < 0.8 else chance.randbytes(269)) for _ in range(chance.choice((1, 1, 2, 3)))]
    return sorted(options, key=lambda option: option[0])


def make_trial(chance: random.Random, context: Context) -> Trial:
    is_request = chance.random() < 0.5
    code = chance.choice((*range(1, 8), chance.randint(1, 31))) if is_request else chance.choice((2, 4, 5)) << 5 | chance.randint(0, 31)
    kind = chance.choice((CON, NON) if is_request else (CON, NON, ACK))
    payload = b"" if chance.random() < 0.2 else chance.randbytes(chance.choice((chance.randint(1, 64), chance.randint(1, 1200))))
    message = Message(kind, code, chance.getrandbits(16), bytes_up_to(chance, 8), tuple(make_options(chance, context, is_request)), payload)
    own = None if is_request or chance.random() < 0.5 else make_number(chance)
    return Trial(is_request, make_number(chance), own, message)


def trials(seed: int, count: int) -> Iterator[Tuple[Pair, List[Trial]]]:
    """So many messages, by contexts."""
    chance = random.Random(seed)
    while count > 0:
        pair = make_pair(chance)
        yield pair, [make_trial(chance, pair.client) for _ in range(min(count, MESSAGES_OF_A_CONTEXT))]
        count -= MESSAGES_OF_A_CONTEXT
