"""Judges what the two ends of a context seal, by oscore_reading.py, which shares nothing with them: each text opens, and no two have one
nonce."""

from __future__ import annotations

from collections import defaultdict
from dataclasses import replace
from typing import Dict, List, Set, Tuple

import coap_reading
import oscore_reading
from bench import Words
from coap_reading import Message
from oscore_reading import OBSERVE, OSCORE, Context, Opened, Refused


class Found(Exception):
    """What must not be."""


def wants(what: str, wanted: object, came: object) -> None:
    if wanted != came:
        raise Found(f"{what}: {came!r} in place of {wanted!r}")


def context_of(words: Words, own: str, other: str) -> Context:
    """As an end has it that is called so. It takes part in Observe."""
    secret, salt, own_id, other_id = (bytes.fromhex(word.strip("-")) for word in (words.secret, words.salt, own, other))
    id_context = None if words.id_context == "none" else bytes.fromhex(words.id_context)
    return replace(oscore_reading.derive(secret, salt, id_context, own_id, other_id), observe=True)


class Judge:
    def __init__(self, words: Words):
        self.of_server, self.of_client = context_of(words, words.server, words.client), context_of(words, words.client, words.server)
        self.nonces: Set[Tuple[str, str]] = set()

    def uses(self, end: str, nonce: str) -> None:
        wants(f"whether the {end} used the nonce of {nonce} before", False, (end, nonce) in self.nonces)
        self.nonces.add((end, nonce))

    def request(self, datagram: bytes) -> Opened:
        """What a text says that the client seals."""
        opened = oscore_reading.open_request(self.of_server, datagram)
        self.uses("client", f"its number {opened.number}")
        return opened

    def response(self, request: int, datagram: bytes, registers: bool) -> Opened:
        """What a text says that the server seals, for the request of a number."""
        opened = oscore_reading.open_response(self.of_client, request, datagram, registers)
        self.uses("server", f"request {request}" if opened.number is None else f"its number {opened.number}")
        return opened


class Overheard(Judge):
    """Judges by what goes over a relay. A text may come as often as it was sent again."""

    def __init__(self, words: Words):
        super().__init__(words)
        self.texts: Set[Tuple[str, bytes]] = set()
        self.asked: Dict[bytes, List[Tuple[int, bool]]] = defaultdict(list)
        """By their token the numbers of requests, and whether each registers an observation."""

    def is_new(self, end: str, message: Message) -> bool:
        """Whether it is protected, and its text wasn't there yet."""
        text = (end, message.payload)
        is_new = oscore_reading.first(message.options, OSCORE) is not None and text not in self.texts
        self.texts |= {text} if is_new else set()
        return is_new

    def hears(self, of_client: List[bytes], of_server: List[bytes]) -> None:
        """All that both said, in which a response is for one of the requests of its token, whenever that came."""
        for datagram in of_client:
            message = coap_reading.read(datagram)
            if self.is_new("client", message):
                opened = self.request(datagram)
                self.asked[message.token].append((opened.number, oscore_reading.first(opened.options, OBSERVE) == b""))
        for datagram in of_server:
            message = coap_reading.read(datagram)
            if self.is_new("server", message):
                self.answers(message.token, datagram)

    def answers(self, token: bytes, datagram: bytes) -> None:
        for number, registers in reversed(self.asked[token]):
            try:
                self.response(number, datagram, registers)
                return
            except Refused as refused:
                if refused.status != "Tag":
                    raise Found(f"a response to request {number} is refused: {refused}") from None
        raise Found(f"a response opens for none of the requests {self.asked[token]}: {datagram.hex()}")
