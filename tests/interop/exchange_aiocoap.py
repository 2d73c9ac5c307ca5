"""exchange.c by aiocoap's module of OSCORE.

    exchange_aiocoap.py LENGTH ROUNDS"""

from __future__ import annotations

import sys
import time

import oscore_reading
from aiocoap_peer import SecurityContext, aiocoap
from appendix_c import REQUESTS, RESPONSES, SECRET
from chance import Pair

FIRST_NUMBER, TAG_AND_CODE = 20, 9
SALT = bytes.fromhex("9e7ca92223786340")
PLAIN_REQUEST = b"\x54" + bytes.fromhex(REQUESTS[0].plain)[1:]
PLAIN_RESPONSE = bytes.fromhex("54455d1f00003974")


def sealed(end: SecurityContext, plain: bytes, request=None):
    message = aiocoap.Message.decode(plain)
    outer, identifiers = end.protect(message, request)
    outer.mtype, outer.mid, outer.token = message.mtype, message.mid, message.token
    return outer.encode(), identifiers


def opened(end: SecurityContext, datagram: bytes, request=None):
    return end.unprotect(aiocoap.Message.decode(datagram), request)


def main(length: int, rounds: int) -> None:
    ends = [oscore_reading.derive(SECRET, SALT, None, own, their) for own, their in ((b"", b"\1"), (b"\1", b""))]
    client, server = (SecurityContext(Pair(SECRET, SALT, *ends), end) for end in ends)
    client.begin(FIRST_NUMBER)
    server.begin(0)
    plain_response = PLAIN_RESPONSE + (b"\xff" + (b"Hello World!" * 171)[:length] if length else b"")
    began = time.monotonic_ns()
    for left in range(rounds):
        request, asked = sealed(client, PLAIN_REQUEST)
        _, taken = opened(server, request)
        response, _ = sealed(server, plain_response, taken)
        message, _ = opened(client, response, asked)
        if left == 0 and (request[1:] != bytes.fromhex(REQUESTS[0].sealed)[1:]
                          or (length == 12 and response[1:] != bytes.fromhex(RESPONSES[0].sealed)[1:]) or len(message.payload) != length):
            raise SystemExit("the exchange isn't that of RFC 8613, C.4 and C.7")
    print((time.monotonic_ns() - began) / rounds)


if __name__ == "__main__":
    main(int(sys.argv[1]), int(sys.argv[2]))
