"""What RFC 8613 prints in its Appendix C, beside what this harness's reading makes of the same."""

from __future__ import annotations

from typing import Iterator, NamedTuple, Tuple

import coap_reading
import oscore_reading
from oscore_reading import Context, Opened

Row = Tuple[str, object, object]
"""The name of a value, what is printed, and what the reading gives."""
SECRET = bytes.fromhex("0102030405060708090a0b0c0d0e0f10")
NUMBER = 20
"""Of each request."""


class Derivation(NamedTuple):
    section: str
    salt: str
    id_context: str
    client: str
    server: str
    client_info: str
    server_info: str
    common_iv_info: str
    client_key: str
    server_key: str
    common_iv: str


class Request(NamedTuple):
    section: str
    derivation: int
    plain: str
    additional_data: str
    nonce: str
    option: str
    sealed: str


class Response(NamedTuple):
    section: str
    has_own: bool
    nonce: str
    option: str
    sealed: str


DERIVATIONS = (
    Derivation("C.1", "9e7ca92223786340", "", "", "01", "8540f60a634b657910", "854101f60a634b657910", "8540f60a6249560d",
               "f0910ed7295e6ad4b54fc793154302ff", "ffb14e093c94c9cac9471648b4f98710", "4622d4dd6d944168eefb54987c"),
    Derivation("C.2", "", "", "00", "01", "854100f60a634b657910", "854101f60a634b657910", "8540f60a6249560d",
               "321b26943253c7ffb6003b0b64d74041", "e57b5635815177cd679ab4bcec9d7dda", "be35ae297d2dace910c52e99f9"),
    Derivation("C.3", "9e7ca92223786340", "37cbf3210017a2d3", "", "01", "85404837cbf3210017a2d30a634b657910",
               "8541014837cbf3210017a2d30a634b657910", "85404837cbf3210017a2d30a6249560d",
               "af2a1300a5e95788b356336eeecd2b92", "e39a0c7c77b43f03b4b39ab9a268699f", "2ca58fb85ff1b81c0b7181b85e"),
)
REQUESTS = (
    Request("C.4", 0, "44015d1f00003974396c6f63616c686f737483747631", "8368456e63727970743040488501810a40411440",
            "4622d4dd6d944168eefb549868", "0914", "44025d1f00003974396c6f63616c686f7374620914ff612f1092f1776f1c1668b3825e"),
    Request("C.5", 1, "440171c30000b932396c6f63616c686f737483747631", "8368456e63727970743040498501810a4100411440",
            "bf35ae297d2dace910c52e99ed", "091400", "440271c30000b932396c6f63616c686f737463091400ff4ed339a5a379b0b8bc731fffb0"),
    Request("C.6", 2, "44012f8eef9bbf7a396c6f63616c686f737483747631", "8368456e63727970743040488501810a40411440",
            "2ca58fb85ff1b81c0b7181b84a", "19140837cbf3210017a2d3",
            "44022f8eef9bbf7a396c6f63616c686f73746b19140837cbf3210017a2d3ff72cd7273fd331ac45cffbe55c3"),
)
ANSWER = "64455d1f00003974ff48656c6c6f20576f726c6421"
"""The plain response of C.7 and C.8, to C.4. The Partial IV of C.8 is 0."""
RESPONSES = (
    Response("C.7", False, "4622d4dd6d944168eefb549868", "", "64445d1f0000397490ffdbaad1e9a7e7b2a813d3c31524378303cdafae119106"),
    Response("C.8", True, "4722d4dd6d944169eefb54987c", "0100",
             "64445d1f00003974920100ff4d4c13669384b67354b2b6175ff4b8658c666a6cf88e"),
)


def both_ends(row: Derivation) -> Tuple[Context, Context]:
    salt, client, server = (bytes.fromhex(word) for word in (row.salt, row.client, row.server))
    id_context = bytes.fromhex(row.id_context) or None
    return tuple(oscore_reading.derive(SECRET, salt, id_context, *ends) for ends in ((client, server), (server, client)))


def derivation_rows(row: Derivation) -> Iterator[Row]:
    client, server = both_ends(row)
    for name, printed, identifier, purpose, length in (("Sender Key", row.client_info, client.sender, "Key", 16),
                                                       ("Recipient Key", row.server_info, client.recipient, "Key", 16),
                                                       ("Common IV", row.common_iv_info, b"", "IV", 13)):
        info = oscore_reading.info_of(identifier, client.id_context, purpose, length)
        yield f"{row.section}: the info of the {name}", printed, info.hex()
    keys = row.client_key, row.server_key
    for name, printed, came in (("client", keys, client), ("server", keys[::-1], server)):
        yield f"{row.section}: the Sender Key of the {name}", printed[0], came.sender_key.hex()
        yield f"{row.section}: the Recipient Key of the {name}", printed[1], came.recipient_key.hex()
        yield f"{row.section}: the Common IV of the {name}", row.common_iv, came.common_iv.hex()


def opened_of(plain: str, number: object) -> Opened:
    """What the printed plain message says, with the number that is seen."""
    message = coap_reading.read(bytes.fromhex(plain))
    inner = tuple(option for option in message.options if option[0] != oscore_reading.URI_HOST)
    host = oscore_reading.first(message.options, oscore_reading.URI_HOST)
    return Opened(message.kind, message.code, message.message_id, message.token, number, host, None, inner, message.payload)


def request_rows(row: Request) -> Iterator[Row]:
    client, server = both_ends(DERIVATIONS[row.derivation])
    partial_iv, plain = oscore_reading.partial_iv_of(NUMBER), coap_reading.read(bytes.fromhex(row.plain))
    yield f"{row.section}: the AAD", row.additional_data, oscore_reading.additional_data_of(client.sender, partial_iv).hex()
    yield f"{row.section}: the nonce", row.nonce, oscore_reading.nonce_of(client.common_iv, client.sender, partial_iv).hex()
    yield f"{row.section}: the option", row.option, oscore_reading.write_option(partial_iv, client.id_context, client.sender).hex()
    yield f"{row.section}: the plain message, written again", row.plain, coap_reading.write(plain).hex()
    yield f"{row.section}: the protected message", row.sealed, oscore_reading.seal_request(client, NUMBER, plain).hex()
    yield f"{row.section}: opened", *opened(row.plain, NUMBER, lambda: oscore_reading.open_request(server, bytes.fromhex(row.sealed)))


def opened(plain: str, number: object, call) -> Tuple[object, object]:
    try:
        return opened_of(plain, number), call()
    except oscore_reading.Refused as refused:
        return opened_of(plain, number), refused.status


def response_rows(row: Response) -> Iterator[Row]:
    client, server = both_ends(DERIVATIONS[0])
    own = 0 if row.has_own else None
    maker, partial_iv = (server.sender, b"\0") if row.has_own else (client.sender, oscore_reading.partial_iv_of(NUMBER))
    plain = coap_reading.read(bytes.fromhex(ANSWER))
    yield f"{row.section}: the nonce", row.nonce, oscore_reading.nonce_of(server.common_iv, maker, partial_iv).hex()
    yield f"{row.section}: the option", row.option, oscore_reading.write_option(partial_iv if row.has_own else b"", None, None).hex()
    yield f"{row.section}: the protected message", row.sealed, oscore_reading.seal_response(server, NUMBER, own, plain).hex()
    yield f"{row.section}: opened", *opened(ANSWER, own, lambda: oscore_reading.open_response(client, NUMBER, bytes.fromhex(row.sealed)))


def rows() -> Iterator[Row]:
    for derivation in DERIVATIONS:
        yield from derivation_rows(derivation)
    for request in REQUESTS:
        yield from request_rows(request)
    for response in RESPONSES:
        yield from response_rows(response)
