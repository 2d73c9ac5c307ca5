"""OSCORE (RFC 8613) as this harness reads it, over AES-CCM and HKDF of Python's `cryptography`: one AEAD algorithm,
AES-CCM-16-64-128, and HKDF with SHA-256. It is written from the RFC and from docs/DECISIONS.md, and shares nothing with the library
that it judges. What that library leaves out (options for proxies, and Observe and block-wise transfer unless a context allows them) is
refused here too."""

from __future__ import annotations

from dataclasses import dataclass
from typing import Optional, Tuple

from cryptography.exceptions import InvalidTag
from cryptography.hazmat.primitives.ciphers.aead import AESCCM
from cryptography.hazmat.primitives.hashes import SHA256
from cryptography.hazmat.primitives.kdf.hkdf import HKDF

import coap_reading
from coap_reading import Message, Options

URI_HOST, OBSERVE, URI_PORT, OSCORE, HOP_LIMIT, Q_BLOCK1, EDHOC, BLOCK2, BLOCK1, Q_BLOCK2 = 3, 6, 7, 9, 16, 19, 21, 23, 27, 31
PROXY_URI, PROXY_SCHEME = 35, 39
HOSTS = (URI_HOST, URI_PORT)
OUTSIDE = (*HOSTS, HOP_LIMIT, EDHOC)
"""Options of class U (RFC 8613, 4.1; RFC 8768, 3; RFC 9668, 3.1); those for proxies are refused. All others go inside, and inside alone:
class E, and by an own rule what may stand on both sides."""
BLOCKS = (Q_BLOCK1, BLOCK2, BLOCK1, Q_BLOCK2)
REFUSED = (OBSERVE, OSCORE, *BLOCKS, PROXY_URI, PROXY_SCHEME)
"""Options that a context refuses, but for those of BLOCKS if it allows blocks, and for Observe if it allows that."""
POST, FETCH, CHANGED, CONTENT = 0x02, 0x05, 0x44, 0x45
REQUEST_CODES, RESPONSE_CODES = (POST, FETCH), (CHANGED, CONTENT)
"""The codes outside, of a message without Observe and of one with it: 0.02 and 0.05, 2.04 and 2.05 (RFC 8613, 4.1.3.5 and 4.2)."""
MOST_OBSERVE = 3
"""The most bytes of Observe (RFC 7641, 2)."""
AES_CCM_16_64_128 = 10
KEY_LEN, NONCE_LEN, TAG_LEN, PARTIAL_IV_LEN = 16, 13, 8, 5
KID_FLAG, KID_CONTEXT_FLAG, PARTIAL_IV_LENGTH_MASK = 0x08, 0x10, 0x07


class Refused(Exception):
    """A refusal by the name that the library has for it, and its detail."""

    def __init__(self, status: str, detail: int = 0):
        super().__init__(status, detail)
        self.status, self.detail = status, detail


@dataclass(frozen=True)
class Context:
    """A context as one of its ends holds it (RFC 8613, 3.1). An ID Context that isn't there is None. Own rule: `blocks` and `observe`."""

    sender: bytes
    recipient: bytes
    id_context: Optional[bytes]
    sender_key: bytes
    recipient_key: bytes
    common_iv: bytes
    blocks: bool = False
    observe: bool = False

    def refused(self, may_observe: bool = True) -> Tuple[int, ...]:
        """A response may have Observe only if its request registers an observation (RFC 7641, 3.1); one that is sealed, only if its code is of
        class 2, too (RFC 7641, 4.2)."""
        allowed = (BLOCKS if self.blocks else ()) + ((OBSERVE,) if self.observe and may_observe else ())
        return tuple(number for number in REFUSED if number not in allowed)


@dataclass(frozen=True)
class Opened:
    """What an opened message says: code, options and payload from inside, the rest from outside."""

    kind: int
    code: int
    message_id: int
    token: bytes
    number: Optional[int]
    uri_host: Optional[bytes]
    uri_port: Optional[bytes]
    options: Options
    payload: bytes


# CBOR as the infos and the additional data need it (RFC 8949, 3.1): a head of the major type and a length or number below 2^16.
def head(major: int, value: int) -> bytes:
    if value < 24:
        return bytes([major << 5 | value])
    return bytes([major << 5 | 24, value]) if value < 256 else bytes([major << 5 | 25]) + value.to_bytes(2, "big")


def unsigned(value: int) -> bytes:
    return head(0, value)


def byte_string(value: bytes) -> bytes:
    return head(2, len(value)) + value


def text(value: str) -> bytes:
    return head(3, len(value)) + value.encode()


def array(*items: bytes) -> bytes:
    return head(4, len(items)) + b"".join(items)


NULL = b"\xf6"


def info_of(identifier: bytes, id_context: Optional[bytes], purpose: str, length: int) -> bytes:
    """The info of a key ("Key") or of the Common IV ("IV", of no identifier) (RFC 8613, 3.2.1)."""
    shown_context = NULL if id_context is None else byte_string(id_context)
    return array(byte_string(identifier), shown_context, unsigned(AES_CCM_16_64_128), text(purpose), unsigned(length))


def derive(secret: bytes, salt: bytes, id_context: Optional[bytes], sender: bytes, recipient: bytes) -> Context:
    """Both keys and the Common IV (RFC 8613, 3.2.1). An absent salt is the empty one."""

    def output(identifier: bytes, purpose: str, length: int) -> bytes:
        return HKDF(SHA256(), length, salt, info_of(identifier, id_context, purpose, length)).derive(secret)

    keys = output(sender, "Key", KEY_LEN), output(recipient, "Key", KEY_LEN)
    return Context(sender, recipient, id_context, *keys, output(b"", "IV", NONCE_LEN))


def partial_iv_of(number: int) -> bytes:
    """A number in its shortest bytes, high byte first, and 0 as one byte (RFC 8613, 5)."""
    return number.to_bytes(max(1, (number.bit_length() + 7) // 8), "big")


def nonce_of(common_iv: bytes, identifier: bytes, partial_iv: bytes) -> bytes:
    """Identifier and Partial IV are of whoever made the Partial IV (RFC 8613, 5.2)."""
    padded = bytes([len(identifier)]) + identifier.rjust(NONCE_LEN - 6, b"\0") + partial_iv.rjust(PARTIAL_IV_LEN, b"\0")
    return bytes(left ^ right for left, right in zip(padded, common_iv))


def additional_data_of(request_kid: bytes, request_piv: bytes) -> bytes:
    """Kid and Partial IV are those of the request, also for its response; no option is of class I (RFC 8613, 5.4)."""
    external = array(unsigned(1), array(unsigned(AES_CCM_16_64_128)), byte_string(request_kid), byte_string(request_piv), byte_string(b""))
    return array(text("Encrypt0"), byte_string(b""), byte_string(external))


def write_option(partial_iv: bytes, kid_context: Optional[bytes], kid: Optional[bytes]) -> bytes:
    """The value of the OSCORE option; it is empty where all flags are 0 (RFC 8613, 6.1)."""
    flags = len(partial_iv) | (KID_FLAG if kid is not None else 0) | (KID_CONTEXT_FLAG if kid_context is not None else 0)
    if flags == 0:
        return b""
    shown_context = b"" if kid_context is None else bytes([len(kid_context)]) + kid_context
    return bytes([flags]) + partial_iv + shown_context + (kid or b"")


def read_option(value: bytes) -> Tuple[bytes, Optional[bytes], Optional[bytes]]:
    """Partial IV, kid context and kid (RFC 8613, 6.1). Own rule: one spelling, so no written 00 and no leading zero."""
    if value == b"":
        return b"", None, None
    flags, rest = value[0], value[1:]
    length = flags & PARTIAL_IV_LENGTH_MASK
    partial_iv, rest = rest[:length], rest[length:]
    kid_context = None
    if flags & KID_CONTEXT_FLAG and rest:
        kid_context, rest = rest[1:1 + rest[0]], rest[1 + rest[0]:]
    kid = rest if flags & KID_FLAG else None
    leading_zero = length > 1 and partial_iv[:1] == b"\0"
    if length > PARTIAL_IV_LEN or leading_zero or flags == 0 or write_option(partial_iv, kid_context, kid) != value:
        raise Refused("Undecodable")
    return partial_iv, kid_context, kid


def seal(context: Context, nonce: bytes, additional_data: bytes, value: bytes, codes: Tuple[int, int], message: Message,
         may_observe: bool = True) -> bytes:
    """Parts a message into what goes inside and what stays outside (RFC 8613, 4.1 and 5.3), and protects the first. Observe goes to both
    sides: of a request with its value, of a response with its value outside and empty inside (RFC 8613, 4.1.3.5). An Observe that doesn't
    count is one of class E, as any option that isn't known (RFC 8613, 4.1)."""
    is_response = codes == RESPONSE_CODES
    refused = context.refused(may_observe and not (is_response and message.code >> 5 != 2))
    for number in sorted(number for number, _ in message.options):
        if number in refused:
            raise Refused("Unsupported", number)
    observe = observe_that_counts(message.options)
    inner = [(number, b"" if is_response and place == observe else said)
             for place, (number, said) in enumerate(message.options) if number not in OUTSIDE]
    outer = [option for place, option in enumerate(message.options) if option[0] in OUTSIDE or place == observe]
    code = codes[observe is not None]
    plaintext = bytes([message.code]) + coap_reading.write_rest(inner, message.payload)
    ciphertext = AESCCM(context.sender_key, TAG_LEN).encrypt(nonce, plaintext, additional_data)
    outer = sorted(outer + [(OSCORE, value)], key=lambda option: option[0])
    return coap_reading.write(Message(message.kind, code, message.message_id, message.token, tuple(outer), ciphertext))


def seal_request(context: Context, number: int, message: Message) -> bytes:
    """As a client (RFC 8613, 8.1). The kid context is there exactly where the context has an ID Context (own rule)."""
    partial_iv = partial_iv_of(number)
    nonce = nonce_of(context.common_iv, context.sender, partial_iv)
    additional_data = additional_data_of(context.sender, partial_iv)
    value = write_option(partial_iv, context.id_context, context.sender)
    return seal(context, nonce, additional_data, value, REQUEST_CODES, message)


def seal_response(context: Context, request: int, own: Optional[int], message: Message, registers: bool = False) -> bytes:
    """As a server, to the request of that number, which may register an observation: with a Partial IV of its own, or under the request's
    nonce (RFC 8613, 8.3 and 5.2)."""
    request_piv = partial_iv_of(request)
    nonce = nonce_of(context.common_iv, context.recipient, request_piv)
    value = b""
    if own is not None:
        own_piv = partial_iv_of(own)
        nonce = nonce_of(context.common_iv, context.sender, own_piv)
        value = write_option(own_piv, None, None)
    additional_data = additional_data_of(context.recipient, request_piv)
    return seal(context, nonce, additional_data, value, RESPONSE_CODES, message, registers)


def observe_that_counts(options: Options) -> Optional[int]:
    """Its place: the first Observe, if its length is valid. Another one is as if unknown (RFC 7252, 5.4.3 and 5.4.5)."""
    place = next((place for place, (number, _) in enumerate(options) if number == OBSERVE), None)
    return place if place is not None and len(options[place][1]) <= MOST_OBSERVE else None


def first(options: Options, number: int) -> Optional[bytes]:
    return next((value for found, value in options if found == number), None)


def oscore_value(message: Message) -> bytes:
    values = [value for number, value in message.options if number == OSCORE]
    if not values:
        raise Refused("NoOscore")
    for_proxies = any(number in (PROXY_URI, PROXY_SCHEME) for number, _ in message.options)
    if len(values) > 1 or not message.payload or for_proxies:
        raise Refused("Undecodable")
    return values[0]


def open_payload(context: Context, nonce: bytes, additional_data: bytes, number: Optional[int], message: Message,
                 may_observe: bool = True) -> Opened:
    try:
        plaintext = AESCCM(context.recipient_key, TAG_LEN).decrypt(nonce, message.payload, additional_data)
    except InvalidTag:
        raise Refused("Tag") from None
    options, payload = coap_reading.read_rest(plaintext[1:])
    if any(option in context.refused(may_observe) or option in OUTSIDE for option, _ in options):
        raise Refused("Inner")
    hosts = first(message.options, URI_HOST), first(message.options, URI_PORT)
    return Opened(message.kind, plaintext[0], message.message_id, message.token, number, *hosts, options, payload)


def open_request(context: Context, datagram: bytes) -> Opened:
    """As a server (RFC 8613, 8.2), but for whether the number is new."""
    message = coap_reading.read(datagram)
    partial_iv, kid_context, kid = read_option(oscore_value(message))
    if not partial_iv or kid is None:
        raise Refused("Undecodable")
    if (kid, kid_context) != (context.recipient, context.id_context):
        raise Refused("WrongContext")
    nonce = nonce_of(context.common_iv, kid, partial_iv)
    additional_data = additional_data_of(kid, partial_iv)
    return open_payload(context, nonce, additional_data, int.from_bytes(partial_iv, "big"), message)


def open_response(context: Context, request: int, datagram: bytes, registers: bool = False) -> Opened:
    """As a client (RFC 8613, 8.4); the request may register an observation. A kid or a kid context in a response is refused (own rule)."""
    message = coap_reading.read(datagram)
    partial_iv, kid_context, kid = read_option(oscore_value(message))
    if kid is not None or kid_context is not None:
        raise Refused("Undecodable")
    request_piv = partial_iv_of(request)
    nonce, own = nonce_of(context.common_iv, context.sender, request_piv), None
    if partial_iv:
        nonce, own = nonce_of(context.common_iv, context.recipient, partial_iv), int.from_bytes(partial_iv, "big")
    additional_data = additional_data_of(context.sender, request_piv)
    return open_payload(context, nonce, additional_data, own, message, registers)
