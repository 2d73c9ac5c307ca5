"""A client over UDP, which asks a server one request at a time (RFC 7252, 4.2, 4.3 and 5.2): by calls of the C library, or by another end
that seals and opens."""

from __future__ import annotations

import socket
from typing import List, NamedTuple, Optional, Tuple

import coap_reading
from bench import GIVEN_UP_S, Words
from coap_reading import ACK, CON, NON, Message
from library import CIPHERS, CLIENT, Library, answer_of, shown

URI_PATH, CONTENT_FORMAT, ECHO = 11, 12, 252
TEXT = (CONTENT_FORMAT, b"")
"""Text, whose number is 0, without which a FETCH is refused (RFC 8132, 2.3.1)."""
EMPTY, UNAUTHORIZED = 0, "4.01"
KINDS = {"CON": CON, "NON": NON}
Options = List[Tuple[int, bytes]]


def code_name(code: int) -> str:
    return f"{code >> 5}.{code & 31:02}"


class Response(NamedTuple):
    code: str
    payload: bytes
    options: Options
    has_own: bool


class Calls:
    """Seals and opens by the C library, in constant time and by tables by turns, under one count of numbers."""

    def __init__(self, program: str, words: Words, number: int = 0, allows_blocks: bool = False):
        self.library, self.number = Library(program), number
        ends = f"{int(allows_blocks)} 0 {words.secret} {words.salt} {words.id_context} {words.client} {words.server}"
        self.library.ask([f"derive {CLIENT + cipher} {cipher} {ends}" for cipher in range(len(CIPHERS))])

    def answer_to(self, line: str):
        return answer_of(self.library.ask([line])[0])

    def seal_under(self, number: int, message: Message) -> bytes:
        sealed = self.answer_to(f"seal-request {CLIENT + number % len(CIPHERS)} {number} {shown(coap_reading.write(message))}")
        if sealed.status != "Done":
            raise SystemExit(f"a request isn't sealed: {sealed.status} {sealed.detail}")
        return sealed.datagram

    def seal(self, message: Message) -> Tuple[int, bytes]:
        """Under the next number, which is answered too."""
        self.number += 1
        return self.number - 1, self.seal_under(self.number - 1, message)

    def open(self, number: int, datagram: bytes) -> Optional[Response]:
        """The response to the request of a number; a refusal's code is its name."""
        answer = self.answer_to(f"open-response {CLIENT + number % len(CIPHERS)} {number} {shown(datagram)}")
        if answer.opened is None:
            message = coap_reading.read(datagram)
            return Response(f"{answer.status} of a {code_name(message.code)}", message.payload, [], False)
        opened = answer.opened
        return Response(code_name(opened.code), opened.payload, list(opened.options), opened.number is not None)

    def end(self) -> None:
        self.library.end()


class Asker:
    def __init__(self, end, port: int, given_up_s: float = GIVEN_UP_S):
        self.end, self.message_id, self.sent = end, 0, b""
        self.challenges = self.own_numbers = self.separate = 0
        self.udp = socket.socket(socket.AF_INET, socket.SOCK_DGRAM)
        self.udp.settimeout(given_up_s)
        self.udp.connect(("127.0.0.1", port))

    def __enter__(self) -> "Asker":
        return self

    def __exit__(self, *_: object) -> None:
        self.udp.close()
        self.end.end()

    def receive(self, token: bytes) -> bytes:
        """The first message with this token, acknowledged where it is confirmable. An empty ACK says that one comes later."""
        acknowledged = False
        while True:
            datagram = self.udp.recv(2000)
            message = coap_reading.read(datagram)
            if message.kind == CON:
                self.udp.send(coap_reading.write(Message(ACK, EMPTY, message.message_id, b"", (), b"")))
            acknowledged |= message.code == EMPTY
            if message.code != EMPTY and message.token == token:
                self.separate += acknowledged
                return datagram

    def request(self, kind: str, code: int, token_len: int, options: Options, payload: bytes) -> Message:
        """A message ID and a token that weren't there before."""
        self.message_id += 1
        token = self.message_id.to_bytes(8, "big")[8 - token_len:]
        return Message(KINDS[kind], code, self.message_id, token, tuple(options), payload)

    def exchange(self, message: Message) -> Response:
        number, self.sent = self.end.seal(message)
        self.udp.send(self.sent)
        response = self.end.open(number, self.receive(message.token))
        self.own_numbers += response.has_own
        return response

    def ask(self, kind: str, code: int, path: str, payload: bytes, token_len: int = 5) -> Tuple[str, bytes]:
        """The code and the payload of the response, or a refusal."""
        response = self.response_to(kind, code, path, payload, token_len)
        return response.code, response.payload

    def response_to(self, kind: str, code: int, path: str, payload: bytes, token_len: int = 5, more: Options = ()) -> Response:
        """It asks again where the server wants its Echo value."""
        options = [(URI_PATH, path.encode())] + ([TEXT] if payload else []) + list(more)
        response = self.exchange(self.request(kind, code, token_len, options, payload))
        echoes = [value for option, value in response.options if option == ECHO]
        if response.code == UNAUTHORIZED and echoes:
            self.challenges += 1
            response = self.exchange(self.request(kind, code, token_len, options + [(ECHO, echoes[0])], payload))
        return response
