"""The command `oscore run --follow` as both ends over UDP: a program that lives as long as its end, and answers each line with one."""

from __future__ import annotations

import pathlib
import secrets
import select
import subprocess
import time
import weakref
from typing import List, Optional, Tuple

import coap_reading
from asker import Options, Response
from bench import GIVEN_UP_S, METHODS, Words, answer_code, mirrored
from coap_reading import ACK, CON, Message
from serving import Answer, Resource, UdpServer

OPTIONS_OF_A_CONTEXT = ("--secret", "--salt", "--id-context", "--sender", "--recipient")


def context_words(words: Words, is_client: bool) -> List[str]:
    own, their = (words.client, words.server) if is_client else (words.server, words.client)
    given = zip(OPTIONS_OF_A_CONTEXT, (words.secret, words.salt, words.id_context, own, their))
    return [word for option, value in given if value != "none" for word in (option, value.strip("-"))]


def options_of(word: str) -> Options:
    return [] if word == "-" else [(int(number), bytes_of(value)) for number, value in (part.split(":") for part in word.split(","))]


def bytes_of(word: str) -> bytes:
    return bytes.fromhex(word.strip("-"))


def code_of(name: str) -> int:
    return int(name[0]) << 5 | int(name[2:])


class Life:
    """One life of an end: a program that runs, and the events that it was told, with what they came to."""

    def __init__(self, program: str, words: List[str], numbers: Optional[pathlib.Path] = None):
        self.line = [program, "run", "--follow", *words] + (["--numbers", str(numbers)] if numbers else [])
        self.events, self.entries = [], []
        self.process = subprocess.Popen(self.line, stdin=subprocess.PIPE, stdout=subprocess.PIPE, stderr=subprocess.PIPE, bufsize=0)
        self.kill = weakref.finalize(self, stop, self.process)
        self.began = time.monotonic()

    def now(self) -> int:
        return int((time.monotonic() - self.began) * 1000)

    def fail(self, what: str) -> None:
        self.process.kill()
        raise SystemExit(f"oscore run: {what}: {self.process.stderr.read().decode()}")

    def happens(self, event: str) -> List[str]:
        """The words of the entry that an event comes to. It is printed while the program waits for its next line."""
        self.events.append(event)
        self.process.stdin.write(f"{event}\n".encode())
        if not select.select([self.process.stdout], [], [], GIVEN_UP_S)[0]:
            self.fail(f"no entry for {event} in {GIVEN_UP_S} s")
        entry = self.process.stdout.readline().decode()
        if not entry.endswith("\n"):
            self.fail(f"no entry for {event}, but {entry!r}")
        self.entries.append(entry[:-1])
        return entry[:-1].split(" ")

    def end(self) -> None:
        """Its input ends, and so does the program, with nothing more to say. Its file of numbers can then be the next one's."""
        self.process.stdin.close()
        try:
            status, more = self.process.wait(GIVEN_UP_S), self.process.stdout.read()
        except subprocess.TimeoutExpired:
            return self.fail("it doesn't end with its input")
        if status != 0 or more:
            self.fail(f"it ends with status {status} and {more!r}")


def stop(process: subprocess.Popen) -> None:
    process.kill()
    process.wait()
    for pipe in (process.stdin, process.stdout, process.stderr):
        pipe.close()


def mirror(request: Message) -> Message:
    """Says back what a request was, as mirror.c does."""
    method = METHODS[request.code - 1]
    payload = mirrored("CON" if request.kind == CON else "NON", method, len(request.token), request.payload)
    return Message(ACK, code_of(answer_code(method)), 0, b"", (), payload)


class Server(UdpServer):
    """A server whose requests a resource answers. Each second response has a Partial IV of its own."""

    REPLY_AT = {"challenge": 2, "replay": 1, "bad-tag": 1, "no-context": 1, "undecodable": 1}
    """Which word of an entry is the reply that goes back."""

    def __init__(self, life: Life, resource: Resource = mirror):
        super().__init__()
        self.life, self.resource, self.delivered = life, resource, []

    def __exit__(self, *_: object) -> None:
        super().__exit__()
        if self.failure is None:
            self.life.end()

    def answer(self, datagram: bytes) -> Answer:
        at = len(self.life.events)
        words = self.life.happens(f"take {self.life.now()} {secrets.token_hex(8)} {secrets.token_hex(2)} {datagram.hex()}")
        if words[0] != "deliver":
            place = self.REPLY_AT.get(words[0])
            return Answer(bytes.fromhex(words[place]) if place and len(words) > place else None, False)
        self.delivered.append(int(words[2]))
        code, options, payload = code_of(words[3]), tuple(options_of(words[4])), bytes_of(words[5])
        words = self.respond(at, coap_reading.read(datagram)._replace(code=code, options=options, payload=payload))
        return Answer(bytes.fromhex(words[1]) if words[0] == "replied" else None, True)

    def respond(self, at: int, request: Message) -> List[str]:
        """The entry of the response to what an event delivered."""
        own = "own" if len(self.delivered) % 2 else "shared"
        return self.life.happens(f"reply {at} {own} {secrets.token_hex(2)} {coap_reading.write(self.resource(request)).hex()}")


class Client:
    """A client as asker.py wants it: it seals and opens by events."""

    def __init__(self, life: Life):
        self.life = life

    def seal(self, message: Message) -> Tuple[int, bytes]:
        words = self.life.happens(f"request {self.life.now()} {coap_reading.write(message).hex()}")
        if words[0] != "sent":
            raise SystemExit(f"oscore run: {words}")
        return int(words[1]), bytes.fromhex(words[2])

    def open(self, number: int, datagram: bytes) -> Response:
        words = self.life.happens(f"take {self.life.now()} {datagram.hex()}")
        if words[0] != "deliver" or int(words[1]) != number:
            return Response(" ".join(words), b"", [], False)
        return Response(words[3], bytes_of(words[5]), options_of(words[4]), words[2] != "-")

    def end(self) -> None:
        self.life.end()
