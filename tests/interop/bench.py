"""What the exchanges over UDP share: the contexts, the count of what was looked at, our programs as servers on 127.0.0.1, and what a peer's
observer shows. Each program that waits is given up after some seconds, so that nothing rests on how fast they are."""

from __future__ import annotations

import contextlib
import hmac
import pathlib
import random
import socket
import struct
import subprocess
import threading
import time
import zlib
from typing import Callable, Iterator, List, NamedTuple, Sequence, Tuple

import oscore_reading

GIVEN_UP_S = 20
METHODS = ("get", "post", "put", "delete", "fetch", "patch", "ipatch")
"""The codes 0.01 to 0.07."""
WITHOUT_PAYLOAD = ("get", "delete")
KINDS = ("CON", "NON")
PAYLOAD_LENGTHS, SPLIT_LENGTH = (0, 1, 12, 13, 255, 600, 1024), 1100
"""What is longer than 1,024 bytes both peers send in parts, by Block1 or Block2, which a context refuses unless it allows blocks."""
MOST_TOKEN = 8
MOST_SHOWN, MOST_FAILURES = 200, 12
PING = b"\x40\0\0\1"


class Words(NamedTuple):
    """What a context is derived from, in hex; no salt is "-", no byte too, and no ID Context "none"."""

    secret: str
    salt: str
    id_context: str
    client: str
    server: str


def name_of_server(words: Words) -> int:
    """The name that a peer which serves under these has in its record: the first eight bytes of a code of its Recipient Key and its Common IV
    under its Sender Key, high byte first (crates/osc_peer_handle/specs/RecordBytes.antt)."""
    secret, salt, server, client = (bytes.fromhex(word.strip("-")) for word in (words.secret, words.salt, words.server, words.client))
    id_context = None if words.id_context == "none" else bytes.fromhex(words.id_context)
    context = oscore_reading.derive(secret, salt, id_context, server, client)
    code = hmac.digest(context.sender_key, context.recipient_key + context.common_iv, "sha256")
    return int.from_bytes(code[:8], "big")


THE_LOCK = Words((b"a secret for a try" + b"\0").hex(), "-", "none", "02", "01")
"""As bindings/c/examples/lock.c has it."""
CONTEXTS = (
    Words("0102030405060708090a0b0c0d0e0f10", "-", "none", "02", "01"),
    Words("102132435465768798a9bacbdcedfe0f", "9e7ca92223786340", "37cbf3210017a2d3", "01020304050607", "a1"),
    Words("f1" * 64, "-", "00", "-", "00010203040506"),
    Words("0f", "5a" * 64, "e0" * 32, "ff00", "-"),
)
"""Secrets of 1 to 64 bytes, salts of 0, 8 and 64, ID Contexts of none, 8, 1 and 32, identifiers of 0 to 7."""


def mirrored(kind: str, method: str, token_len: int, payload: bytes) -> bytes:
    """What mirror.c says to a request."""
    return f"{kind} 0.{METHODS.index(method) + 1:02} token {token_len} ".encode() + payload


def answer_code(method: str) -> str:
    return {"get": "2.05", "fetch": "2.05", "delete": "2.02"}.get(method, "2.04")


def free_port() -> int:
    with socket.socket(socket.AF_INET, socket.SOCK_DGRAM) as free:
        free.bind(("127.0.0.1", 0))
        return free.getsockname()[1]


def wait_for(port: int, process: subprocess.Popen) -> None:
    """Until a server answers a ping there, an empty CON, by its RST (RFC 7252, 4.3)."""
    until = time.monotonic() + GIVEN_UP_S
    with socket.socket(socket.AF_INET, socket.SOCK_DGRAM) as ours:
        ours.settimeout(0.2)
        ours.connect(("127.0.0.1", port))
        while time.monotonic() < until and process.poll() is None:
            try:
                ours.send(PING)
                ours.recv(100)
                return
            except OSError:
                time.sleep(0.05)
    raise SystemExit(f"{process.args[0]} doesn't listen")


@contextlib.contextmanager
def ended(process: subprocess.Popen) -> Iterator[subprocess.Popen]:
    """A program that is ended, whatever becomes of the rest."""
    try:
        yield process
    finally:
        process.kill()
        process.wait()


@contextlib.contextmanager
def given_up(process: subprocess.Popen, given_up_s: float = GIVEN_UP_S) -> Iterator[None]:
    """A program that is read from, and is killed where that takes too long."""
    timer = threading.Timer(given_up_s, process.kill)
    timer.start()
    try:
        yield
    finally:
        timer.cancel()


def line_of(process: subprocess.Popen, given_up_s: float = GIVEN_UP_S) -> str:
    """The next line that a program prints, "" where it has ended."""
    with given_up(process, given_up_s):
        return process.stdout.readline().strip()


class Observer:
    """A client of a peer's that observes. Its lines are the payload of each success, the code of any other response, or "failed" and how;
    `spell` makes that of a line in other words."""

    def __init__(self, process: subprocess.Popen, spell: Callable[[str], str] = str):
        self.process, self.spell = process, spell

    def heard(self) -> str:
        return self.spell(line_of(self.process))

    def rest(self) -> List[str]:
        """What it shows until it ends."""
        with given_up(self.process):
            return [self.spell(line) for line in self.process.stdout.read().splitlines() if line]


class TooMany(Exception):
    """So many answers are otherwise that the rest isn't waited for."""


class Bench:
    """Our programs lock, key, mirror and calls, in one folder, and what was seen of them."""

    def __init__(self, ours: str, work: pathlib.Path):
        self.ours, self.work = pathlib.Path(ours), work
        self.chance = random.Random(7)
        self.looked = self.failures = self.token_len = 0

    def check(self, what: str, wanted: object, came: object) -> None:
        self.looked += 1
        if wanted != came:
            self.failures += 1
            print(f"{what}\n    wanted: {str(wanted)[:MOST_SHOWN]}\n    came:   {str(came)[:MOST_SHOWN]}", flush=True)
            if self.failures == MOST_FAILURES:
                raise TooMany

    def letters(self, length: int) -> bytes:
        return bytes(self.chance.choices(b"abcdefghijklmnopqrstuvwxyz", k=length))

    def next_token_len(self) -> int:
        """All lengths by turns."""
        self.token_len = (self.token_len + 1) % (MOST_TOKEN + 1)
        return self.token_len

    @contextlib.contextmanager
    def server(self, *words: str) -> Iterator[Tuple[subprocess.Popen, int]]:
        """A server of ours, and the port that its first line says."""
        process = subprocess.Popen([str(self.ours / words[0]), *words[1:]], stdin=subprocess.PIPE, stdout=subprocess.PIPE, text=True)
        with ended(process):
            first = process.stdout.readline().split()
            if first[:1] != ["port"]:
                raise SystemExit(f"{words[0]} says {first}")
            yield process, int(first[1])

    def mirror(self, contexts: Sequence[Words]):
        ends = [word for words in contexts for word in (words.secret, words.salt, words.id_context, words.server, words.client)]
        return self.server("mirror", *ends)

    def told(self, process: subprocess.Popen) -> List[str]:
        """The lines that a server of ours printed, once it has ended, which the end of its input tells a mirror to."""
        return process.communicate(timeout=GIVEN_UP_S)[0].splitlines()

    def first(self, record: str) -> List[str]:
        """The word that makes a record, where none of our programs has one of that name yet."""
        return [] if (self.work / record).exists() else ["first"]

    def began(self, record: str, words: Words) -> None:
        """Makes a record of that name, of a server that saved its first one, and to which no request was delivered (oscore_store.h): the next
        life asks for an Echo value."""
        generation, sender, received = 1, 64, 0
        text = b"osc-num\1" + struct.pack("<QQQQI", generation, sender, received, name_of_server(words), 0)
        (self.work / record).write_bytes(bytes(4096) + text + struct.pack("<I", zlib.crc32(text)))

    def lock(self, record: str, datagrams: int):
        """Our lock, which has its record in a file of that name."""
        return self.server("lock", "0", str(datagrams), str(self.work / record), *self.first(record))

    def key(self, port: int, wish: str) -> Tuple[int, List[str]]:
        """The status of our key, which has one record, and the codes and payloads that came."""
        words = [str(self.ours / "key"), str(port), str(self.work / "key.record"), wish, *self.first("key.record")]
        done = subprocess.run(words, capture_output=True, text=True, timeout=6 * GIVEN_UP_S)
        return done.returncode, [line for line in done.stdout.splitlines() if line[:1].isdigit()]
