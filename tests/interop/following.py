"""Two live programs `oscore run --follow`, a server and a client of one context, and a network between them that loses three datagrams of ten.
What is confirmable is sent again until it is acknowledged (RFC 7252, 4.2), so each text arrives at last, and many arrive more than once. Then
the same programs with a forward proxy between them, and over UDP, a line that spells no event, and a long input.

    python3 following.py PROGRAM SEED

Judged is by judging.py: each text that is sealed opens as what was to be said, and no two have one nonce."""

from __future__ import annotations

import pathlib
import random
import subprocess
import sys
import threading
from typing import Dict, List, Optional, Tuple

import coap_reading
import command
from asker import Asker
from bench import CONTEXTS, GIVEN_UP_S, METHODS, WITHOUT_PAYLOAD, answer_code, mirrored
from coap_reading import ACK, CON, Message, Options
from command import Life, bytes_of, code_of, context_words, options_of
from judging import Found, Judge, wants
from oscore_reading import HOP_LIMIT, OBSERVE, PROXY_SCHEME, URI_HOST

LOST = 0.3
NOTIFICATIONS, REQUESTS, LATER_NOTIFICATIONS = 50, 100, 5
GET, PUT, CONTENT, NOT_FOUND, URI_PATH = 0x01, 0x03, 0x45, 0x84, 11
REGISTERS, CANCELS = b"", b"\x01"
"""The values of Observe (RFC 7641, 2)."""
TOKEN = b"\x2a"
LINES, MOST_MEMORY_KB = 100_000, 20_000


def words_of(role: str, at: int) -> List[str]:
    return ["--role", role, *context_words(CONTEXTS[at], role == "client")]


class World:
    """Both ends, what they sealed, and which datagrams were answered."""

    def __init__(self, program: str, seed: int):
        self.chance, self.moment, self.message_id, self.lost, self.again = random.Random(seed), 0, 0, 0, 0
        self.server, self.client = (Life(program, [*words_of(role, 0), "--allow", "observe"]) for role in ("server", "client"))
        self.judge = Judge(CONTEXTS[0])

    def now(self) -> int:
        self.moment += 10
        return self.moment

    def next_id(self) -> int:
        self.message_id += 1
        return self.message_id

    def arrives(self) -> bool:
        arrives = self.chance.random() >= LOST
        self.lost += not arrives
        return arrives

    def sent(self, plain: Message) -> Tuple[int, bytes]:
        """The client seals a request."""
        entry, number, datagram = self.client.happens(f"request {self.now()} {coap_reading.write(plain).hex()}")
        wants("a request", "sent", entry)
        opened = self.judge.request(bytes.fromhex(datagram))
        wants("what a request says", (plain.code, plain.options, plain.payload), (opened.code, opened.options, opened.payload))
        return int(number), bytes.fromhex(datagram)

    def sealed(self, line: str, plain: Message, request: int, registers: bool) -> bytes:
        """The server seals a response, in which a notification has an empty Observe (RFC 8613, 4.1.3.5.2)."""
        entry, datagram = self.server.happens(f"{line} {coap_reading.write(plain).hex()}")
        wants("a response", "replied", entry)
        opened = self.judge.response(request, bytes.fromhex(datagram), registers)
        options = tuple((number, b"" if number == OBSERVE else value) for number, value in plain.options)
        wants("what a response says", (plain.code, options, plain.payload), (opened.code, opened.options, opened.payload))
        return bytes.fromhex(datagram)

    def taken(self, datagram: bytes) -> List[str]:
        """What the server makes of a datagram."""
        echo, message_id = f"{self.moment:016x}", f"{self.next_id():04x}"
        return self.server.happens(f"take {self.now()} {echo} {message_id} {datagram.hex()}")

    def heard(self, datagram: bytes) -> List[str]:
        """What the client makes of a datagram."""
        return self.client.happens(f"take {self.now()} {datagram.hex()}")

    def delivered(self, plain: Message, number: int, datagram: bytes) -> int:
        """The event by which the server delivers a request that was never there before."""
        entry = self.taken(datagram)
        wants("a new request", ["deliver", "0", str(number)], entry[:3])
        wants("what is delivered", (plain.code, plain.options, plain.payload), (code_of(entry[3]), tuple(options_of(entry[4])), bytes_of(entry[5])))
        return len(self.server.events) - 1

    def answered(self, datagram: bytes, reply) -> List[str]:
        """What the client makes of the reply to a request, which it sends until one has come. The server is asked for `reply` once: one that
        comes again is a replay, and gets the same bytes (RFC 7252, 4.5)."""
        answer: Optional[bytes] = None
        while True:
            if not self.arrives():
                continue
            if answer is None:
                answer = reply()
            else:
                self.again += 1
                wants("a request that comes again", "replay", self.taken(datagram)[0])
            if self.arrives():
                return self.heard(answer)

    def acknowledged(self, datagram: bytes, first: str, then: str) -> List[str]:
        """What the client makes of a confirmable response, which is sent until its ACK has come. Again it is another thing."""
        entry: List[str] = []
        while True:
            if not self.arrives():
                continue
            came = self.heard(datagram)
            self.again += bool(entry)
            wants("a response that comes" + " again" * bool(entry), then if entry else first, came[0])
            entry = entry or came
            if self.arrives():
                return entry


class Observation:
    """A registration, and the event by which the server delivered it."""

    def __init__(self, world: World, said: bytes):
        self.world = world
        plain = request_of(world, "temperature", TOKEN, REGISTERS)
        self.number, datagram = world.sent(plain)

        def first() -> bytes:
            self.event = world.delivered(plain, self.number, datagram)
            return self.notification(said, ACK)

        entry = world.answered(datagram, first)
        wants("the first notification", ["notified", str(self.number)], entry[:2])
        wants("what it says", said, bytes_of(entry[5]))

    def plain(self, code: int, kind: int, options: Options, payload: bytes) -> Message:
        return Message(kind, code, self.world.next_id(), b"", options, payload)

    def notification(self, said: bytes, kind: int = CON) -> bytes:
        return self.world.sealed(f"notify {self.event}", self.plain(CONTENT, kind, ((OBSERVE, b"\x07"),), said), self.number, True)

    def notifies(self, count: int) -> None:
        for at in range(count):
            said = f"{at} degrees".encode()
            entry = self.world.acknowledged(self.notification(said), "notified", "old")
            wants("what a notification says", said, bytes_of(entry[5]))

    def end(self) -> bytes:
        """The last response (RFC 7641, 4.2)."""
        return self.world.sealed(f"reply {self.event} own 0000", self.plain(NOT_FOUND, CON, (), b""), self.number, True)

    def dropped(self) -> None:
        wants("an observation that is dropped", ["dropped"], self.world.server.happens(f"drop {self.event}"))


def request_of(world: World, path: str, token: bytes, observe: Optional[bytes] = None) -> Message:
    options = ((OBSERVE, observe),) if observe is not None else ()
    return Message(CON, GET, world.next_id(), token, (*options, (URI_PATH, path.encode())), b"")


def asks(world: World, token: bytes, said: bytes, observe: Optional[bytes] = None) -> None:
    """A request that registers nothing, and its response."""
    plain = request_of(world, "temperature", token, observe)
    number, datagram = world.sent(plain)

    def reply() -> bytes:
        event = world.delivered(plain, number, datagram)
        response = Message(ACK, CONTENT, 0, b"", (), said)
        return world.sealed(f"reply {event} shared {world.next_id():04x}", response, number, False)

    entry = world.answered(datagram, reply)
    wants("a response", ["deliver", str(number), "-", "2.05"], entry[:4])
    wants("what it says", said, bytes_of(entry[5]))


def observes(program: str, seed: int) -> None:
    """A registration and its notifications; its end by the server, behind more requests than a window has places; one that gives way to the
    next under the same token; and one that is cancelled."""
    world = World(program, seed)
    observation = Observation(world, b"first")
    observation.notifies(NOTIFICATIONS)
    for at in range(REQUESTS):
        asks(world, (1000 + at).to_bytes(2, "big"), f"answer {at}".encode())
    entry = world.acknowledged(observation.end(), "deliver", "unknown-token")
    wants("the end of an observation", "4.04", entry[3])
    line = f"notify {observation.event} {coap_reading.write(observation.plain(CONTENT, CON, (), b'')).hex()}"
    wants("a notification behind the end", ["no-ticket"], world.server.happens(line))
    older = Observation(world, b"anew")
    older.notifies(LATER_NOTIFICATIONS)
    late = older.notification(b"late")
    newer = Observation(world, b"once more")
    wants("what was sealed before, for the registration that gave way", ["old"], world.heard(late))
    wants("what is sealed for it now", ["bad-tag"], world.heard(older.notification(b"later")))
    older.dropped()
    newer.notifies(LATER_NOTIFICATIONS)
    late = newer.notification(b"late")
    asks(world, TOKEN, b"cancelled", CANCELS)
    newer.dropped()
    wants("a notification behind the cancellation", ["unknown-token"], world.heard(late))
    for end in (world.server, world.client):
        end.end()
    print(f"two live programs, {len(world.judge.nonces)} nonces: {world.lost} datagrams were lost, {world.again} came again")


class Proxy:
    """A forward proxy (RFC 7252, 5.7.2): it takes out what asks it, counts Hop-Limit down (RFC 8768, 3), and speaks under a token of its own."""

    def __init__(self) -> None:
        self.asked: Dict[bytes, Message] = {}

    def forwarded(self, datagram: bytes) -> bytes:
        asked = coap_reading.read(datagram)
        said = dict(asked.options)
        wants("what asks a proxy", (b"coap", b"server"), (said.get(PROXY_SCHEME), said.get(URI_HOST)))
        token = b"\xf0" + len(self.asked).to_bytes(2, "big")
        self.asked[token] = asked
        left = [(number, bytes([value[0] - 1]) if number == HOP_LIMIT else value)
                for number, value in asked.options if number not in (PROXY_SCHEME, URI_HOST)]
        return coap_reading.write(asked._replace(message_id=40_000 + len(self.asked), token=token, options=tuple(left)))

    def returned(self, datagram: bytes) -> bytes:
        reply = coap_reading.read(datagram)
        asked = self.asked[reply.token]
        return coap_reading.write(reply._replace(message_id=asked.message_id, token=asked.token))


def asking_proxy(datagram: bytes) -> bytes:
    """The sealed request with Proxy-Scheme besides, as osc_proxy makes it."""
    sealed = coap_reading.read(datagram)
    return coap_reading.write(sealed._replace(options=(*sealed.options, (PROXY_SCHEME, b"coap"))))


def goes_through_a_proxy(program: str, seed: int) -> None:
    """A GET and a PUT of 1,000 bytes."""
    world, proxy = World(program, seed), Proxy()
    for code, payload in ((GET, b""), (PUT, world.chance.randbytes(1000))):
        inside, outside = ((URI_PATH, b"through"),), ((URI_HOST, b"server"), (HOP_LIMIT, b"\x0a"))
        plain = Message(CON, code, world.next_id(), TOKEN, tuple(sorted(inside + outside)), payload)
        entry, number, sealed = world.client.happens(f"request {world.now()} {coap_reading.write(plain).hex()}")
        wants("a request", "sent", entry)
        asked = asking_proxy(bytes.fromhex(sealed))
        wants("what the server makes of a request to a proxy", "undecodable", world.taken(asked)[0])
        event = world.delivered(plain._replace(options=inside), int(number), proxy.forwarded(asked))
        response = Message(ACK, CONTENT, 0, b"", (), payload[::-1] + b".")
        reply = world.sealed(f"reply {event} own {world.next_id():04x}", response, int(number), False)
        entry = world.heard(proxy.returned(reply))
        wants("what comes back", ["deliver", number, response.payload.hex()], [*entry[:2], entry[5]])
    for end in (world.server, world.client):
        end.end()


def over_udp(program: str) -> None:
    """Each method under each context, from a socket to a socket."""
    for at, words in enumerate(CONTEXTS):
        life = Life(program, words_of("client", at))
        with command.Server(Life(program, words_of("server", at))) as server, Asker(command.Client(life), server.port) as asker:
            for code, method in enumerate(METHODS, 1):
                sent = b"" if method in WITHOUT_PAYLOAD else b"a payload"
                came = asker.ask("CON", code, "mirror", sent)
                wants(f"{method} under context {at}", (answer_code(method), mirrored("CON", method, 5, sent)), came)
        wants("what the server failed at", None, server.failure)
        wants("how many requests it delivered", len(METHODS), len(server.delivered))


def ends_at_a_bad_line(program: str) -> None:
    """The entries of the lines before it are printed."""
    line = [program, "run", "--follow", *words_of("client", 0)]
    done = subprocess.run(line, input="forget 00\nrestart 7\nnothing\nforget 01\n", capture_output=True, text=True, timeout=GIVEN_UP_S)
    wants("what is printed before a bad line", "not-pending\nrestarted\n", done.stdout)
    wants("the status behind a bad line", 1, done.returncode)
    wants("whether the fault names the line", (True, 1), ("line 3" in done.stderr, done.stderr.count("\n")))
    without = subprocess.run([word for word in line if word != "--follow"], input="forget 00\nnothing\n", capture_output=True, text=True, timeout=GIVEN_UP_S)
    wants("what is printed before a bad line where all are read first", ("", 1), (without.stdout, without.returncode))


def needs_no_memory_of_its_length(program: str) -> None:
    """A datagram that is no request on each line, 10 MB in all. What it takes is asked for while it waits for a further line."""
    line = f"take 0 0102030405060708 0001 {'64455d1f00003974ff' + '61' * 25}\n".encode()
    with subprocess.Popen([program, "run", "--follow", *words_of("server", 0)], stdin=subprocess.PIPE, stdout=subprocess.PIPE) as life:
        threading.Thread(target=lambda: (life.stdin.write(line * LINES), life.stdin.flush()), daemon=True).start()
        wants("the entries of a long input", b"not-request\n" * LINES, life.stdout.read(len(b"not-request\n") * LINES))
        status = pathlib.Path(f"/proc/{life.pid}/status").read_text(encoding="ascii")
        life.stdin.close()
        wants("what comes behind them", (b"", 0), (life.stdout.read(), life.wait(GIVEN_UP_S)))
    most_kb = int(status.split("VmHWM:")[1].split()[0])
    wants(f"whether {len(line) * LINES:,} bytes of lines take {MOST_MEMORY_KB} kB at most, and not {most_kb}", True, most_kb <= MOST_MEMORY_KB)
    print(f"{len(line) * LINES:,} bytes of lines took {most_kb} kB")


def main() -> None:
    program, seed = sys.argv[1], int(sys.argv[2])
    try:
        observes(program, seed)
        goes_through_a_proxy(program, seed)
        over_udp(program)
        ends_at_a_bad_line(program)
        needs_no_memory_of_its_length(program)
    except Found as found:
        sys.exit(f"following: {found}")


if __name__ == "__main__":
    main()
