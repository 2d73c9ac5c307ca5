"""A GET and a PUT of 1,000 bytes from our client to our server, through the forward proxy that aiocoap has (aiocoap.cli.proxy), over UDP on
127.0.0.1: by calls of the C library, and by the command.

    over_proxy.py OURS OSCORE
        OURS holds our program calls, OSCORE is our program of that name

The request is sealed with Uri-Host and Uri-Port, which stay outside, and then Proxy-Scheme is put there, as ask_proxy of osc_proxy does. The
proxy has no key. It takes out what asks it, and speaks under a message ID and a token of its own."""

from __future__ import annotations

import contextlib
import pathlib
import random
import subprocess
import sys
import tempfile
from typing import Iterator, List, Optional, Tuple

import coap_reading
import command
import outside
from asker import Asker, Calls, Response
from bench import CONTEXTS, METHODS, Bench, TooMany, ended, free_port, wait_for
from coap_reading import Malformed, Message
from command import Life, context_words
from following import asking_proxy
from oscore_reading import OSCORE, URI_HOST, URI_PORT, Refused, first
from serving import CHANGED, CONTENT, CallsServer, response

LENGTH = 1000
PATH, HOST = "body", b"127.0.0.1"
SEED = 7


class Body:
    """A resource of so many bytes. PUT changes it, and is answered by the bytes that it put, from their end."""

    def __init__(self, body: bytes):
        self.body = body

    def __call__(self, request: Message) -> Message:
        if request.code == METHODS.index("get") + 1:
            return response(CONTENT, (), self.body)
        self.body = request.payload
        return response(CHANGED, (), self.body[::-1])


class AsksProxy:
    """An end as asker.py wants it, whose requests ask a proxy once they are sealed."""

    def __init__(self, end):
        self.inside, self.sealed = end, []

    def seal(self, message: Message) -> Tuple[int, bytes]:
        number, datagram = self.inside.seal(message)
        self.sealed.append(coap_reading.read(datagram))
        return number, asking_proxy(datagram)

    def open(self, number: int, datagram: bytes) -> Optional[Response]:
        return self.inside.open(number, datagram)

    def end(self) -> None:
        self.inside.end()


class AsksNobody(AsksProxy):
    def seal(self, message: Message) -> Tuple[int, bytes]:
        return self.inside.seal(message)


@contextlib.contextmanager
def forward_proxy() -> Iterator[int]:
    port = free_port()
    line = [sys.executable, "-m", "aiocoap.cli.proxy", "--forward", "--bind", f"127.0.0.1:{port}"]
    with ended(subprocess.Popen(line, stdout=subprocess.DEVNULL, stderr=subprocess.DEVNULL)) as process:
        wait_for(port, process)
        yield port


class ProxyRows:
    words = CONTEXTS[1]

    def __init__(self, bench: Bench, oscore: str):
        self.bench, self.oscore, self.chance = bench, oscore, random.Random(SEED)

    def life(self, role: str) -> Life:
        return Life(self.oscore, ["--role", role, *context_words(self.words, role == "client")])

    def goes_through(self, whose: str, server, client, proxy: int) -> None:
        sends, puts = server.resource.body, self.chance.randbytes(LENGTH)
        asks, hosts = AsksProxy(client), [(URI_HOST, HOST), (URI_PORT, server.port.to_bytes(2, "big"))]
        with server, Asker(asks, proxy) as asker:
            for method, sent, wanted in (("get", b"", ("2.05", sends)), ("put", puts, ("2.04", puts[::-1]))):
                came = asker.response_to("CON", METHODS.index(method) + 1, PATH, sent, more=hosts)
                self.bench.check(f"{whose}: {method} through a proxy", wanted, (came.code, came.payload))
            self.bench.check(f"{whose}: what the server was told", puts, server.resource.body)
            self.is_forwarded(whose, asks.sealed, list(map(coap_reading.read, server.datagrams)))
            asker.end = AsksNobody(client)
            came = asker.response_to("CON", METHODS.index("get") + 1, PATH, b"", more=hosts)
            self.bench.check(f"{whose}: whether a proxy that isn't asked answers by itself, and forwards nothing", (False, 2),
                             (came.code[:1] == "2", len(server.datagrams)))

    def is_forwarded(self, whose: str, sealed: List[Message], came: List[Message]) -> None:
        """What comes to the server is what the client sealed. Outside nothing asks a proxy any more."""
        for what, said in (("payloads", lambda one: one.payload), ("OSCORE options", lambda one: first(one.options, OSCORE))):
            self.bench.check(f"{whose}: {what} before and behind the proxy", list(map(said, sealed)), list(map(said, came)))
        for where, messages, others in (("before the proxy is asked", sealed, {URI_HOST, URI_PORT}), ("behind the proxy", came, set())):
            for message in messages:
                self.bench.check(f"{whose}: what is outside {where}", others, set(outside.see(coap_reading.write(message)).others))

    def run(self) -> None:
        calls = str(self.bench.ours / "calls")
        with forward_proxy() as proxy:
            body = Body(self.chance.randbytes(LENGTH))
            self.goes_through("the library", CallsServer(calls, self.words, False, body), Calls(calls, self.words), proxy)
            self.goes_through("the command", command.Server(self.life("server"), Body(body.body)), command.Client(self.life("client")), proxy)


def main(words: List[str]) -> int:
    if len(words) != 2:
        raise SystemExit(__doc__)
    with tempfile.TemporaryDirectory() as work:
        bench = Bench(words[0], pathlib.Path(work))
        try:
            ProxyRows(bench, words[1]).run()
        except (OSError, SystemExit, subprocess.TimeoutExpired, Malformed, Refused) as failure:
            bench.check("the rows of a proxy", "an end", f"{type(failure).__name__} {failure}")
        except TooMany:
            print("the rest is left out", flush=True)
    print(f"through aiocoap's forward proxy: {bench.looked} answers looked at; {bench.failures} are otherwise")
    return 1 if bench.failures else 0


if __name__ == "__main__":
    sys.exit(main(sys.argv[1:]))
