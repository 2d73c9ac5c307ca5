"""What an exchange costs here and at the peers, and how many requests a second servers answer, by turns: who shares the machine is then
shared too. It prints medians and the quartiles around them; a ratio is of two that ran side by side.

    speed.py OURS SECONDS [aiocoap] [LIBCOAP]

OURS holds our programs exchange, asking and mirror, and exchange_libcoap; LIBCOAP libcoap's coap-server."""

from __future__ import annotations

import contextlib
import os
import pathlib
import signal
import statistics
import subprocess
import sys
import tempfile
import time
from typing import Dict, List

from aiocoap_udp import Aiocoap
from bench import CONTEXTS, GIVEN_UP_S, Bench
from libcoap import Libcoap

LENGTHS = (0, 12, 64, 256, 512, 1024)
"""Of the response's payload."""
HERE, EACH, TABLES = "this, in constant time", "this, in constant time, a record for each request", "this, by tables"
BARE = "libcoap, without AES in hardware"
WITHOUT_AES = "~0x200000200000000"
"""OPENSSL_ia32cap, so that OpenSSL uses neither AES-NI nor SSSE3."""
WORDS = {EACH: ["each"], TABLES: ["tables"]}
"""For exchange.c, which says what they change."""
ROUNDS = {HERE: 4000, EACH: 4000, TABLES: 10000, "libcoap": 4000, BARE: 4000, "aiocoap": 150}
TURN_MS = 300
PATHS = {HERE: "mirror", "libcoap": "thing", "aiocoap": "mirror"}
FIRST_NUMBER = 1 << 16


def spread(values: List[float]) -> str:
    """The median, and the quartiles."""
    low, middle, high = statistics.quantiles(values, n=4)
    digits = 0 if middle >= 100 else 1 if middle >= 10 else 2
    return f"{middle:,.{digits}f} ({low:,.{digits}f} to {high:,.{digits}f})"


def printed(words: List[str], without_aes: bool = False) -> List[str]:
    environment = {**os.environ, "OPENSSL_ia32cap": WITHOUT_AES} if without_aes else None
    done = subprocess.run(words, capture_output=True, text=True, timeout=GIVEN_UP_S, env=environment)
    if done.returncode != 0:
        raise SystemExit(f"{words[0]}: {done.stderr}")
    return done.stdout.split()


class Speed:
    def __init__(self, ours: str, seconds: float, peers: List[str], work: pathlib.Path):
        self.bench, self.seconds, self.peers = Bench(ours, work), seconds, {}
        for peer in peers:
            if peer == "aiocoap":
                self.peers[peer] = Aiocoap(self.bench)
            else:
                self.peers["libcoap"] = Libcoap(self.bench, peer)

    def exchange(self, who: str, length: int) -> float:
        """Microseconds."""
        libcoap, aiocoap = self.bench.ours / "exchange_libcoap", pathlib.Path(__file__).with_name("exchange_aiocoap.py")
        program = {"libcoap": [str(libcoap)], BARE: [str(libcoap)], "aiocoap": [sys.executable, str(aiocoap)]}
        words = program.get(who, [str(self.bench.ours / "exchange")]) + [str(length), str(ROUNDS[who])]
        return float(printed(words + WORDS.get(who, []), who == BARE)[0]) / 1000

    def exchanges(self) -> None:
        """Turns of all lengths, until the time is over."""
        names = [HERE, EACH, TABLES, *self.peers] + ([BARE] if "libcoap" in self.peers else [])
        turns: List[Dict[tuple, float]] = []
        until = time.monotonic() + self.seconds
        while time.monotonic() < until or len(turns) < 3:
            turns.append({(who, length): self.exchange(who, length) for length in LENGTHS for who in names})
        print(f"an exchange, microseconds, {len(turns)} turns")
        for length in LENGTHS:
            for who in names:
                taken = spread([turn[who, length] for turn in turns])
                ratio = spread([turn[who, length] / turn[HERE, length] for turn in turns])
                print(f"  {length:5} bytes, {who}: {taken}" + ("" if who == HERE else f"; of this {ratio}"))

    def servers(self) -> None:
        with contextlib.ExitStack() as stack:
            ports = {HERE: stack.enter_context(self.bench.mirror(CONTEXTS[:1]))[1]}
            for name, peer in self.peers.items():
                ports[name] = stack.enter_context(peer.server("speed", CONTEXTS[0]))[0]
            numbers = dict.fromkeys(ports, str(FIRST_NUMBER))
            turns: List[Dict[str, float]] = []
            until = time.monotonic() + self.seconds
            while time.monotonic() < until or len(turns) < 3:
                turn = {}
                for name, port in ports.items():
                    words = [str(self.bench.ours / "asking"), str(port), PATHS[name], numbers[name], str(TURN_MS)]
                    answered, numbers[name] = printed(words)
                    turn[name] = float(answered)
                turns.append(turn)
        print(f"requests a second that a server answers to one client, which is this library's, {len(turns)} turns")
        for name in ports:
            ratio = spread([turn[HERE] / turn[name] for turn in turns])
            print(f"  {name}: {spread([turn[name] for turn in turns])}" + ("" if name == HERE else f"; this, of that {ratio}"))


def main(words: List[str]) -> int:
    if len(words) < 2:
        raise SystemExit(__doc__)
    # Whoever ends this program early ends its servers too.
    signal.signal(signal.SIGTERM, lambda *_: sys.exit(1))
    with tempfile.TemporaryDirectory() as work:
        speed = Speed(words[0], float(words[1]), words[2:], pathlib.Path(work))
        speed.exchanges()
        speed.servers()
    return 0


if __name__ == "__main__":
    sys.exit(main(sys.argv[1:]))
