"""Observations over a relay that loses three datagrams of ten, both ways: a peer's client and its server, each with the C library's sensor and
reader at the other end, and each with the command there.

    losses.py OURS OSCORE SEED PEER [THEIRS]

OURS holds our programs sensor and reader, which send again sooner and more often than by default, OSCORE is our program of that name, and
PEER is aiocoap, or libcoap with THEIRS, the program of libcoap_losses.c. The four stories run side by side, since each mostly waits. All that
goes over the relays is judged by judging.py: each text opens, and no two have one nonce."""

from __future__ import annotations

import contextlib
import pathlib
import random
import re
import signal
import subprocess
import sys
import tempfile
import time
from concurrent.futures import ThreadPoolExecutor
from typing import Callable, Iterator, List

import outside
from aiocoap_udp import Aiocoap
from bench import CONTEXTS, GIVEN_UP_S, Bench, Words, ended, free_port, line_of
from coap_reading import Malformed
from command import Life, context_words
from judging import Found, Overheard
from libcoap import Libcoap
from line_ends import CommandCaller, CommandServer
from losing import LOST, OF, WAITED_S, Losing, OfReader, OfSensor, soon
from observing import THE_SENSOR, temperature
from oscore_reading import Refused

NOTIFICATIONS, REQUESTS, LATER, FEW, AGAIN = 50, 100, 5, 3, 2
SILENT_S, QUIET_S = 1.0, 0.2
"""So long nothing may come where nothing is to come, and so long a client has for what it was handed."""
MOST_DATAGRAMS, PINGS_AT_ONCE = 3000, 20
LIFE_MS = 600_000
AIOCOAP = pathlib.Path(__file__).with_name("aiocoap_losses.py")


class Caller:
    """A client of a peer's, which takes lines and prints lines."""

    def __init__(self, process: subprocess.Popen):
        self.process = process

    def say(self, line: str) -> None:
        self.process.stdin.write(line + "\n")
        self.process.stdin.flush()

    def line(self) -> str:
        return line_of(self.process, WAITED_S)


class Observed(Caller):
    """A server of a peer's that is observed. Each line that it takes it answers once that is done."""

    def __init__(self, process: subprocess.Popen, port: int):
        super().__init__(process)
        self.port = port

    def measure(self, said: str) -> None:
        self.say(f"CON {said}")
        self.line()

    def delete(self) -> None:
        self.say("gone")
        self.line()


class AiocoapEnds:
    can_cancel = False

    def __init__(self, bench: Bench):
        self.peer = Aiocoap(bench)

    def line(self, role: str, words: Words) -> List[str]:
        return [sys.executable, str(AIOCOAP), role, str(self.peer.folder(role, words, role == "caller"))]


class LibcoapEnds:
    can_cancel = True

    def __init__(self, bench: Bench, theirs: str):
        self.peer, self.program = Libcoap(bench, theirs), theirs

    def line(self, role: str, words: Words) -> List[str]:
        return [self.program, role, self.peer.configuration(role, words, role == "caller").split(",")[0]]


class Story:
    """A client that observes a server. What doesn't come as it is wanted ends it."""

    whose, words = "", CONTEXTS[1]

    def __init__(self, bench: Bench, ends, oscore: str, seed: str):
        self.bench, self.ends, self.oscore, self.seed = bench, ends, oscore, seed
        self.what = f"{ends.peer.name}'s {self.whose}"
        self.relays: List[Losing] = []

    def tell(self) -> None:
        raise NotImplementedError

    def wants(self, what: str, wanted: object, came: object) -> None:
        failures = self.bench.failures
        self.bench.check(f"{self.what}: {what}", wanted, came)
        if self.bench.failures > failures:
            raise Found("the rest of the story is left out")

    @contextlib.contextmanager
    def begun(self, role: str, port: int) -> Iterator[subprocess.Popen]:
        line = [*self.ends.line(role, self.words), str(port)]
        with ended(subprocess.Popen(line, stdin=subprocess.PIPE, stdout=subprocess.PIPE, text=True)) as process:
            self.wants(f"what their {role} says first", "ready", line_of(process))
            yield process

    @contextlib.contextmanager
    def caller(self, port: int) -> Iterator[Caller]:
        with self.begun("caller", port) as process:
            yield Caller(process)

    @contextlib.contextmanager
    def observed(self) -> Iterator[Observed]:
        port = free_port()
        with self.begun("observed", port) as process:
            yield Observed(process, port)

    def relay(self, kind: Callable[..., Losing], port: int, *more: object) -> Losing:
        self.relays.append(kind(port, random.Random(f"{self.seed} {self.what} {len(self.relays)}"), *more))
        return self.relays[-1]

    def stays_silent(self, relay: Losing, notifications: int) -> None:
        """Behind a cancellation."""
        time.sleep(SILENT_S)
        self.wants("how many notifications come behind a cancellation", 0, len(relay.notifications()) - notifications)

    def judge(self) -> None:
        """All that went over the relays, of which each lost as many as it was to lose."""
        judge = Overheard(self.words)
        for relay in self.relays:
            judge.hears(relay.of_client, relay.of_server)
            for end, came in relay.came.items():
                least, most = came // OF * LOST, came // OF * LOST + min(LOST, came % OF)
                lost = relay.lost[end]
                self.wants(f"whether {least} to {most} datagrams of the {end}'s are lost, and not {lost}", True, least <= lost <= most)
        lost, came = (sum(sum(count.values()) for count in counts) for counts in ([one.lost for one in self.relays], [one.came for one in self.relays]))
        handed, sealed = (sum(map(len, notifications)) for notifications in
                          ([one.handed() for one in self.relays], [one.notifications() for one in self.relays]))
        print(f"{self.what}: {lost} of {came} datagrams were lost, {handed} of {sealed} notifications came, {len(judge.nonces)} nonces", flush=True)


class CommandStory(Story):
    """The command at one end. Each notification comes, since it is sent again until it is acknowledged, and the next one behind it."""

    def life(self, role: str, *more: str) -> Life:
        return Life(self.oscore, ["--role", role, *context_words(self.words, role == "client"), "--allow", "observe", *more])

    def registers(self, client, server, first: int, count: int) -> None:
        """And hears so many more."""
        server.measure(temperature(first))
        client.say("register")
        self.wants("the first notification", f"heard {temperature(first)}", client.line())
        for at in range(first + 1, first + 1 + count):
            server.measure(temperature(at))
            self.wants(f"notification {at}", f"heard {temperature(at)}", client.line())

    def observes(self, client, server, relay: Losing) -> None:
        self.registers(client, server, 0, NOTIFICATIONS)
        for at in range(REQUESTS):
            client.say("ask")
            self.wants(f"the answer to request {at}", f"answered 2.05 {temperature(NOTIFICATIONS)}", client.line())
        server.delete()
        self.wants("the last response", "last 4.04", client.line())
        self.registers(client, server, 100, LATER)
        self.cancels(client, server, relay, temperature(100 + LATER))
        self.registers(client, server, 200, LATER)

    def cancels(self, client, server, relay: Losing, said: str) -> None:
        client.say("cancel")
        self.wants("the answer to a cancellation", f"cancelled 2.05 {said}", client.line())
        before = len(relay.notifications())
        server.measure(temperature(150))
        self.stays_silent(relay, before)


class CommandServerStory(CommandStory):
    whose = "client at the command"

    def tell(self) -> None:
        with CommandServer(self.life("server")) as server, self.relay(Losing, server.port) as relay, self.caller(relay.port) as client:
            self.observes(client, server, relay)
        self.wants("what the command's server failed at", None, server.failure)

    def cancels(self, client, server, relay: Losing, said: str) -> None:
        """Once nothing is on its way that could come behind it. aiocoap's application can cancel, but no request says so, and its client
        acknowledges on."""
        self.wants("whether the last notification is acknowledged", True, soon(lambda: server.unacknowledged is None))
        if self.ends.can_cancel:
            super().cancels(client, server, relay, said)
            return
        client.say("cancel")
        self.wants("what an application says that cancels", "cancelled", client.line())
        for at in range(FEW):
            acknowledged = relay.acknowledged()
            server.measure(temperature(150 + at))
            self.wants("whether a notification behind a cancellation is acknowledged", True, relay.acknowledges(acknowledged + 1))


class CommandCallerStory(CommandStory):
    whose = "server, and the command"

    def tell(self) -> None:
        with self.observed() as server, self.relay(Losing, server.port) as relay, \
                CommandCaller(self.life("client", "--life", str(LIFE_MS)), relay.port) as client:
            self.observes(client, server, relay)


class SensorStory(Story):
    """The sensor notifies what is new as soon as the last notification was acknowledged, and else a little later. So some of its notifications
    never come. Its second life goes on behind its record."""

    whose, words = "client at our sensor", THE_SENSOR

    def begins(self, life: int) -> subprocess.Popen:
        self.port, self.log = free_port(), self.bench.work / f"sensor.log.{life}"
        line = [str(self.bench.ours / "sensor"), str(self.port), str(MOST_DATAGRAMS), str(self.bench.work / "sensor")]
        with self.log.open("w") as log:
            process = subprocess.Popen([*line, *self.bench.first("sensor")], stdout=log)
        self.wants("whether the sensor begins", True, soon(lambda: "port" in self.log.read_text()))
        return process

    def notification(self, line: str) -> None:
        """Each is newer than the one before."""
        self.wants("whether that is a notification", "heard", line.split(" ")[0])
        at = int(line.split(" ")[1].replace(".", ""))
        self.wants(f"whether {at} is newer than {self.newest}", True, at > self.newest)
        self.newest = at

    def registers(self, client: Caller, count: int) -> None:
        """And hears so many."""
        self.newest = 0
        client.say("register")
        for _ in range(count):
            self.notification(client.line())

    def next_line(self, client: Caller) -> str:
        """What comes next that is no notification, "" where nothing else comes in time."""
        until = time.monotonic() + WAITED_S
        while time.monotonic() < until:
            if not (line := client.line()).startswith("heard "):
                return line
            self.notification(line)
        return ""

    def ends_at(self, client: Caller, relay: Losing, sensor: subprocess.Popen) -> None:
        """What somebody else says to the sensor counts too for its end."""
        until = time.monotonic() + GIVEN_UP_S
        while sensor.poll() is None and time.monotonic() < until:
            relay.pings(PINGS_AT_ONCE)
            time.sleep(0.002)
        self.wants("how the sensor ends", 0, sensor.poll())
        self.wants("the last response", "last 4.04", self.next_line(client))

    def cancels(self, client: Caller, relay: OfSensor) -> None:
        """As at the command, where nothing comes behind libcoap's cancellation."""
        acknowledged = relay.acknowledged()
        relay.is_quiet = self.ends.can_cancel
        time.sleep(QUIET_S)
        client.say("cancel")
        if not self.ends.can_cancel:
            self.wants("what an application says that cancels", "cancelled", self.next_line(client))
            self.wants("whether notifications behind it are acknowledged", True, relay.acknowledges(acknowledged + FEW))
            return
        self.wants("the answer to a cancellation", "cancelled 2.05", self.next_line(client)[:14])
        relay.is_quiet = False
        self.stays_silent(relay, len(relay.notifications()))

    def tell(self) -> None:
        with ended(self.begins(0)) as sensor, self.relay(OfSensor, self.port) as relay, self.caller(relay.port) as client:
            self.registers(client, NOTIFICATIONS)
            for at in range(REQUESTS):
                client.say("ask")
                self.wants(f"the answer to request {at}", "answered 2.05", self.next_line(client)[:13])
            self.ends_at(client, relay, sensor)
            with ended(self.begins(1)) as sensor:
                relay.leads_to(self.port)
                self.registers(client, LATER)
                self.cancels(client, relay)
                self.registers(client, LATER)
                self.ends_at(client, relay, sensor)


class ReaderStory(Story):
    """The reader cancels behind so many notifications, and asks nothing else while it observes. Each run of it is at a relay of its own, since
    it has a port of its own."""

    whose, words = "server, and our reader", THE_SENSOR

    @contextlib.contextmanager
    def reads(self, server: Observed, first: int, count: int, cancels: bool = True, is_last_lost: bool = False) -> Iterator[subprocess.Popen]:
        """It was handed so many then, and either cancels or goes on."""
        server.measure(temperature(first))
        with self.relay(OfReader, server.port, count, is_last_lost) as relay:
            line = [str(self.bench.ours / "reader"), str(relay.port), str(self.bench.work / "reader"), str(count if cancels else MOST_DATAGRAMS)]
            with ended(subprocess.Popen([*line, *self.bench.first("reader")], stdout=subprocess.PIPE, text=True)) as reader:
                for at in range(1, count + 1):
                    self.wants(f"whether notification {at - 1} comes", True, relay.hands(at))
                    if at < count:
                        server.measure(temperature(first + at))
                yield reader

    def says(self, reader: subprocess.Popen, first: int, count: int, last: str) -> None:
        """Until it has ended."""
        told = reader.communicate(timeout=2 * WAITED_S)[0].splitlines()
        heard = [line for line in (re.match(r"(?:(\d+)|no Partial IV of its own): ([\d.]+)$", line) for line in told) if line]
        self.wants("what the reader hears", [temperature(first + at) for at in range(count)], [line[2] for line in heard])
        self.wants("whether the numbers that it hears grow", True, outside.grows([int(line[1]) for line in heard if line[1]]))
        self.wants("the last response", last, told[-1])

    def last_lost(self, server: Observed, first: int) -> None:
        """The acknowledgment of the last notification before the cancellation, each time. The reader acknowledges it no more then. libcoap's
        server has one confirmable message on its way at a time, and the answer to a cancellation is another."""
        with self.reads(server, first, LATER, is_last_lost=True) as reader:
            if not self.ends.can_cancel:
                self.says(reader, first, LATER, f"last: 2.05 {temperature(first + LATER - 1)}")
                return
            relay = self.relays[-1]
            last = relay.handed()[-1]
            self.wants("whether the last notification comes again", True, soon(lambda: relay.arrived.count(last) > AGAIN))
            self.wants("how often it is acknowledged", 1, sum(outside.acknowledges(said, last) for said in relay.of_client))
            self.wants("whether the reader waits on", None, reader.poll())

    def tell(self) -> None:
        with self.observed() as server:
            with self.reads(server, 0, NOTIFICATIONS) as reader:
                self.says(reader, 0, NOTIFICATIONS, f"last: 2.05 {temperature(NOTIFICATIONS - 1)}")
            with self.reads(server, 100, LATER, cancels=False) as reader:
                server.delete()
                self.says(reader, 100, LATER, "last: 4.04")
            self.last_lost(server, 200)


STORIES = (SensorStory, ReaderStory, CommandServerStory, CommandCallerStory)


def told(kind: type, words: List[str], work: pathlib.Path) -> Bench:
    """What was looked at in one story. All that went over its relays is judged, also where it ended early."""
    ours, oscore, seed, name, *theirs = words
    work.mkdir()
    bench = Bench(ours, work)
    story = kind(bench, AiocoapEnds(bench) if name == "aiocoap" else LibcoapEnds(bench, *theirs), oscore, seed)
    for step in (story.tell, story.judge):
        try:
            step()
        except Found as found:
            bench.failures += 1
            print(f"{story.what}: {found}", flush=True)
        except (OSError, SystemExit, subprocess.TimeoutExpired, Malformed, Refused) as failure:
            bench.check(story.what, "an end", f"{type(failure).__name__} {failure}")
    return bench


def main(words: List[str]) -> int:
    if len(words) != {"aiocoap": 4, "libcoap": 5}.get(words[3] if len(words) > 3 else ""):
        raise SystemExit(__doc__)
    # Whoever ends this program early ends its programs too.
    signal.signal(signal.SIGTERM, lambda *_: sys.exit(1))
    with tempfile.TemporaryDirectory() as work, ThreadPoolExecutor(len(STORIES)) as pool:
        works = [pathlib.Path(work) / kind.__name__ for kind in STORIES]
        benches = list(pool.map(told, STORIES, [words] * len(STORIES), works))
    failures = sum(bench.failures for bench in benches)
    print(f"observations with loss beside {words[3]}: {sum(bench.looked for bench in benches)} answers looked at; {failures} are otherwise")
    return 1 if failures else 0


if __name__ == "__main__":
    sys.exit(main(sys.argv[1:]))
