"""Two devices that both ask and answer under one context, each a program `oscore run --role peer` over a record, and killed at random. A run
of the program is a life of its device: it gets a few lines, of commands to seal and of datagrams that came, and is killed at a moment drawn
at random, or not. Only what it printed by then has happened to the world: what it sealed lies with the relay, what it delivered was obeyed.
The relay loses three datagrams of ten, doubles three and holds three back. Who sealed a command sends it again, the same datagram, until it
is obeyed. In its first life each device obeys one command of the other, so that no later life begins with a challenge (docs/DECISIONS.md).
Then the same with devices that keep received numbers ahead: a later life of these challenges what is in doubt, and nobody seals it anew.

    python3 lives.py PROGRAM KILLS SEED

Judged is by oscore_reading.py, which shares nothing with the program: each text opens under the key of who sealed it and says what was to be
said; no two texts of a device have one nonce, in whatever roles; and each command is obeyed at most once, over all lives.
At last the same is tried with a device whose record is put back behind each life: that this is found shows that the judge can find it."""

from __future__ import annotations

import pathlib
import random
import subprocess
import sys
import tempfile
from dataclasses import dataclass, field
from typing import Dict, Iterator, List, Optional, Set, Tuple

import coap_reading
import oscore_reading
from coap_reading import ACK, CON, Message
from oscore_reading import Context

SECRET, SALT = bytes.fromhex("0102030405060708090a0b0c0d0e0f10"), bytes.fromhex("9e7ca92223786340")
IDENTIFIERS = b"\x01", b""
"""RFC 8613, C.1."""
PUT, CHANGED = 0x03, 0x44
LOST, DOUBLED, HELD_BACK = 0.3, 0.3, 0.3
LONGER, SHORTER = 1.05, 0.96
"""What becomes of the time that lives get, behind one that was killed and behind one that ended: so some half of them are killed, however much
else runs beside them."""
AHEAD, KILLS_AHEAD = 3, 5
"""How many numbers the second pair of devices keeps ahead, and of how many kills one is of these."""
GIVEN_UP_S = 20
LIVES_OF_A_FORGETFUL_DEVICE = 60
OBEYED_AT_LEAST = 0.1
"""Of all commands. A command is obeyed by no life if the relay held it back until a greater number had come in an earlier life, or if the
life that was to obey it was killed behind its save."""


class Found(Exception):
    """What must not be."""


@dataclass
class Text:
    """What a device sealed, as it was printed, and what it was to say."""

    datagram: bytes
    payload: bytes
    request: Optional[int]
    """Of a response: the number of the request that it answers."""


@dataclass
class Device:
    """One of both, as the world sees it."""

    name: str
    line: List[str]
    record: pathlib.Path
    context: Context
    texts: List[Text] = field(default_factory=list)
    obeyed: List[bytes] = field(default_factory=list)
    arrived: List[bytes] = field(default_factory=list)
    unheard: Dict[bytes, bytes] = field(default_factory=dict)
    """The datagrams of its commands that weren't obeyed yet, by their payloads."""
    lives: int = 0
    kills: int = 0

    def put_back(self, found: Dict[str, bytes]) -> None:
        for name, text in found.items():
            pathlib.Path(name).write_bytes(text)

    def keep(self) -> Dict[str, bytes]:
        return {str(path): path.read_bytes() for path in self.record.parent.glob(self.record.name + ".[ab]")}


def devices(folder: pathlib.Path, program: str, ahead: int) -> List[Device]:
    made = []
    for name, own, other in (("near", IDENTIFIERS[0], IDENTIFIERS[1]), ("far", IDENTIFIERS[1], IDENTIFIERS[0])):
        words = ["--secret", SECRET.hex(), "--salt", SALT.hex(), "--sender", own.hex(), "--recipient", other.hex()]
        line = [program, "run", "--role", "peer", *words, "--record", str(folder / name), *(("--ahead", str(ahead)) if ahead else ())]
        made.append(Device(name, line, folder / name, oscore_reading.derive(SECRET, SALT, None, own, other)))
    return made


class Relay:
    """Loses, doubles and holds back."""

    def __init__(self, chance: random.Random):
        self.chance, self.held = chance, []

    def hand(self, to: Device, datagram: bytes) -> None:
        if self.chance.random() < LOST:
            return
        for _ in range(2 if self.chance.random() < DOUBLED else 1):
            if self.chance.random() < HELD_BACK:
                self.held.append((to, datagram))
            else:
                to.arrived.append(datagram)

    def let_go(self) -> None:
        """Some of what was held back arrives, in another order."""
        self.chance.shuffle(self.held)
        for _ in range(len(self.held) // 3):
            to, datagram = self.held.pop()
            to.arrived.append(datagram)


def plain_command(count: int, payload: bytes) -> bytes:
    return coap_reading.write(Message(CON, PUT, count % 2**16, count.to_bytes(4, "big"), ((11, b"lock"),), payload))


def plain_reply(payload: bytes) -> bytes:
    return coap_reading.write(Message(ACK, CHANGED, 0, b"", (), payload))


@dataclass
class Line:
    """A line of input, and what is to be known of it once it has come to something."""

    text: str
    payload: bytes = b""
    datagram: bytes = b""


class World:
    def __init__(self, program: str, folder: pathlib.Path, seed: int, ahead: int = 0):
        self.chance = random.Random(seed)
        self.devices, self.relay = devices(folder, program, ahead), Relay(self.chance)
        self.commands, self.moment, self.usual_s, self.challenges = 0, 0, 0.01, 0
        self.first_lives()

    def first_lives(self) -> None:
        """Each device makes its record, asks once, and obeys what the other one asks. What the far one will ask is known before it is sealed,
        as sealing is no chance: it is looked at that it comes to that."""
        near, far = self.devices
        command = self.command(far)
        plain = coap_reading.read(bytes.fromhex(command.text.split(" ")[2]))
        known = oscore_reading.seal_request(far.context, 0, plain)
        far.texts.append(Text(known, command.payload, None))
        self.run(near, [Line(f"take 0 0000 {known.hex()}", datagram=known), self.command(near)], ["--first"])
        asked = near.texts[0].datagram
        far.texts.clear()
        self.run(far, [command, Line(f"take 0 0000 {asked.hex()}", datagram=asked)], ["--first"])
        if far.texts[0].datagram != known or not near.obeyed or not far.obeyed:
            raise Found("the first commands weren't obeyed")

    def command(self, device: Device) -> Line:
        self.commands += 1
        payload = f"{device.name} {self.commands}".encode()
        return Line(f"request {self.moment} {plain_command(self.commands, payload).hex()}", payload)

    def other(self, device: Device) -> Device:
        return self.devices[1 - self.devices.index(device)]

    def lines(self, device: Device) -> Iterator[Line]:
        """What a life of the device is to do: a few commands, and what came, each datagram with a reply to it."""
        for _ in range(self.chance.randint(0, 2)):
            yield self.command(device)
        arrived, device.arrived = device.arrived, []
        for datagram in arrived:
            is_request = coap_reading.read(datagram).code == oscore_reading.POST
            if not is_request:
                yield Line(f"hear {self.moment} {datagram.hex()}")
                continue
            yield Line(f"take {self.moment} {self.chance.randrange(2**16):04x} {datagram.hex()}", datagram=datagram)

    def input_of(self, device: Device) -> List[Line]:
        """The same, with a reply behind each datagram that may be a request. Its event is the line before."""
        lines: List[Line] = []
        for line in self.lines(device):
            lines.append(line)
            if line.datagram:
                own = self.chance.choice(("own", "shared"))
                payload = b"done " + str(self.chance.randrange(10**6)).encode()
                lines.append(Line(f"reply {len(lines) - 1} {own} {self.chance.randrange(2**16):04x} {plain_reply(payload).hex()}", payload, line.datagram))
        return lines

    def live(self, device: Device, may_be_killed: bool) -> None:
        """One life over some lines."""
        lines = self.input_of(device)
        self.moment += self.chance.randint(1, 1000)
        self.run(device, lines, [], self.chance.uniform(0, 1.5 * self.usual_s) if may_be_killed else None)

    def run(self, device: Device, lines: List[Line], words: List[str], kill_after_s: Optional[float] = None) -> None:
        """Runs the program over the lines, and kills it then if it runs still. What it printed is what happened."""
        device.lives += 1
        text = "".join(line.text + "\n" for line in lines)
        ran = subprocess.Popen([*device.line, *words], stdin=subprocess.PIPE, stdout=subprocess.PIPE, stderr=subprocess.PIPE, text=True)
        try:
            printed, told = ran.communicate(text, timeout=GIVEN_UP_S if kill_after_s is None else kill_after_s)
            self.usual_s *= SHORTER if kill_after_s is not None else 1
        except subprocess.TimeoutExpired:
            ran.kill()
            printed, told = ran.communicate()
            if kill_after_s is None:
                raise SystemExit(f"a life of {device.name} did not end") from None
            self.usual_s *= LONGER
        if ran.returncode == -9:
            device.kills += 1
        elif ran.returncode != 0:
            raise Found(f"{device.name}: status {ran.returncode}, {told}")
        entries = printed.split("\n")[:-1]
        if ran.returncode == 0 and len(entries) != len(lines):
            raise Found(f"{device.name}: {len(entries)} entries of {len(lines)} lines")
        for line, entry in zip(lines, entries):
            self.happened(device, line, entry.split(" "))

    def happened(self, device: Device, line: Line, words: List[str]) -> None:
        other = self.other(device)
        if words[0] == "sent":
            datagram = bytes.fromhex(words[2])
            device.texts.append(Text(datagram, line.payload, None))
            device.unheard[line.payload] = datagram
            self.relay.hand(other, datagram)
        elif words[0] == "deliver":
            self.obey(device, other, bytes.fromhex(words[5]), line.datagram)
        elif words[0] == "challenge":
            self.challenges += 1
            self.answered(device, other, bytes.fromhex(words[2]), b"", line.datagram)
        elif words[0] == "replied":
            self.answered(device, other, bytes.fromhex(words[1]), line.payload, line.datagram)

    def answered(self, device: Device, other: Device, datagram: bytes, payload: bytes, request: bytes) -> None:
        opened = oscore_reading.open_request(device.context, request)
        device.texts.append(Text(datagram, payload, opened.number))
        self.relay.hand(other, datagram)

    def obey(self, device: Device, other: Device, payload: bytes, datagram: bytes) -> None:
        opened = oscore_reading.open_request(device.context, datagram)
        if opened.payload != payload or opened.code != PUT:
            raise Found(f"{device.name} obeyed {payload!r}, and was told {opened.payload!r}")
        if payload not in {text.payload for text in other.texts if text.request is None}:
            raise Found(f"{device.name} obeyed {payload!r}, which nobody asked for")
        if payload in device.obeyed:
            raise Found(f"{device.name} obeyed {payload!r} twice")
        device.obeyed.append(payload)
        other.unheard.pop(payload, None)

    def send_again(self, device: Device) -> None:
        """Commands that weren't obeyed go out again, the same datagrams."""
        for datagram in list(device.unheard.values())[-8:]:
            self.relay.hand(self.other(device), datagram)

    def step(self, may_be_killed: bool = True) -> Device:
        device = self.chance.choice(self.devices)
        self.send_again(device)
        self.relay.let_go()
        self.live(device, may_be_killed)
        return device


def nonce_of(device: Device, text: Text) -> bytes:
    """The nonce of a text: of the Partial IV that it has, or of the request's (RFC 8613, 5.2)."""
    partial_iv, _, _ = oscore_reading.read_option(oscore_reading.oscore_value(coap_reading.read(text.datagram)))
    if partial_iv:
        return oscore_reading.nonce_of(device.context.common_iv, device.context.sender, partial_iv)
    return oscore_reading.nonce_of(device.context.common_iv, device.context.recipient, oscore_reading.partial_iv_of(text.request))


def judge(device: Device, other: Device) -> Tuple[int, int]:
    """Each text opens as what it was to say, and has a nonce of its own. Returns how many requests and responses there are."""
    nonces: Set[bytes] = set()
    requests = 0
    for text in device.texts:
        if text.request is None:
            requests += 1
            said = oscore_reading.open_request(other.context, text.datagram).payload
        else:
            said = oscore_reading.open_response(other.context, text.request, text.datagram).payload
        if said != text.payload:
            raise Found(f"{device.name} sealed {said!r}, and was to seal {text.payload!r}")
        nonce = nonce_of(device, text)
        if nonce in nonces:
            raise Found(f"{device.name} used the nonce {nonce.hex()} twice")
        nonces.add(nonce)
    return requests, len(device.texts) - requests


def over_lives(program: str, kills: int, seed: int, ahead: int) -> None:
    with tempfile.TemporaryDirectory() as folder:
        world = World(program, pathlib.Path(folder), seed, ahead)
        near, far = world.devices
        while near.kills + far.kills < kills:
            world.step()
        for _ in range(20):
            world.step(may_be_killed=False)
        obeyed = len(near.obeyed) + len(far.obeyed)
        asked = {text.payload for device in world.devices for text in device.texts if text.request is None}
        for device in world.devices:
            requests, responses = judge(device, world.other(device))
            print(f"{device.name}: {device.lives} lives, {device.kills} killed, {requests} requests, {responses} responses, "
                  f"{len(device.obeyed)} commands obeyed, none twice, no nonce twice")
            if min(requests, responses, len(device.obeyed), device.kills) == 0:
                raise Found(f"{device.name} did too little for this to mean anything")
        if obeyed < OBEYED_AT_LEAST * len(asked):
            raise Found(f"{obeyed} of {len(asked)} commands were obeyed")
        if (world.challenges > 0) != (ahead > 0):
            raise Found(f"{world.challenges} challenges, with {ahead} numbers ahead")


def forgetful(program: str, seed: int) -> None:
    """The judge finds a device whose record is put back behind each life."""
    with tempfile.TemporaryDirectory() as folder:
        world = World(program, pathlib.Path(folder), seed)
        near, far = world.devices
        found = near.keep()
        try:
            for _ in range(LIVES_OF_A_FORGETFUL_DEVICE):
                if world.step(may_be_killed=False) is near:
                    near.put_back(found)
            judge(near, far)
        except Found as what:
            print(f"a record that is put back is found: {what}")
            return
        raise SystemExit("a record that is put back was not found")


def main() -> None:
    program, kills, seed = sys.argv[1], int(sys.argv[2]), int(sys.argv[3])
    try:
        over_lives(program, kills, seed, 0)
        over_lives(program, kills // KILLS_AHEAD, seed, AHEAD)
    except Found as what:
        raise SystemExit(f"seed {seed}: {what}") from None
    forgetful(program, seed)


if __name__ == "__main__":
    main()
