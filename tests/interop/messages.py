"""Seals and opens random messages by the C library, in constant time and by tables, and by a peer, and compares byte by byte. A peer is
this folder's own reading of RFC 8613, or aiocoap.

    messages.py printed
        the reading alone, against what RFC 8613 prints in its Appendix C
    messages.py random reading|aiocoap CALLS MESSAGES SEED
        CALLS is calls.c, compiled"""

from __future__ import annotations

import random
import sys
from typing import Callable, List, Tuple

import appendix_c
import chance
import coap_reading
import oscore_reading
from chance import Pair, Trial
from library import CIPHERS, CLIENT, SERVER, Answer, Library, answer_of, shown, shown_number
from oscore_reading import Context, Opened, Refused, first

MOST_SHOWN = 5


class Reading:
    """This folder's reading, as a peer."""

    name = "the reading"
    refuses_options = True

    def begin(self, pair: Pair) -> Tuple[Context, Context]:
        """Takes the context of both ends. Answers what has their keys."""
        self.client, self.server = pair.client, pair.server
        return self.client, self.server

    def suited(self, trial: Trial) -> Trial:
        return trial

    def sealed(self, trial: Trial, plain: bytes) -> bytes:
        message = coap_reading.read(plain)
        if trial.is_request:
            return oscore_reading.seal_request(self.client, trial.number, message)
        return oscore_reading.seal_response(self.server, trial.number, trial.own, message)

    def opened(self, trial: Trial, datagram: bytes) -> Opened:
        if trial.is_request:
            return oscore_reading.open_request(self.server, datagram)
        return oscore_reading.open_response(self.client, trial.number, datagram)


def peer_of(name: str):
    if name == "reading":
        return Reading()
    from aiocoap_peer import Aiocoap

    return Aiocoap()


class Differences:
    """Counts what differs, and prints the first few."""

    def __init__(self) -> None:
        self.count = 0

    def compare(self, where: str, wanted: object, came: object) -> None:
        if wanted == came:
            return
        self.count += 1
        if self.count <= MOST_SHOWN:
            print(f"{where}\n    wanted: {wanted}\n    came:   {came}")


def outcome(call: Callable[[], object]) -> object:
    """What a call of a peer gives, or its refusal."""
    try:
        return call()
    except Refused as refused:
        return refused.status, refused.detail


def seal_line(trial: Trial, cipher: int, plain: bytes) -> str:
    if trial.is_request:
        return f"seal-request {CLIENT + cipher} {trial.number} {shown(plain)}"
    return f"seal-response {SERVER + cipher} {trial.number} {shown_number(trial.own)} {shown(plain)}"


def open_line(trial: Trial, cipher: int, datagram: bytes) -> str:
    if trial.is_request:
        return f"open-request {SERVER + cipher} {shown(datagram)}"
    return f"open-response {CLIENT + cipher} {trial.number} {shown(datagram)}"


def parts_of(trial: Trial) -> Opened:
    """What an opening has to show: all that was sealed, and of Uri-Host and Uri-Port the first."""
    message = trial.message
    inner = tuple(option for option in message.options if option[0] not in oscore_reading.OUTSIDE)
    host, port = (first(message.options, number) for number in oscore_reading.HOSTS)
    number = trial.number if trial.is_request else trial.own
    return Opened(message.kind, message.code, message.message_id, message.token, number, host, port, inner, message.payload)


class Comparison:
    """The library beside a peer, over messages of a seed."""

    def __init__(self, peer, program: str, seed: int):
        self.peer, self.library, self.seed = peer, Library(program), seed
        self.differences, self.spoiling = Differences(), random.Random(seed)
        self.contexts = self.requests = self.responses = self.refusals = 0

    def compare_keys(self, pair: Pair) -> None:
        ends = self.peer.begin(pair)
        for at, words in enumerate(self.library.derive(pair.secret, pair.salt, pair.client)):
            end, name = ends[at // len(CIPHERS)], ("the client", "the server")[at // len(CIPHERS)]
            wanted = ["Done", shown(end.sender_key), shown(end.recipient_key), shown(end.common_iv)]
            for part, one, other in zip(("status", "Sender Key", "Recipient Key", "Common IV"), wanted, words):
                self.differences.compare(f"context {self.contexts}: the {part} of {name}, {CIPHERS[at % len(CIPHERS)]}", one, other)

    def turned(self, datagram: bytes) -> bytes:
        """One bit of the ciphertext or of its tag is turned."""
        at = len(datagram) - 1 - self.spoiling.randrange(len(coap_reading.read(datagram).payload))
        return datagram[:at] + bytes([datagram[at] ^ 1 << self.spoiling.randrange(8)]) + datagram[at + 1:]

    def asked(self, lines: List[str]) -> List[Answer]:
        return [answer_of(line) for line in self.library.ask(lines)]

    def compare_message(self, where: str, trial: Trial) -> None:
        plain, parts, peer, compare = coap_reading.write(trial.message), parts_of(trial), self.peer, self.differences.compare
        sealed = peer.sealed(trial, plain)
        spoilt = self.turned(sealed)
        ciphers = range(len(CIPHERS))
        lines = [seal_line(trial, cipher, plain) for cipher in ciphers]
        answers = self.asked(lines + [open_line(trial, cipher, datagram) for datagram in (sealed, spoilt) for cipher in ciphers])
        compare(f"{where}: opened by {peer.name}", parts, outcome(lambda: peer.opened(trial, answers[0].datagram or sealed)))
        compare(f"{where}: a bit turned, opened by {peer.name}", ("Tag", 0), outcome(lambda: peer.opened(trial, spoilt)))
        for cipher, name in enumerate(CIPHERS):
            made, taken, refused = answers[cipher::len(CIPHERS)]
            compare(f"{where}: sealed {name}", ("Done", sealed.hex()), (made.status, made.datagram.hex()))
            compare(f"{where}: opened {name}", ("Done", parts), (taken.status, taken.opened))
            compare(f"{where}: a bit turned, opened {name}", ("Tag", 0, spoilt.hex()),
                    (refused.status, refused.detail, refused.datagram.hex()))

    def compare_refusal(self, where: str, pair: Pair, trial: Trial) -> None:
        """The same message with an option that can't be sealed: both say which."""
        number = self.spoiling.choice(pair.client.refused())
        plain = coap_reading.write(trial.message._replace(options=trial.message.options + ((number, b"x"),)))
        wanted = outcome(lambda: self.peer.sealed(trial, plain))
        for name, answer in zip(CIPHERS, self.asked([seal_line(trial, cipher, plain) for cipher in range(len(CIPHERS))])):
            self.differences.compare(f"{where}: option {number} {name}", wanted, (answer.status, answer.detail))
        self.refusals += 1

    def compare_trial(self, pair: Pair, trial: Trial) -> None:
        kind = "request" if trial.is_request else f"response (Partial IV {shown_number(trial.own)}) to request"
        where = f"context {self.contexts}, message {self.requests + self.responses}, {kind} {trial.number}"
        self.compare_message(where, trial)
        if self.peer.refuses_options and self.spoiling.random() < 0.05:
            self.compare_refusal(where, pair, trial)
        self.requests, self.responses = self.requests + trial.is_request, self.responses + (not trial.is_request)

    def run(self, messages: int) -> int:
        for pair, found in chance.trials(self.seed, messages):
            self.compare_keys(pair)
            for trial in found:
                self.compare_trial(pair, self.peer.suited(trial))
            self.contexts += 1
        self.library.end()
        refused = f"; {self.refusals} with an option that is refused" if self.peer.refuses_options else ""
        print(f"messages: the library beside {self.peer.name}, seed {self.seed}: {self.requests} requests and {self.responses} responses "
              f"under {self.contexts} contexts, each sealed, opened, and opened with a bit turned{refused}; "
              f"{self.differences.count} differences")
        return 1 if self.differences.count else 0


def compare_printed() -> int:
    rows = list(appendix_c.rows())
    wrong = [name for name, printed, came in rows if printed != came]
    for name in wrong:
        print(f"the reading differs from RFC 8613, {name}")
    print(f"messages: the reading beside {len(rows)} printed values of RFC 8613, C.1 to C.8; {len(wrong)} differences")
    return 1 if wrong else 0


def main(words: List[str]) -> int:
    if words == ["printed"]:
        return compare_printed()
    if len(words) == 5 and words[0] == "random":
        return Comparison(peer_of(words[1]), words[2], int(words[4])).run(int(words[3]))
    raise SystemExit(__doc__)


if __name__ == "__main__":
    sys.exit(main(sys.argv[1:]))
