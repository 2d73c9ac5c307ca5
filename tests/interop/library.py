"""The C library's calls, through the program calls.c, whose head says how its lines look."""

from __future__ import annotations

import subprocess
from typing import List, NamedTuple, Optional

from oscore_reading import Context, Opened

CIPHERS = ("in constant time", "by tables")
CLIENT, SERVER = 0, 2
"""The slots of a context's two ends; the one behind each has the same context, by tables."""


class Answer(NamedTuple):
    status: str
    detail: int
    datagram: bytes
    """What was sealed, or the datagram behind an opening."""
    opened: Optional[Opened]


def shown(value: Optional[bytes]) -> str:
    return "none" if value is None else value.hex() or "-"


def shown_number(number: Optional[int]) -> str:
    return "none" if number is None else str(number)


def bytes_of(word: str) -> bytes:
    return b"" if word == "-" else bytes.fromhex(word)


def there(word: str) -> Optional[bytes]:
    return None if word == "none" else bytes_of(word)


def opened_of(words: List[str]) -> Opened:
    kind, code, message_id, token, number, uri_host, uri_port, payload = words[:8]
    options = tuple((int(option), bytes_of(value)) for option, value in zip(words[8::2], words[9::2]))
    return Opened(int(kind), int(code), int(message_id), bytes_of(token), None if number == "none" else int(number), there(uri_host),
                  there(uri_port), options, bytes_of(payload))


def answer_of(line: str) -> Answer:
    status, detail, datagram, *rest = line.split()
    return Answer(status, int(detail), bytes_of(datagram), opened_of(rest) if rest else None)


class Library:
    def __init__(self, program: str):
        self.process = subprocess.Popen([program], stdin=subprocess.PIPE, stdout=subprocess.PIPE, text=True)

    def ask(self, lines: List[str]) -> List[str]:
        self.process.stdin.write("\n".join(lines) + "\nend\n")
        self.process.stdin.flush()
        answers = [self.process.stdout.readline() for _ in lines]
        if not answers[-1]:
            raise SystemExit(f"calls.c ended with status {self.process.wait()} at one of these lines:\n" + "\n".join(lines))
        return answers

    def derive(self, secret: bytes, salt: bytes, client: Context) -> List[List[str]]:
        """Derives the context of a client and that of its server, each twice. Answers the words that came."""
        ends = [(CLIENT, client.sender, client.recipient), (SERVER, client.recipient, client.sender)]
        lines = [
            f"derive {slot + cipher} {cipher} {int(client.blocks)} {int(client.observe)} {shown(secret)} {shown(salt)} {shown(client.id_context)} {shown(own)} {shown(other)}"
            for slot, own, other in ends for cipher in range(len(CIPHERS))
        ]
        return [answer.split() for answer in self.ask(lines)]

    def end(self) -> None:
        self.process.stdin.close()
        if self.process.wait() != 0:
            raise SystemExit(f"calls.c ended with status {self.process.returncode}")
