"""aiocoap's client and server over UDP, as rows.py and observe_rows.py speak with them: each is the program aiocoap_end.py, or
aiocoap_observe.py, in a process of its own."""

from __future__ import annotations

import contextlib
import json
import os
import pathlib
import subprocess
import sys
from typing import Iterator, List, Tuple

from bench import (GIVEN_UP_S, METHODS, PAYLOAD_LENGTHS, SPLIT_LENGTH, WITHOUT_PAYLOAD, Bench, Observer, Words, answer_code, ended,
                   free_port, line_of)
from relay import Relay

MOST_PAYLOAD = 1024
"""As aiocoap_end.py has it."""
PROGRAM, OBSERVING = (pathlib.Path(__file__).with_name(f"aiocoap_{name}.py") for name in ("end", "observe"))


def bytes_of(word: str) -> bytes:
    return bytes.fromhex(word.strip("-"))


def settings(words: Words, is_client: bool) -> dict:
    own, their = (words.client, words.server) if is_client else (words.server, words.client)
    named = {"secret": words.secret, "salt": words.salt, "sender-id": own, "recipient-id": their}
    if words.id_context != "none":
        named["id-context"] = words.id_context
    return {f"{name}_hex": bytes_of(word).hex() for name, word in named.items()}


class End:
    """A process of aiocoap_end.py, which answers a line with a line. One that hangs is killed."""

    def __init__(self, process: subprocess.Popen):
        self.process = process

    def line(self) -> str:
        return line_of(self.process, 2 * GIVEN_UP_S)

    def ask(self, kind: str, method: str, path: str, payload: bytes, token_len: int, more: str = "") -> Tuple[str, bytes]:
        """The code and the payload that came, or what failed."""
        self.process.stdin.write(f"{kind} {method} {path} {token_len} {payload.hex() or '-'} {more}\n")
        self.process.stdin.flush()
        words = self.line().split()
        if len(words) == 2 and words[0] != "failed":
            return words[0], bytes_of(words[1])
        return " ".join(words) or "no answer", b""


class Observed:
    """A process of aiocoap_observe.py that is observed, and notifies by messages of one kind."""

    def __init__(self, end: End, port: int, kind: str):
        self.end, self.port, self.kind = end, port, kind

    def say(self, line: str) -> None:
        self.end.process.stdin.write(line + "\n")
        self.end.process.stdin.flush()

    def measure(self, temperature: str) -> None:
        self.say(f"{self.kind} {temperature}")

    def delete(self) -> None:
        self.say("gone")

    def is_alone(self, relay: Relay) -> bool:
        """Whether it had one observer, and has none any more."""
        return [self.end.line(), self.end.line()] == ["observers 1", "observers 0"]


class Aiocoap:
    name = "aiocoap"
    shows_codes = True
    first_asks_echo, first_put, body_path = False, "2.04", "body"
    lengths = (*PAYLOAD_LENGTHS, SPLIT_LENGTH)
    otherwise = {"a forged reply comes before each": ("failed ProtectionInvalid", b""),
                 "a reply without protection comes before each": ("failed NotAProtectedMessage", b"")}
    left_out = dict.fromkeys(("in parts", "with Observe"), ("failed NotAProtectedMessage", ["Inner", "Replay"]))
    block_orders = {"2": "4.08", "0 2": "2.31 5.00", "0 0 1 2 3": "2.31 2.31 2.31 2.31 2.04"}
    blocks_otherwise: dict = {}
    can_be_told = False
    orders = {"1 0": "DD", "0 2 0": "DDR", "2 3 2": "DDR"}
    forged_notification, shows_old, can_cancel, numbers_its_end = "failed ProtectionInvalid", False, False, True

    def __init__(self, bench: Bench):
        self.bench = bench

    def begin(self) -> str:
        """No program has to be there but Python's."""
        said = subprocess.run([sys.executable, "-c", "import aiocoap_end; print(aiocoap_end.aiocoap.meta.version)"], cwd=PROGRAM.parent,
                              capture_output=True, text=True, timeout=GIVEN_UP_S)
        return f"aiocoap {said.stdout.strip()}"

    def server_rows(self, payload: bytes):
        """All methods, and each once more with a Partial IV of the response's own; one that is answered late."""
        rows = [(method, path, b"" if method in WITHOUT_PAYLOAD else payload) for path in ("mirror", "own") for method in METHODS]
        rows += [("put", "slow", payload)]
        return [(method, path, sent, (answer_code(method), (f"0.{METHODS.index(method) + 1:02} ".encode() + sent)[:MOST_PAYLOAD]))
                for method, path, sent in rows]

    def most_block(self, at: int) -> int:
        return 1024

    def comes_by_itself(self, path: str, code: str) -> bool:
        return path == "slow"

    def ask_long(self, asker, payload: bytes):
        return asker.ask("CON", 2, "long", str(len(payload)).encode())

    def obeyed(self, end: End) -> List[str]:
        """What the resource was told, by what the server printed."""
        end.process.kill()
        return [line.split()[1] for line in end.process.stdout.read().splitlines()]

    def folder(self, name: str, words: Words, is_client: bool) -> pathlib.Path:
        """The folder of a context, which goes on where it was."""
        folder = self.bench.work / f"aiocoap.{name}"
        if not folder.exists():
            folder.mkdir()
            (folder / "settings.json").write_text(json.dumps(settings(words, is_client)))
        (folder / "lock").unlink(missing_ok=True)
        return folder

    @contextlib.contextmanager
    def end(self, role: str, name: str, words: Words, port: int, program: pathlib.Path = PROGRAM, *more: str) -> Iterator[End]:
        folder = self.folder(name, words, role in ("client", "observer"))
        process = subprocess.Popen([sys.executable, str(program), role, str(folder), str(port), *more], stdin=subprocess.PIPE,
                                   stdout=subprocess.PIPE, text=True)
        with ended(process):
            end = End(process)
            if end.line() != "ready":
                raise SystemExit(f"aiocoap's {role} doesn't begin")
            yield end

    def client(self, name: str, words: Words, port: int):
        return self.end("client", f"client.{name}", words, port)

    @contextlib.contextmanager
    def server(self, name: str, words: Words, is_told: bool = False) -> Iterator[Tuple[int, End]]:
        """Of one name the second has lost what the first saw: it was killed, so that its file says so."""
        port = free_port()
        with self.end("server", f"server.{name}", words, port) as end:
            yield port, end

    @contextlib.contextmanager
    def observer(self, name: str, words: Words, port: int, token_len: int, count: int = 0) -> Iterator[Observer]:
        """Which cancels behind so many, or never."""
        with self.end("observer", f"client.{name}", words, port, OBSERVING, str(token_len), str(count)) as end:
            yield Observer(end.process)

    @contextlib.contextmanager
    def observed(self, name: str, words: Words, kind: str) -> Iterator[Observed]:
        port = free_port()
        with self.end("observed", f"server.{name}", words, port, OBSERVING) as end:
            yield Observed(end, port, kind)
