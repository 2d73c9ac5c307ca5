"""aiocoap's security context as what messages.py compares with: its derivation, its protection, its reading and writing of CoAP. Of what it
imports filelock gets a stand-in that does nothing where it isn't here, and cbor2 one that spells as this folder's reading does."""

from __future__ import annotations

import importlib.util
import re
import sys
import types
from typing import Tuple

import oscore_reading
from chance import MOST_NUMBER, Pair, Trial
from oscore_reading import OSCORE, URI_HOST, URI_PORT, Opened, Refused, first


def dumps(value: object) -> bytes:
    """The CBOR of what infos and additional data are made of."""
    if isinstance(value, (list, tuple)):
        return oscore_reading.array(*map(dumps, value))
    if isinstance(value, str):
        return oscore_reading.text(value)
    if isinstance(value, int):
        return oscore_reading.unsigned(value)
    return oscore_reading.NULL if value is None else oscore_reading.byte_string(value)


STOOD_IN = [name for name in ("cbor2", "filelock") if importlib.util.find_spec(name) is None]
for name in STOOD_IN:
    sys.modules[name] = types.ModuleType(name)
    sys.modules[name].dumps = dumps

import aiocoap.meta  # noqa: E402
import aiocoap.oscore as peer  # noqa: E402

LEAST_VERSION = [0, 4, 14]
TEXTS, NUMBERS = (URI_HOST, 8, 11, 15, 20), (12, 14, 16, 17, 28, 60, 258)
"""The options that aiocoap reads as texts and as numbers: a value has to be one, in its shortest bytes."""


class SecurityContext(peer.CanProtect, peer.CanUnprotect, peer.SecurityContextUtils):
    """One end of a context, in memory."""

    echo_recovery = None

    def __init__(self, pair: Pair, end: oscore_reading.Context):
        self.alg_aead, self.hashfun = peer.algorithms["AES-CCM-16-64-128"], peer.hashfunctions["sha256"]
        self.sender_id, self.recipient_id, self.id_context = end.sender, end.recipient, end.id_context
        self.derive_keys(pair.salt, pair.secret)

    def post_seqnoincrease(self) -> None:
        pass

    def begin(self, number: int) -> None:
        """Goes on at a number, with nothing seen."""
        self.sender_sequence_number = number
        self.recipient_replay_window = peer.ReplayWindow(32, lambda: None)
        self.recipient_replay_window.initialize_empty()


def suited_options(trial: Trial) -> Tuple[Tuple[int, bytes], ...]:
    """aiocoap leaves Uri-Port out, and Uri-Host inside in a response; of several Uri-Host it keeps the first. It reads the values of Block
    options and of Observe, which here are bytes of any kind, and has no rule for Hop-Limit and EDHOC, so these aren't compared."""
    suited = []
    for number, value in trial.message.options:
        if number == URI_PORT or (number == URI_HOST and (not trial.is_request or first(tuple(suited), URI_HOST) is not None)):
            continue
        if number in (*oscore_reading.BLOCKS, oscore_reading.OBSERVE, oscore_reading.HOP_LIMIT, oscore_reading.EDHOC):
            continue
        if number in TEXTS:
            value = bytes(ord("a") + byte % 26 for byte in value)
        suited.append((number, value[:2].lstrip(b"\0") if number in NUMBERS else value))
    return tuple(suited)


class Aiocoap:
    name = f"aiocoap {aiocoap.meta.version}" + (f" with a stand-in for {' and '.join(STOOD_IN)}" if STOOD_IN else "")
    refuses_options = False

    def begin(self, pair: Pair) -> Tuple[SecurityContext, SecurityContext]:
        self.client, self.server = SecurityContext(pair, pair.client), SecurityContext(pair, pair.server)
        return self.client, self.server

    def suited(self, trial: Trial) -> Trial:
        """The same message, as far as aiocoap can say it. It never gives the last number."""
        number = min(trial.number, MOST_NUMBER - 1)
        own = None if trial.own is None else min(trial.own, MOST_NUMBER - 1)
        return Trial(trial.is_request, number, own, trial.message._replace(options=suited_options(trial)))

    def request_of(self, trial: Trial, may_reuse: bool) -> peer.RequestIdentifiers:
        return peer.RequestIdentifiers(self.client.sender_id, oscore_reading.partial_iv_of(trial.number), may_reuse, aiocoap.POST)

    def sealed(self, trial: Trial, plain: bytes) -> bytes:
        message = aiocoap.Message.decode(plain)
        if trial.is_request:
            self.client.begin(trial.number)
            outer, _ = self.client.protect(message)
        else:
            self.server.begin(trial.own or 0)
            outer, _ = self.server.protect(message, self.request_of(trial, trial.own is None))
        outer.mtype, outer.mid, outer.token = message.mtype, message.mid, message.token
        return outer.encode()

    def opened(self, trial: Trial, datagram: bytes) -> Opened:
        outer = aiocoap.Message.decode(datagram)
        end, request = (self.server, None) if trial.is_request else (self.client, self.request_of(trial, False))
        end.begin(0)
        try:
            inner, _ = end.unprotect(outer, request)
        except peer.ProtectionInvalid:
            raise Refused("Tag") from None
        number = end._uncompress(outer.opt.oscore, b"")[2].get(peer.COSE_PIV)
        options = tuple((int(option.number), option.encode()) for option in inner.opt.option_list())
        return Opened(int(outer.mtype), int(inner.code), outer.mid, outer.token, None if number is None else int.from_bytes(number, "big"),
                      None if outer.opt.uri_host is None else outer.opt.uri_host.encode(), None, options, inner.payload)


if [int(part) for part in re.findall(r"\d+", aiocoap.meta.version)[:3]] < LEAST_VERSION:
    raise ImportError(f"aiocoap {aiocoap.meta.version} is older than 0.4.14")
