"""Exchanges over UDP on 127.0.0.1 with a peer, both ways.

    over_udp.py library|library-blocks|library-observe OURS PEER [THEIRS]
        OURS holds our programs lock, key, mirror and calls, or sensor, reader, and a sensor in the folder hasty that waits less
    over_udp.py node OURS PEER [THEIRS]
        OURS holds the programs lock and key of examples/
    over_udp.py command|command-blocks OSCORE PEER [THEIRS]
        OSCORE is our program of that name

PEER is aiocoap, or libcoap with THEIRS, the folder of its two programs."""

from __future__ import annotations

import pathlib
import signal
import sys
import tempfile
from typing import List

from aiocoap_udp import Aiocoap
from bench import Bench
from block_rows import BlockRows, CommandBlockRows
from command_rows import CommandRows
from libcoap import Libcoap
from node_rows import NodeBench, NodeRows
from observe_rows import ObserveRows
from rows import Rows

ROWS = {"library": (Rows, "the library"), "library-blocks": (BlockRows, "the library's blocks"), "command": (CommandRows, "the command"),
        "command-blocks": (CommandBlockRows, "the command's blocks"), "node": (NodeRows, "a node"), "library-observe": (ObserveRows, "the library's observations")}
"""The rows of each first word, and whose they are."""


def main(words: List[str]) -> int:
    if len(words) != {"aiocoap": 3, "libcoap": 4}.get(words[2] if len(words) > 2 else "") or words[0] not in ROWS:
        raise SystemExit(__doc__)
    what, ours, name, *theirs = words
    # Whoever ends this program early ends its servers too.
    signal.signal(signal.SIGTERM, lambda *_: sys.exit(1))
    with tempfile.TemporaryDirectory() as work:
        bench = (NodeBench if what == "node" else Bench)(ours, pathlib.Path(work))
        peer = Aiocoap(bench) if name == "aiocoap" else Libcoap(bench, theirs[0])
        named = peer.begin()
        rows, whose = ROWS[what]
        rows(bench, peer, *([ours] if what.startswith("command") else [])).run()
        print(f"{whose} and {named} over UDP: {bench.looked} answers looked at; {bench.failures} are otherwise")
        return 1 if bench.failures else 0


if __name__ == "__main__":
    sys.exit(main(sys.argv[1:]))
