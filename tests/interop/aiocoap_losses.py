"""One end of observations by aiocoap, over UDP on 127.0.0.1 and a context as aiocoap_end.py has it.

    aiocoap_losses.py caller FOLDER PORT
        takes the lines "register", "cancel" and "ask", for GET /temperature with Observe 0, for the end of what was registered last, and for
        GET without Observe, and prints a line for what comes: "heard PAYLOAD" of a notification, "last CODE" of what ends the observation,
        "answered CODE PAYLOAD" of the response to what was asked, "cancelled" of a cancellation, or "failed NAME"
    aiocoap_losses.py observed FOLDER PORT
        that role of aiocoap_observe.py, which prints "done" for each line, and nothing of observers

Each prints "ready" first, and sends what is confirmable again sooner, and more often, than RFC 7252, 4.8 has it by default."""

from __future__ import annotations

import asyncio
import logging
import sys
from typing import Awaitable

# These modules first: they have what stands in for what aiocoap imports.
import aiocoap_end
import aiocoap
import aiocoap_observe
from aiocoap_observe import PATH, Context, next_line, serve
from aiocoap.numbers.constants import TransportTuning

HASTY_S, PATIENT = 0.1, 10


def say(line: str) -> None:
    print(line, flush=True)


def code_of(response: aiocoap.Message) -> str:
    return f"{int(response.code) >> 5}.{int(response.code) & 31:02}"


def show(response: aiocoap.Message) -> None:
    """What comes of an observation."""
    say(f"heard {response.payload.decode()}" if response.code == aiocoap.CONTENT else f"last {code_of(response)}")


class Temperature(aiocoap_observe.Temperature):
    def update_observation_count(self, newcount: int) -> None:
        pass

    def happens(self, *words: str) -> None:
        super().happens(*words)
        say("done")


async def saying(what: Awaitable[None]) -> None:
    try:
        await what
    except aiocoap.error.Error as failure:
        say(f"failed {type(failure).__name__}")


async def hear(request) -> None:
    show(await request.response)
    async for response in request.observation:
        show(response)


async def learn(request) -> None:
    response = await request.response
    say(f"answered {code_of(response)} {response.payload.decode()}")


async def call(folder: str, port: int) -> None:
    context = await aiocoap.Context.create_client_context(transports=aiocoap_end.CLIENT_TRANSPORTS)
    context.client_credentials[f"coap://127.0.0.1:{port}/*"] = Context(folder)
    # What failed in an observation, aiocoap's iterators say once more where they end.
    sys.unraisablehook = lambda *_: None
    registered, tasks = None, []
    say("ready")
    while line := (await next_line()).strip():
        if line == "cancel":
            registered.observation.cancel()
            say("cancelled")
            continue
        request = context.request(aiocoap.Message(code=aiocoap.GET, uri=f"coap://127.0.0.1:{port}/{PATH}",
                                                  observe=0 if line == "register" else None))
        registered = request if line == "register" else registered
        tasks.append(asyncio.create_task(saying((hear if line == "register" else learn)(request))))


def main(role: str, folder: str, port: str) -> None:
    logging.disable(logging.CRITICAL)
    TransportTuning.ACK_TIMEOUT, TransportTuning.MAX_RETRANSMIT = HASTY_S, PATIENT
    asyncio.run(call(folder, int(port)) if role == "caller" else serve(folder, int(port), Temperature()))


if __name__ == "__main__":
    main(*sys.argv[1:])
