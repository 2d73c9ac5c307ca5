"""One end of an observation by aiocoap, over UDP on 127.0.0.1 and a context as aiocoap_end.py has it.

    aiocoap_observe.py observer FOLDER PORT TOKEN_LEN [COUNT]
        registers for GET /temperature, and prints what it hears until the observation is over: the payload of a 2.05, the code of any
        other response, or "failed NAME". Behind so many, 2 at least, it cancels, prints "cancelled", and waits for a line
    aiocoap_observe.py observed FOLDER PORT
        serves /temperature; a line "CON TEMPERATURE" or "NON TEMPERATURE" is a new temperature, which it notifies so, and "gone" is the end
        of it. It prints "observers COUNT" where somebody registers, cancels, or is told the end

Each prints "ready" first."""

from __future__ import annotations

import asyncio
import logging
import sys

# This module first: it has what stands in for what aiocoap imports.
import aiocoap_end
import aiocoap
import aiocoap.resource
from aiocoap.credentials import CredentialsMap
from aiocoap.oscore_sitewrapper import OscoreSiteWrapper

PATH = "temperature"
KINDS = {"CON": aiocoap.CON, "NON": aiocoap.NON}


class Context(aiocoap_end.Context):
    """That one, but that a notification has the kind that the resource gave it: aiocoap alone makes each one CON."""

    def protect(self, message, request_id=None, **words):
        outer, request_id = super().protect(message, request_id, **words)
        if message.code.is_response() and message.mtype is not None:
            outer.mtype = message.mtype
        return outer, request_id


class Temperature(aiocoap.resource.ObservableResource):
    payload = b""

    async def render_get(self, request):
        return aiocoap.Message(payload=self.payload)

    def update_observation_count(self, newcount: int) -> None:
        print(f"observers {newcount}", flush=True)

    def tell(self, message: aiocoap.Message) -> None:
        for observation in list(self._observations):
            observation.trigger(message.copy())

    def happens(self, word: str, payload: str = "") -> None:
        if word == "gone":
            self.tell(aiocoap.Message(code=aiocoap.NOT_FOUND))
            return
        self.payload = payload.encode()
        self.tell(aiocoap.Message(code=aiocoap.CONTENT, mtype=KINDS[word], payload=self.payload))


async def next_line() -> str:
    return await asyncio.get_running_loop().run_in_executor(None, sys.stdin.readline)


async def serve(folder: str, port: int, temperature: Temperature) -> None:
    site, credentials = aiocoap.resource.Site(), CredentialsMap()
    site.add_resource([PATH], temperature)
    credentials[":context"] = Context(folder)
    await aiocoap.Context.create_server_context(OscoreSiteWrapper(site, credentials), bind=("127.0.0.1", port),
                                                transports=aiocoap_end.SERVER_TRANSPORTS)
    print("ready", flush=True)
    while line := await next_line():
        temperature.happens(*line.split())


def show(response: aiocoap.Message) -> None:
    code = int(response.code)
    print(response.payload.decode() if response.code == aiocoap.CONTENT else f"{code >> 5}.{code & 31:02}", flush=True)


async def hear(context: aiocoap.Context, port: int, count: int) -> None:
    request = context.request(aiocoap.Message(code=aiocoap.GET, uri=f"coap://127.0.0.1:{port}/{PATH}", observe=0))
    show(await request.response)
    async for response in request.observation:
        show(response)
        count -= 1
        if count == 1:
            request.observation.cancel()
            print("cancelled", flush=True)
            await next_line()
            return


async def observe(folder: str, port: int, token_len: int, count: int = 0) -> None:
    context = await aiocoap.Context.create_client_context(transports=aiocoap_end.CLIENT_TRANSPORTS)
    context.client_credentials[f"coap://127.0.0.1:{port}/*"] = Context(folder)
    aiocoap_end.set_tokens(context, token_len)
    # What failed in an observation, aiocoap's iterators say once more where they end.
    sys.unraisablehook = lambda *_: None
    print("ready", flush=True)
    try:
        await hear(context, port, count)
    except aiocoap.error.Error as failure:
        print(f"failed {type(failure).__name__}", flush=True)


def main(role: str, folder: str, *numbers: str) -> None:
    logging.disable(logging.CRITICAL)
    asyncio.run(observe(folder, *map(int, numbers)) if role == "observer" else serve(folder, *map(int, numbers), Temperature()))


if __name__ == "__main__":
    main(*sys.argv[1:])
