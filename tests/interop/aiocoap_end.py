"""One end of aiocoap over UDP on 127.0.0.1, with its own transports, credentials, and files of a context.

    aiocoap_end.py client FOLDER PORT
        asks by lines "KIND METHOD PATH TOKEN_LEN PAYLOAD [observe|SIZE]", where SIZE is that of blocks, and prints "CODE PAYLOAD", or
        "failed NAME"
    aiocoap_end.py server FOLDER PORT
        prints "ready", and what its resource lock was told

FOLDER holds the context's settings.json; aiocoap keeps its numbers there. Payloads are hex, "-" where there are none. The server's
resources: lock, which PUT opens and shuts; mirror, which says back the method and the payload, 1,024 bytes at most; slow, the same
later than aiocoap waits with its acknowledgment; own, the same with a Partial IV of the response's own; long, which says as many bytes
as it is asked for; body, which says what was put there. Of what aiocoap imports lakers, which is for EDHOC alone, gets a stand-in that
does nothing where it isn't here."""

from __future__ import annotations

import asyncio
import functools
import hashlib
import importlib.util
import logging
import sys
import types
from typing import List

if importlib.util.find_spec("lakers") is None:
    sys.modules["lakers"] = types.ModuleType("lakers")

import aiocoap  # noqa: E402
import aiocoap.oscore  # noqa: E402
import aiocoap.resource  # noqa: E402
from aiocoap.credentials import CredentialsMap  # noqa: E402
from aiocoap.oscore_sitewrapper import OscoreSiteWrapper  # noqa: E402

GIVEN_UP_S = 15
LATE_S = 0.3
"""Later than EMPTY_ACK_DELAY, 0.1 seconds."""
MOST_PAYLOAD = 1024
"""aiocoap sends more in parts."""
CLIENT_TRANSPORTS, SERVER_TRANSPORTS = ["oscore", "udp6"], ["udp6"]
METHODS = {"get": aiocoap.GET, "post": aiocoap.POST, "put": aiocoap.PUT, "delete": aiocoap.DELETE, "fetch": aiocoap.FETCH,
           "patch": aiocoap.PATCH, "ipatch": aiocoap.iPATCH}
CODES = {aiocoap.GET: aiocoap.CONTENT, aiocoap.FETCH: aiocoap.CONTENT, aiocoap.DELETE: aiocoap.DELETED}


class Context(aiocoap.oscore.FilesystemSecurityContext):
    """aiocoap's own, but that a request of kind NON is protected as NON: aiocoap alone makes each one CON."""

    def protect(self, message, request_id=None, **words):
        outer, request_id = super().protect(message, request_id, **words)
        if message.code.is_request():
            outer.mtype = message.mtype
        return outer, request_id

    def unprotect(self, protected, request_id=None):
        message, request_id = super().unprotect(protected, request_id)
        if message.code.is_request() and message.opt.uri_path[:1] == ("own",):
            request_id.can_reuse_nonce = False
        return message, request_id


class Mirror(aiocoap.resource.Resource):
    """Says back the method and the payload, so many seconds later."""

    def __init__(self, late_s: float = 0):
        super().__init__()
        self.late_s = late_s

    async def render(self, request):
        await asyncio.sleep(self.late_s)
        payload = f"0.{int(request.code):02} ".encode() + request.payload
        return aiocoap.Message(code=CODES.get(request.code, aiocoap.CHANGED), payload=payload[:MOST_PAYLOAD])


class Long(aiocoap.resource.Resource):
    async def render_post(self, request):
        return aiocoap.Message(code=aiocoap.CHANGED, payload=b"x" * int(request.payload))


class Lock(aiocoap.resource.Resource):
    async def render_put(self, request):
        print(f"obeyed {request.payload.decode()}", flush=True)
        return aiocoap.Message(code=aiocoap.CHANGED, payload=request.payload)


class Body(aiocoap.resource.Resource):
    body = b""

    async def render_put(self, request):
        self.body = request.payload
        return aiocoap.Message(code=aiocoap.CHANGED)

    async def render_get(self, request):
        response = aiocoap.Message(payload=self.body)
        response.opt.etag = hashlib.sha256(self.body).digest()[:8]
        return response


async def serve(folder: str, port: int) -> None:
    site, credentials = aiocoap.resource.Site(), CredentialsMap()
    for path, resource in (("lock", Lock()), ("mirror", Mirror()), ("slow", Mirror(LATE_S)), ("own", Mirror()), ("long", Long()),
                           ("body", Body())):
        site.add_resource([path], resource)
    credentials[":context"] = Context(folder)
    await aiocoap.Context.create_server_context(OscoreSiteWrapper(site, credentials), bind=("127.0.0.1", port),
                                                transports=SERVER_TRANSPORTS)
    print("ready", flush=True)
    await asyncio.get_running_loop().run_in_executor(None, sys.stdin.read)


def next_token(manager, token_len: int) -> bytes:
    manager._token += 1
    return manager._token.to_bytes(8, "big")[8 - token_len:]


def set_tokens(context: aiocoap.Context, token_len: int) -> None:
    """aiocoap counts its tokens itself; here each gets a length."""
    for manager in context.request_interfaces:
        if hasattr(manager, "next_token"):
            manager.next_token = functools.partial(next_token, manager, token_len)


def set_size(request: aiocoap.Message, size: int) -> None:
    """Of the blocks that are sent, or are asked for."""
    block = (0, False, size.bit_length() - 5)
    if request.payload:
        request.opt.block1 = block
    else:
        request.opt.block2 = block


async def ask(context: aiocoap.Context, port: int, words: List[str]) -> str:
    kind, method, path, token_len, payload, *more = words
    set_tokens(context, int(token_len))
    request = aiocoap.Message(code=METHODS[method], uri=f"coap://127.0.0.1:{port}/{path}", payload=bytes.fromhex(payload.strip("-")))
    request.mtype = {"CON": aiocoap.CON, "NON": aiocoap.NON}[kind]
    if more == ["observe"]:
        request.opt.observe = 0
    elif more:
        set_size(request, int(more[0]))
    try:
        response = await asyncio.wait_for(context.request(request).response, GIVEN_UP_S)
    except (aiocoap.error.Error, asyncio.TimeoutError) as failure:
        return f"failed {type(failure).__name__}"
    return f"{int(response.code) >> 5}.{int(response.code) & 31:02} {response.payload.hex() or '-'}"


async def ask_all(folder: str, port: int) -> None:
    context = await aiocoap.Context.create_client_context(transports=CLIENT_TRANSPORTS)
    context.client_credentials[f"coap://127.0.0.1:{port}/*"] = Context(folder)
    loop = asyncio.get_running_loop()
    print("ready", flush=True)
    while line := await loop.run_in_executor(None, sys.stdin.readline):
        print(await ask(context, port, line.split()), flush=True)


if __name__ == "__main__":
    logging.disable(logging.CRITICAL)
    asyncio.run({"client": ask_all, "server": serve}[sys.argv[1]](sys.argv[2], int(sys.argv[3])))
