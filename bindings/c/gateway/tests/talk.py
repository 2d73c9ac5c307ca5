"""Speaks with a gateway without any key.

    talk.py metrics SOCKET              prints the metrics
    talk.py until SOCKET NAME N         waits until a metric is at least N
    talk.py unprotected SOCKET PORT N   asks 60 times as nobody that the gateway knows, and pings once: of the errors at most N a second came back,
                                        and the metrics tell of the others
"""

import socket
import struct
import sys
import time


def metrics(path):
    with socket.socket(socket.AF_UNIX) as asking:
        asking.connect(path)
        text = b"".join(iter(lambda: asking.recv(4096), b""))
    return {name.removeprefix("oscore_gateway_"): int(value) for name, value in map(str.split, text.decode().splitlines())}


def until(path, name, least):
    while metrics(path)[name] < least:
        time.sleep(0.02)


def request(number):
    """A request whose OSCORE option has a Partial IV and a kid that no context has."""
    return struct.pack(">BBHB", 0x41, 2, number, 7) + b"\x96\x09\x01nobo" + b"\xff" + bytes(12)


def unprotected(path, port, most):
    begun = int(time.monotonic())
    with socket.socket(socket.AF_INET, socket.SOCK_DGRAM) as asking:
        asking.connect(("127.0.0.1", port))
        asking.settimeout(5)
        replies = 0
        for number in range(60):
            asking.send(request(number))
        until(path, "unknown", 60)
        silenced = metrics(path)["silenced"]
        for _ in range(60 - silenced):
            reply = asking.recv(200)
            assert reply[0] == 0x61 and reply[1] == 0x81, reply.hex()
            replies += 1
        seconds = int(time.monotonic()) - begun + 1
        assert most <= replies <= most * seconds, (replies, seconds)
        while True:
            asking.send(b"\x40\x00\x12\x34")
            try:
                asking.settimeout(1)
                assert asking.recv(200) == b"\x70\x00\x12\x34"
                break
            except TimeoutError:
                pass
    print(f"unprotected: {replies} of 60 errors were sent in {seconds} seconds of at most {most} each")


if __name__ == "__main__":
    what, path = sys.argv[1:3]
    if what == "metrics":
        for name, value in metrics(path).items():
            print(name, value)
    elif what == "until":
        until(path, sys.argv[3], int(sys.argv[4]))
    else:
        unprotected(path, int(sys.argv[3]), int(sys.argv[4]))
