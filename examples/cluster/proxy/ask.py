#!/usr/bin/env python3
"""Asks a server, or a proxy before several, a file of request lines over some connections, and writes the replies in their order as
`ddserve solve` does:

    ask.py 127.0.0.1:4200 < requests > replies
    ask.py ws://127.0.0.1:4201/ < requests > replies

Where a connection is closed it connects anew and asks again. Lines go by the package of `python/`, WebSockets by the package
`websockets`."""
import argparse
import asyncio
import json
import pathlib
import re
import sys

sys.path.append(str(pathlib.Path(__file__).resolve().parents[3] / "python"))
from ddserve.aio import AsyncClient  # noqa: E402
from ddserve.requests import Request  # noqa: E402

WAIT = 30_000
PATIENCE = 30.0
# The run or the server has to be left.
LEAVE = ('{"fault":14}', '{"fault":15}', '{"fault":18}')
# The lines that are asked or whose replies wait for their turn, for each connection.
AHEAD = 16


def as_of_line_tool(reply):
    """The bytes of a reply without the members that only a server has."""
    return json.dumps({name: it for name, it in reply.items() if name not in ("job", "state")}, separators=(",", ":"), sort_keys=True)


class ByLines:
    """The client of the package: it connects anew by itself."""

    def __init__(self, address, connections):
        host, _, port = address.rpartition(":")
        self.client = AsyncClient(host, int(port), connections=connections, wait=WAIT, patience=PATIENCE)

    async def ask(self, line):
        return await self.client.ask(Request(json.loads(line), as_of_line_tool))

    async def close(self):
        await self.client.close()


class BySockets:
    """WebSockets: each has one line at a time."""

    def __init__(self, address, connections):
        self.address = address
        self.idle = asyncio.LifoQueue()
        for _ in range(connections):
            self.idle.put_nowait(None)

    async def ask(self, line):
        import websockets

        end = asyncio.get_running_loop().time() + PATIENCE
        while True:
            stream = await self.idle.get()
            try:
                stream = stream or await websockets.connect(self.address, compression=None)
                reply = await self.round_trip(stream, line)
                self.idle.put_nowait(stream)
                return reply
            except (OSError, asyncio.TimeoutError, websockets.WebSocketException):
                self.idle.put_nowait(None)
                if asyncio.get_running_loop().time() > end:
                    raise
                await asyncio.sleep(0.1)

    async def round_trip(self, stream, line):
        import websockets

        await stream.send(f'{line[:-1]},"wait":{WAIT}}}')
        while True:
            reply = await stream.recv()
            if reply in LEAVE or '"state":"cancelled"' in reply:
                await stream.close()
                raise websockets.WebSocketException(reply)
            whole = re.sub(r',"job":\d+,"state":"done"', "", re.sub(r'\{"job":\d+,"state":"done",', "{", reply))
            if whole != reply or "fault" in reply:
                return whole
            await stream.send(json.dumps({"do": "fetch", "job": json.loads(reply)["job"], "wait": WAIT}))

    async def close(self):
        while not self.idle.empty():
            stream = self.idle.get_nowait()
            if stream:
                await stream.close()


async def main(address, connections):
    client = (BySockets if address.startswith("ws") else ByLines)(address, connections)
    waiting = asyncio.Queue(AHEAD * connections)

    async def read():
        for line in sys.stdin:
            await waiting.put(asyncio.ensure_future(client.ask(line.rstrip("\n"))))
        await waiting.put(None)

    reader = asyncio.ensure_future(read())
    while (reply := await waiting.get()) is not None:
        print(await reply, flush=True)
    await reader
    await client.close()


parser = argparse.ArgumentParser(description=__doc__, formatter_class=argparse.RawDescriptionHelpFormatter)
parser.add_argument("address")
parser.add_argument("--connections", type=int, default=12)
words = parser.parse_args()
asyncio.run(main(words.address, words.connections))
