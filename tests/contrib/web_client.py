#!/usr/bin/python3
"""A WebSocket client for the tests of contrib/front, run by the Python that has aiohttp.

    web_client.py URL [--origin ORIGIN] [--deaf]

Each line of standard input is a message: a text of JSON, or {"bytes": N} for N bytes. Each message that comes is written as a line, and in the end {"closed": CODE}. With --deaf a ping isn't answered. Where no
link comes to be, {"status": N} is written."""
import argparse
import asyncio
import json
import sys

import aiohttp


def tell(it):
    print(json.dumps(it), flush=True)


async def typed(link):
    reader = asyncio.StreamReader(limit=1 << 24)
    await asyncio.get_running_loop().connect_read_pipe(lambda: asyncio.StreamReaderProtocol(reader), sys.stdin)
    while True:
        line = await reader.readline()
        if not line:
            return
        it = json.loads(line)
        await (link.send_str(it) if isinstance(it, str) else link.send_bytes(bytes(it["bytes"])))


async def main(given):
    headers = {"Origin": given.origin} if given.origin else {}
    async with aiohttp.ClientSession() as session:
        try:
            async with session.ws_connect(given.url, headers=headers, ssl=False, autoping=not given.deaf, max_msg_size=0) as link:
                typing = asyncio.ensure_future(typed(link))
                async for message in link:
                    if message.type == aiohttp.WSMsgType.TEXT:
                        tell(json.loads(message.data))
                typing.cancel()
                tell({"closed": link.close_code})
        except aiohttp.WSServerHandshakeError as why:
            tell({"status": why.status})


parser = argparse.ArgumentParser(description=__doc__, formatter_class=argparse.RawDescriptionHelpFormatter)
parser.add_argument("url")
parser.add_argument("--origin")
parser.add_argument("--deaf", action="store_true")
asyncio.run(main(parser.parse_args()))
