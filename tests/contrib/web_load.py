#!/usr/bin/python3
"""Many WebSocket clients of contrib/front in one room: `web_load.py URL N`. They come in as P1 to PN, with the password `secret`, each says a line once all are in, and each waits until it has seen those of all others.
Writes how many lines were seen in all, and how many seconds the talk took."""
import asyncio
import json
import re
import sys
import time

import aiohttp

SAYS = re.compile(r'P(\d+) says, "I am (\d+)\."')


async def lines(link):
    async for message in link:
        for line in json.loads(message.data).get("lines", ()):
            yield line


async def one(session, url, n, all_of_them, barrier):
    async with session.ws_connect(url) as link:
        await link.send_str(f"connect P{n} secret")
        seen = set()
        heard = lines(link)
        async for line in heard:
            if line.startswith("Room Zero"):
                break
        await barrier()
        await link.send_str(f"say I am {n}.")
        async for line in heard:
            found = SAYS.fullmatch(line)
            if found and found[1] == found[2]:
                seen.add(int(found[1]))
            elif line == f'You say, "I am {n}."':
                seen.add(n)
            if len(seen) == all_of_them:
                break
        await barrier()
        return len(seen)


async def main(url, n):
    came, gates, times = [0], {}, []

    async def barrier():
        """Waits until all are here."""
        came[0] += 1
        gate = gates.setdefault((came[0] - 1) // n, asyncio.Event())
        if came[0] % n == 0:
            times.append(time.monotonic())
            gate.set()
        await gate.wait()

    async with aiohttp.ClientSession(connector=aiohttp.TCPConnector(limit=0)) as session:
        seen = await asyncio.gather(*(one(session, url, k + 1, n, barrier) for k in range(n)))
    print(sum(seen), f"{times[1] - times[0]:.2f}")


asyncio.run(main(sys.argv[1], int(sys.argv[2])))
