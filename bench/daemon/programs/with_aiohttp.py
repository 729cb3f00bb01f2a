"""python3's aiohttp: all at once over one session, as it is by itself, or by a hint with so many connections."""
import asyncio
import sys

import aiohttp

url, wanted, count, most = sys.argv[1], open(sys.argv[2], "rb").read(), int(sys.argv[3]), int(sys.argv[4])


async def one(session):
    try:
        async with session.get(url) as reply:
            told = "good" if await reply.read() == wanted else "another reply"
    except aiohttp.ClientError as fault:
        told = type(fault).__name__
    print(told, flush=True)


async def main():
    print("begins", flush=True)
    async with aiohttp.ClientSession(connector=aiohttp.TCPConnector(limit=most) if most else None) as session:
        await asyncio.gather(*(one(session) for _ in range(count)))


asyncio.run(main())
