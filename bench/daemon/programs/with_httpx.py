"""python3's httpx: all at once over one client, as it is by itself, or by a hint with so many connections and a longer time."""
import asyncio
import sys

import httpx

url, wanted, count, most = sys.argv[1], open(sys.argv[2], "rb").read(), int(sys.argv[3]), int(sys.argv[4])


async def one(client):
    try:
        told = "good" if (await client.get(url)).content == wanted else "another reply"
    except httpx.HTTPError as fault:
        told = type(fault).__name__
    print(told, flush=True)


async def main():
    print("begins", flush=True)
    hint = {"limits": httpx.Limits(max_connections=most), "timeout": 60} if most else {}
    async with httpx.AsyncClient(**hint) as client:
        await asyncio.gather(*(one(client) for _ in range(count)))


asyncio.run(main())
