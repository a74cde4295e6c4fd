"""The shop of stall/examples/postgres with tasks of asyncio, each with a connection of asyncpg.

usage: async_clients.py stuck|slow TOOLS
"""
import asyncio
import sys

sys.path.insert(0, sys.argv[2])
import cmh_state  # noqa: F401
import asyncpg

TAKE = "update stock set number = number - 1 where article = 4711"
BRING = "update stock set number = number + 1 where article = 4711"


async def sell(cart, begun):
    connection = await asyncpg.connect(server_settings={"application_name": "clerk"})
    async with connection.transaction():
        await connection.execute(TAKE)
        begun.set()
        if sys.argv[1] == "slow":
            await connection.execute("select pg_sleep(900)")
        async with cart:
            pass


async def pack(cart, begun):
    connection = await asyncpg.connect(server_settings={"application_name": "packer"})
    async with cart:
        await begun.wait()
        await connection.execute(BRING)


async def beat():
    while True:
        await asyncio.sleep(0.5)


async def main():
    cart, begun = asyncio.Lock(), asyncio.Event()
    asyncio.create_task(beat(), name="heartbeat")
    tasks = [asyncio.create_task(pack(cart, begun), name="packer"),
             asyncio.create_task(sell(cart, begun), name="clerk")]
    await asyncio.gather(*tasks)


asyncio.run(main())
