"""The peers' tasks with asyncio: `tasks.py TASK COUNT`, which prints `name value` lines."""
import asyncio, os, sys, time

CHANNELS, WORKERS = 64, 16


def report_memory(name):
    with open("/proc/self/statm") as file:
        print(name, int(file.read().split()[1]) * os.sysconf("SC_PAGESIZE"))


def report_seconds(name, began):
    print(f"{name} {time.monotonic() - began:.6f}")


async def waiters(number, within):
    channels = [asyncio.Queue() for _ in range(CHANNELS)]
    report_memory("before")
    began = time.monotonic()
    tasks = [asyncio.create_task(channels[i % CHANNELS].get()) for i in range(number)]
    await asyncio.sleep(0)
    report_seconds("start", began)
    report_memory("after")
    await within()
    began = time.monotonic()
    for i in range(number):
        channels[i % CHANNELS].put_nowait(1)
    await asyncio.gather(*tasks)
    report_seconds("wake", began)


async def handing(number):
    both = [asyncio.Queue(), asyncio.Queue()]

    async def hander(me):
        for _ in range(number):
            both[1 - me].put_nowait(await both[me].get() + 1)

    began = time.monotonic()
    both[0].put_nowait(0)
    await asyncio.gather(hander(0), hander(1))
    report_seconds("seconds", began)


async def pool(number):
    requests = asyncio.Queue(1024)

    async def worker():
        total = 0
        while (value := await requests.get()) is not None:
            total += value * value
        return total

    began = time.monotonic()
    workers = [asyncio.create_task(worker()) for _ in range(WORKERS)]
    for i in range(number):
        await requests.put(i % 100)
    for _ in workers:
        await requests.put(None)
    total = sum(await asyncio.gather(*workers))
    report_seconds("seconds", began)
    print("sum", total)


async def depth(n):
    return 0 if n < 1 else await depth(n - 1) + 1


async def recurse():
    print("depth", await asyncio.create_task(depth(10000)))
    report_memory("deep")


async def nothing():
    pass


def main(task, count):
    sys.setrecursionlimit(20000)
    chosen = {"waiters": lambda: waiters(count, nothing), "handing": lambda: handing(count),
              "pool": lambda: pool(count), "deep": lambda: waiters(count, recurse)}
    asyncio.run(chosen[task]())


main(sys.argv[1], int(sys.argv[2]))
