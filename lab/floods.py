"""What the scripts share that measure what somebody costs others who asks as fast as answers come: who asks so, and
what is told of it."""
import asyncio
import collections
import contextlib
import multiprocessing
import os
import re
import signal
import statistics
import time

AGAIN = 0.1  # seconds after which somebody who was told to come again does
FORK = multiprocessing.get_context("fork")


def seconds_of(pid):
    """Of a processor, with its children."""
    with open(f"/proc/{pid}/task/{pid}/children", encoding="ascii") as file:
        pids = [pid, *map(int, file.read().split())]
    used = 0
    for it in pids:
        with open(f"/proc/{it}/stat", encoding="ascii") as file:
            used += sum(map(int, file.read().rpartition(")")[2].split()[11:13]))
    return used / os.sysconf("SC_CLK_TCK")


def computed(servers):
    """Those of each server, by its name."""
    return {name: seconds_of(it.pid) for name, it in servers.items()}


@contextlib.contextmanager
def computing(servers):
    """What each server has computed meanwhile in a second, at the end, is in this list."""
    before, begin, told = computed(servers), time.monotonic(), []
    yield told
    took = time.monotonic() - begin
    told += [f"{name} {(it - before[name]) / took:.2f}" for name, it in computed(servers).items()]


def figures(took):
    """The median, and that within which 95 of 100 are."""
    return statistics.median(took), sorted(took)[int(len(took) * 0.95)]


async def status_of(reader, is_read):
    """That of an answer. One of WebDAV that nobody reads stays."""
    head = await reader.readuntil(b"\r\n\r\n")
    told, status = re.search(rb"(?i)\r\ncontent-length: *(\d+)", head), int(head[9:12])
    left = int(told[1]) if told else 0
    if left and not is_read and status == 200:
        await asyncio.sleep(60)
    while left:
        left -= len(await reader.readexactly(min(left, 1 << 16)))
    return status


async def over_a_connection(port, source, asks, number, count, is_read):
    """Until it is closed. The number is the caller's."""
    reader, writer = await asyncio.open_connection("127.0.0.1", port, local_addr=(source, 0))
    with contextlib.closing(writer):
        while True:
            writer.write(asks(number[0]))
            status = await status_of(reader, is_read)
            count(status)
            number[0] += status < 300
            await asyncio.sleep(AGAIN if status == 429 else 0)


async def calls(*words):
    while True:
        with contextlib.suppress(OSError, EOFError):
            await over_a_connection(*words)
        await asyncio.sleep(0.001)


async def flood(port, callers, is_read, told):
    """Until it is ended. What was answered is told then."""
    found, ends = collections.Counter(), asyncio.Event()
    asyncio.get_running_loop().add_signal_handler(signal.SIGTERM, ends.set)
    tasks = [asyncio.create_task(calls(port, source, asks, [1], lambda status, its=kind: found.update(
        [f"{its}{status}"]), is_read)) for kind, source, asks in callers]
    await ends.wait()
    told.send(dict(found))
    for it in tasks:
        it.cancel()


@contextlib.contextmanager
def flooded(port, callers, is_read=True):
    """While each caller asks, over one connection after another. A caller is the kind of what it asks, which comes
    before a status in what is told; the address from which it asks; and the call that gives a message by its number,
    from 1, where the one before was done. How often each status came is in this list at the end."""
    mine, its = FORK.Pipe()
    child = FORK.Process(target=lambda: asyncio.run(flood(port, callers, is_read, its)), daemon=True)
    child.start()
    counts = []
    yield counts
    child.terminate()
    counts.append(mine.recv())
    child.join()
