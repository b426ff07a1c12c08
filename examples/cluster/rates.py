"""How fast a gateway's clients are answered, and how fast etcd takes as many clients' puts, for a trial."""
import asyncio
import itertools
import json
import re
import statistics
import time
from collections.abc import Iterator

import options as words_of
from crowd import Crowd
from etcd import text
from fleet import Broken, Fleet, Gateway

WARM_SECONDS, LOAD_SECONDS = 2, 10
VALUE = b"an ask has about thirty bytes."


async def put_again(address: tuple[str, int], keys: Iterator[int], over: float) -> list[float]:
    """Puts one key after the other over one connection, as etcd's JSON gateway takes them: how long each took."""
    reader, writer = await asyncio.open_connection(*address)
    times = []
    while time.monotonic() < over:
        body = json.dumps({"key": text(f"/puts/{next(keys)}"), "value": text(VALUE)}).encode()
        start = time.monotonic()
        writer.write(b"POST /v3/kv/put HTTP/1.1\r\nHost: etcd\r\nContent-Length: %d\r\n\r\n%b" % (len(body), body))
        head = await reader.readuntil(b"\r\n\r\n")
        await reader.readexactly(int(re.search(rb"(?i)content-length: ([0-9]+)", head)[1]))
        if not head.startswith(b"HTTP/1.1 200"):
            raise Broken(f"a put wasn't taken: {head.decode()}")
        times.append(time.monotonic() - start)
    writer.close()
    return times


def of_puts(some: Fleet, clients: int) -> list[float]:
    """How long each put took, of this number of clients, spread over the members."""
    async def run() -> list[list[float]]:
        members, keys, over = words_of.addresses(some.addresses()), itertools.count(), time.monotonic() + LOAD_SECONDS
        return await asyncio.gather(*(put_again(members[place % len(members)], keys, over) for place in range(clients)))

    return [each for times in asyncio.run(run()) for each in times]


def of_asks(door: Gateway, numbers: range) -> list[float]:
    """How long each ask of a gateway's clients took, each of which waits for an outcome before its next ask."""
    with Crowd(numbers, [door.address], None, lambda: b"deposit bob 0.01") as crowd:
        time.sleep(WARM_SECONDS)
        start = time.monotonic()
        time.sleep(LOAD_SECONDS)
        end = time.monotonic()
    if crowd.connected(0, end) != len(numbers):
        raise Broken("a client was left")
    return [told.told - told.asked for told in crowd.told() if start <= told.told < end]


def spell(runs: list[list[float]]) -> list[str]:
    """How many a second, the median and the 99th percentile in milliseconds: of each the median over the runs."""
    rates = [len(times) / LOAD_SECONDS for times in runs]
    cuts = [statistics.quantiles(times, n=100) for times in runs]
    return [f"{statistics.median(rates):,.0f}", *(f"{1000 * statistics.median(cut[at] for cut in cuts):.1f}" for at in (49, 98))]
