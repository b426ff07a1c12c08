"""Ordinary clients, many at once, who ask through gateways: one request after the other, each again until it's answered."""
import asyncio
import contextlib
import random
import socket
import ssl
import threading
import time
from collections.abc import Callable
from typing import NamedTuple

import wire

AGAIN_SECONDS = 0.1
PATIENCE_SECONDS = 30.0  # after which a client asks at the next gateway


class Told(NamedTuple):
    """What a client asked and was told, and when, by the clock that only goes on."""

    ask: bytes
    outcome: bytes
    asked: float
    told: float


class Client:
    """A client. It's at one gateway, and goes to the next one where that hangs up."""

    def __init__(self, number: int, gateways: list[tuple[str, int]], context: ssl.SSLContext | None):
        self.number, self.gateways, self.context = number, gateways, context
        self.told: list[Told] = []
        self.connects: list[float] = []  # when it connected
        self.streams: tuple[asyncio.StreamReader, asyncio.StreamWriter] | None = None

    async def ask(self, frame: bytes) -> None:
        """Asks, again and again until the outcome is there."""
        asked = time.monotonic()
        while True:
            try:
                outcome = await asyncio.wait_for(self.ask_once(frame), PATIENCE_SECONDS)
                self.told.append(Told(frame, outcome, asked, time.monotonic()))
                return
            except (OSError, EOFError, TimeoutError, asyncio.TimeoutError):
                self.leave()
                await asyncio.sleep(AGAIN_SECONDS)

    async def ask_once(self, frame: bytes) -> bytes:
        if self.streams is None:
            place = (self.number + len(self.connects)) % len(self.gateways)
            self.connects.append(time.monotonic())
            host, port = self.gateways[place]
            self.streams = await asyncio.open_connection(host, port, ssl=self.context)
        reader, writer = self.streams
        writer.write(frame + wire.FLUSH)
        return await reader.readexactly(wire.client.OUTCOME.size)

    def leave(self) -> None:
        if self.streams:
            self.streams[1].close()
        self.streams = None


class Crowd:
    """Clients with these numbers, for a `with`: they ask until its end, or until they are told to stop."""

    def __init__(self, numbers: range, gateways: list[tuple[str, int]], context: ssl.SSLContext | None,
                 line: Callable[[], bytes], pause: float = 0):
        self.clients = [Client(number, gateways, context) for number in numbers]
        self.line, self.pause = line, pause
        self.over = False
        self.thread = threading.Thread(target=lambda: asyncio.run(self.run()), daemon=True)

    def __enter__(self) -> "Crowd":
        self.thread.start()
        return self

    def __exit__(self, *_fault: object) -> None:
        self.stop()

    def stop(self) -> None:
        """Has each client stop at its next outcome, and waits for these."""
        self.over = True
        self.thread.join(PATIENCE_SECONDS)

    async def run(self) -> None:
        await asyncio.gather(*map(self.talk, self.clients))
        for client in self.clients:
            client.leave()

    async def talk(self, client: Client) -> None:
        while not self.over:
            await client.ask(wire.encode_ask(client.number, len(client.told) + 1, self.line()))
            await asyncio.sleep(self.pause * random.uniform(0.5, 1.5))

    def told(self) -> list[Told]:
        """All that was told so far."""
        return [told for client in self.clients for told in list(client.told)]

    def longest(self, start: float, end: float) -> float:
        """The longest time that a client waited for an outcome, of those that reach into this while."""
        return max((told.told - told.asked for told in self.told() if told.told > start and told.asked < end), default=0.0)

    def connected(self, start: float, end: float) -> int:
        """How often a client connected meanwhile."""
        return sum(start < each < end for client in self.clients for each in client.connects)


def ask_all(gateway: tuple[str, int], context: ssl.SSLContext | None, frames: list[bytes]) -> bytes:
    """The outcomes of these Asks, of one client that is served by a gateway."""
    with contextlib.ExitStack() as stack:
        connection = stack.enter_context(socket.create_connection(gateway, timeout=PATIENCE_SECONDS))
        if context:
            connection = stack.enter_context(context.wrap_socket(connection, server_hostname=gateway[0]))
        connection.sendall(b"".join(frames) + wire.FLUSH)
        told = connection.makefile("rb").read(len(frames) * wire.client.OUTCOME.size)
    if len(told) < len(frames) * wire.client.OUTCOME.size:
        raise OSError("the gateway hung up")
    return told
