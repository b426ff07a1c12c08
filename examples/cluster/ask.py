#!/usr/bin/env python3
"""Asks through gateways: `ask.py --gateways a:4100,b:4100 --ca FILE --client 7 < calls`.

Standard input has a call a line, as examples/client.py takes it; standard output gets an outcome a line. Where a gateway hangs
up, or is silent, the same is asked again at the next one: it was executed once, and has its first outcome."""
import argparse
import contextlib
import socket
import ssl
import sys
import time
from typing import BinaryIO

import messages
import options as words_of
import wire
from wire import client

AGAIN_SECONDS = 0.2
SILENCE_SECONDS = 10.0  # a roll-over takes less

tell = messages.teller("ask")


class Door:
    """The gateways, one of which is connected to."""

    def __init__(self, gateways: list[tuple[str, int]], context: ssl.SSLContext | None):
        self.gateways, self.context = gateways, context
        self.place = 0
        self.connection: socket.socket | None = None
        self.replies: BinaryIO | None = None

    def ask(self, frames: bytes, size: int) -> bytes:
        """The outcomes of these Asks, `size` bytes; for as long as it takes."""
        while True:
            try:
                if self.connection is None:
                    self.connect()
                self.connection.sendall(frames + wire.FLUSH)
                if len(told := self.replies.read(size)) == size:
                    return told
                raise OSError("it hung up")
            except OSError as fault:
                host, port = self.gateways[self.place]
                tell(f"{host}:{port}: {fault or type(fault).__name__}; the same is asked again")
                self.leave()
                time.sleep(AGAIN_SECONDS)

    def connect(self) -> None:
        address = self.gateways[self.place]
        connection = socket.create_connection(address, timeout=SILENCE_SECONDS)
        connection.setsockopt(socket.IPPROTO_TCP, socket.TCP_NODELAY, 1)
        if self.context:
            connection = self.context.wrap_socket(connection, server_hostname=address[0])
        self.connection, self.replies = connection, connection.makefile("rb")

    def leave(self) -> None:
        """Goes to the next gateway."""
        with contextlib.suppress(OSError):
            if self.connection:
                self.connection.close()
        self.connection = None
        self.place = (self.place + 1) % len(self.gateways)


def main() -> None:
    words = argparse.ArgumentParser(description="Asks through gateways, by call lines.")
    words.add_argument("--gateways", type=words_of.addresses, default="127.0.0.1:4100", metavar="HOST:PORT,..",
                       help="the gateways, the nearest first (127.0.0.1:4100)")
    words_of.add_access(words, ("ca", "certificate", "key"))
    words.add_argument("--client", type=int, default=1, help="the client's number (1)")
    words.add_argument("--first", type=int, default=1, help="the first request's number (1)")
    words.add_argument("--flush", type=int, default=100, help="how many lines are asked at once (100)")
    options = words_of.parse(words)
    if options.client not in client.NUMBERS[1:] or options.first not in client.NUMBERS or options.flush < 1:
        words.error("a number is out of range")
    asked = list(client.asks(sys.stdin.buffer.read(), options.client, options.first))
    door = Door(options.gateways, options.access.context)
    for start in range(0, len(asked), options.flush):
        batch = asked[start : start + options.flush]
        frames = b"".join(frame for _, frame in batch)
        told = door.ask(frames, len(batch) * client.OUTCOME.size)
        wire.check_outcomes(told, frames)
        print("\n".join(wire.spell_outcomes(told)), flush=True)


if __name__ == "__main__":
    main()
