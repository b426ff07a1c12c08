#!/usr/bin/env python3
"""The door for ordinary clients: `gateway.py --listen 0.0.0.0:4100 --listen-certificate FILE --listen-key FILE`.

It speaks docs/WIRE.md with any number of clients, as a bank does, but for client 0. It gathers what they ask for 20 ms at most,
or 1,000 asks, puts that as one batch into the log, and answers each client from the outcomes that feeds report. All that it
knows is in etcd. So when it's killed, a client asks again, here or at another gateway, and gets the first outcome."""
import argparse
import asyncio
import os
import resource
import signal
import ssl
import sys
import time
import traceback
from concurrent.futures import ThreadPoolExecutor

import log
import messages
import options as words_of
import status
from carried import SIZE
from etcd import LogError, Tell
from gather import MOST_ASKS, Gather
from putter import Put, Putter
from talk import Fault, Piece, Talk


class Gateway:
    """Clients, and the batches that they wait for."""

    def __init__(self, book: log.Log, tell: Tell):
        self.tell = tell
        self.loop = asyncio.get_running_loop()
        self.gather = Gather()
        self.putter = Putter(book, self, tell)
        # By prefix and revision: what waits for these outcomes, and since when. That may be the same asks of two clients.
        self.pending: dict[tuple[str, int], tuple[list[Piece], float]] = {}
        self.early: dict[tuple[str, int], bytes] = {}  # outcomes that came while a put, perhaps theirs, wasn't answered
        self.putting = False
        self.batches = self.asks = self.answered = 0
        self.failed: asyncio.Future[None] = self.loop.create_future()

    # ---- clients

    async def serve(self, stream: asyncio.StreamReader, writer: asyncio.StreamWriter) -> None:
        """A client, from its first byte to its last one."""
        talk = Talk(writer, self.gather.add, self.gather.look, MOST_ASKS)
        self.gather.talks.add(talk)
        try:
            await talk.run(stream)
        except (Fault, OSError) as fault:
            host, port = (writer.get_extra_info("peername") or ("?", 0))[:2]
            self.tell(f"the client at {host}:{port} is left: {fault or type(fault).__name__}")
        finally:
            self.gather.talks.discard(talk)
            self.gather.look()
            writer.close()

    # ---- batches

    async def put_all(self) -> None:
        """Puts one batch after the other, so that a client's asks stay in their order."""
        await self.loop.run_in_executor(None, self.putter.begin)
        with ThreadPoolExecutor(1) as thread:
            while True:
                if not (batch := await self.gather.take()):
                    continue
                self.putting = True
                put = await self.loop.run_in_executor(thread, self.putter.put, batch)
                self.putting = False
                self.wait_for(put, batch)

    def wait_for(self, put: Put | None, batch: list[Piece]) -> None:
        """Has a batch wait for its outcomes, unless they are here already."""
        self.batches += 1
        self.asks += sum(piece.open for piece in batch)
        if put:
            key = put.prefix, put.revision
            outcomes = put.outcomes if put.outcomes is not None else self.early.get(key)
            before, since = self.pending.get(key, ([], time.monotonic()))
            self.pending[key] = before + batch, since
            if outcomes is not None:
                self.told(key, outcomes)
        self.early.clear()
        for talk in {piece.talk for piece in batch}:
            talk.move()

    def hear(self, prefix: str, entries: list[log.Entry]) -> None:
        """Takes outcomes, from another thread."""
        if entries:
            self.loop.call_soon_threadsafe(self.hear_here, prefix, entries)

    def hear_here(self, prefix: str, entries: list[log.Entry]) -> None:
        for entry in entries:
            key = prefix, int(entry.key.rpartition("/")[2])
            if key in self.pending:
                self.told(key, entry.value)
            elif self.putting:
                self.early[key] = entry.value

    def told(self, key: tuple[str, int], outcomes: bytes) -> None:
        """Gives the clients of a batch its outcomes."""
        batch, _ = self.pending.pop(key)
        place = 0
        for piece in batch:
            for each, known in enumerate(piece.outcomes):
                if known is None:
                    # Those who ask the same wait for the same bytes, one after the other.
                    place %= len(outcomes) or 1
                    piece.answer(each, outcomes[place : place + SIZE])
                    place += SIZE
                    self.answered += 1
        if place != len(outcomes):
            return self.fail(LogError(f"the outcomes of revision {key[1]} are not those of its batch"))
        for talk in {piece.talk for piece in batch}:
            talk.move()

    def needs(self, prefix: str) -> bool:
        """Whether outcomes of the log below a prefix are waited for."""
        return any(each == prefix for each, _ in list(self.pending))

    def fail(self, fault: Exception) -> None:
        """Ends the program with a fault, also from another thread."""
        self.loop.call_soon_threadsafe(lambda: self.failed.done() or self.failed.set_exception(fault))

    def status(self) -> dict:
        """How it stands, for a page."""
        oldest = min((since for _, since in list(self.pending.values())), default=None)
        return {"prefix": self.putter.book.prefix, "waits for the next log": self.putter.over,
                "clients": len(self.gather.talks), "batches": self.batches, "asks": self.asks, "answered": self.answered,
                "lag": self.gather.count + self.asks - self.answered,
                "oldest batch waits for": round(time.monotonic() - oldest, 3) if oldest else 0,
                "carried over": len(self.putter.carried), "member": self.putter.book.etcd.member()}


def server_context(options: argparse.Namespace) -> ssl.SSLContext | None:
    """TLS for who listens: none without a certificate."""
    if not options.listen_certificate:
        return None
    context = ssl.create_default_context(ssl.Purpose.CLIENT_AUTH, cafile=options.listen_ca)
    context.load_cert_chain(options.listen_certificate, options.listen_key)
    if options.listen_ca:
        context.verify_mode = ssl.CERT_REQUIRED
    return context


async def run(options: argparse.Namespace, tell: Tell) -> None:
    """Serves clients, for ever, or until a fault that is the end of it."""
    gateway = Gateway(log.Log(words_of.etcd(options, tell), options.prefix), tell)
    status.serve(options.status, gateway.status)
    host, port = options.listen
    server = await asyncio.start_server(gateway.serve, host, port, ssl=options.context, backlog=1024)
    tell(f"listening {host}:{server.sockets[0].getsockname()[1]}")
    puts = asyncio.create_task(gateway.put_all())
    await asyncio.wait([puts, gateway.failed], return_when=asyncio.FIRST_COMPLETED)
    try:
        (puts if puts.done() else gateway.failed).result()
    except (LogError, OSError) as fault:
        tell(str(fault))
    except Exception:
        traceback.print_exc()
    end(1)


def end(status: int) -> None:
    """Ends the program at once: a thread may wait for etcd for ever."""
    sys.stderr.flush()
    os._exit(status)


def main() -> None:
    words = argparse.ArgumentParser(description="The door for ordinary clients.")
    words_of.add_etcd(words)
    words.add_argument("--listen", type=words_of.address, default="127.0.0.1:4100", metavar="HOST:PORT",
                       help="where clients come (127.0.0.1:4100)")
    words.add_argument("--listen-certificate", metavar="FILE", help="the certificate to show to clients: they come over TLS")
    words.add_argument("--listen-key", metavar="FILE", help="its key")
    words.add_argument("--listen-ca", metavar="FILE", help="what clients' certificates are signed by (none are asked for)")
    words_of.add_status(words)
    options = words_of.parse(words)
    try:
        options.context = server_context(options)
    except OSError as fault:
        words.error(str(fault))
    tell = messages.teller("gateway")
    signal.signal(signal.SIGTERM, lambda *_: end(0))
    signal.signal(signal.SIGINT, lambda *_: end(130))
    # Each client takes a descriptor.
    _, most = resource.getrlimit(resource.RLIMIT_NOFILE)
    resource.setrlimit(resource.RLIMIT_NOFILE, (most, most))
    try:
        asyncio.run(run(options, tell))
    except OSError as fault:
        tell(str(fault))
        sys.exit(1)


if __name__ == "__main__":
    main()
