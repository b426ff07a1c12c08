"""Clients that ask, and ask again until they are told. What they were told is kept, to be judged."""
import pathlib
import random
import socket
import sys
import threading
import time

import fleet
import wire
from machines import CLUSTER

GIVE_UP, AGAIN_SECONDS = 10, 0.1
PATIENCE = 6  # seconds after which a client of a gateway that says nothing goes to another one
LONGEST = 80  # seconds for which a client asks
SIZE = wire.client.OUTCOME.size


class Told:
    """What clients were told of asks. The same ask is always told the same."""

    def __init__(self) -> None:
        self.lock = threading.Lock()
        self.outcomes: dict[wire.Ask, str] = {}
        self.faults: list[str] = []
        self.longest = 0.0  # seconds that a client waited for outcomes

    def keep(self, ask: wire.Ask, outcome: str) -> None:
        with self.lock:
            before = self.outcomes.setdefault(ask, outcome)
        if before != outcome:
            self.fault(f"client {ask.client}, request {ask.request} was told `{before}`, and again `{outcome}`")

    def fault(self, what: str) -> None:
        with self.lock:
            self.faults.append(what)


def frames(client: int, lines: list[bytes]) -> list[bytes]:
    return [wire.encode_ask(client, request, line) for request, line in enumerate(lines, 1)]


class Submitter(threading.Thread):
    """A client by `submit.py`, which is started again with the same words and lines until it ends with status 0."""

    def __init__(self, client: int, lines: list[bytes], process: fleet.Process, told: Told):
        super().__init__(name=process.name, daemon=True)
        self.client, self.lines, self.process, self.told = client, lines, process, told

    def run(self) -> None:
        end = time.monotonic() + LONGEST
        while (status := self.once()) != 0:
            # 1 says that it may be asked again, and -9 that it was killed.
            if status not in (1, -9) or time.monotonic() > end:
                said = self.process.errors.read_text()[-300:]
                return self.told.fault(f"{self.name} ended with status {status}: {said}")
            time.sleep(AGAIN_SECONDS)
        asks = wire.read_frames(b"".join(frames(self.client, self.lines)))
        for ask, outcome in zip(asks, self.process.output.read_text().splitlines(), strict=True):
            self.told.keep(ask, outcome)

    def once(self) -> int:
        self.process.output.write_bytes(b"")
        self.process.start()
        return self.process.child.wait()

    def strike(self) -> None:
        """Kills it by -9, if it runs; it starts again by itself."""
        child = self.process.child
        if child and child.poll() is None:
            child.kill()


def submitter(client: int, lines: list[bytes], words: list[str], folder: pathlib.Path, told: Told) -> Submitter:
    words = [sys.executable, CLUSTER / "submit.py", "--client", f"{client}", "--wait", "--give-up", f"{GIVE_UP}", *words]
    given = b"".join(line + b"\n" for line in lines)
    return Submitter(client, lines, fleet.Process(f"submit{client}", words, folder, given), told)


class Caller(threading.Thread):
    """A client of gateways. It asks one batch after the other, at another gateway where one is gone or says nothing;
    and some batches once more, which have to be told the same."""

    def __init__(self, name: str, asked: list[bytes], flush: int, pause: float, gateways: list[tuple[str, int]],
                 numbers: random.Random, told: Told):
        super().__init__(name=name, daemon=True)
        self.batches = [asked[start : start + flush] for start in range(0, len(asked), flush)]
        self.pause, self.gateways, self.numbers, self.told = pause, gateways, numbers, told
        self.connection: socket.socket | None = None

    def run(self) -> None:
        try:
            for place, batch in enumerate(self.batches):
                self.ask(batch)
                if self.numbers.random() < 0.1:
                    self.leave()
                    self.ask(self.batches[self.numbers.randint(0, place)])
                time.sleep(self.numbers.uniform(0.5, 1.5) * self.pause)
        except ValueError as fault:
            self.told.fault(f"{self.name}: {fault}")
        finally:
            self.leave()

    def leave(self) -> None:
        """The next batch goes to another gateway."""
        if self.connection:
            self.connection.close()
        self.connection = None
        self.gateways = self.gateways[1:] + self.gateways[:1]

    def ask(self, batch: list[bytes]) -> None:
        """Asks a batch until all of it was told."""
        start = time.monotonic()
        while not self.once(batch):
            self.leave()
            if time.monotonic() - start > LONGEST:
                raise ValueError(f"no gateway has answered for {LONGEST} s")
            time.sleep(AGAIN_SECONDS)
        with self.told.lock:
            self.told.longest = max(self.told.longest, time.monotonic() - start)

    def once(self, batch: list[bytes]) -> bool:
        """Asks a batch of the present gateway: whether all of it was told. What was told until it broke off counts."""
        outcomes = b""
        try:
            self.connection = self.connection or socket.create_connection(self.gateways[0], timeout=PATIENCE)
            self.connection.settimeout(PATIENCE)
            self.connection.sendall(b"".join(batch) + wire.FLUSH)
            while len(outcomes) < SIZE * len(batch) and (piece := self.connection.recv(1 << 16)):
                outcomes += piece
        except OSError:
            pass
        whole = len(outcomes) // SIZE
        asked, outcomes = b"".join(batch[:whole]), outcomes[: whole * SIZE]
        wire.check_outcomes(outcomes, asked)
        for ask, outcome in zip(wire.read_frames(asked), wire.spell_outcomes(outcomes)):
            self.told.keep(ask, outcome)
        return whole == len(batch)
