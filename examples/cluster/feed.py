#!/usr/bin/env python3
"""Feeds one bank with a log of batches in etcd: `feed.py --port 4000 --folder FOLDER`, beside `serve.py` of the same folder.

Each batch goes to the bank with a Flush behind it. The outcomes are kept in a file, those of the whole log in order, and told
in etcd to whoever waits for them. A session begins where this feed left this bank; else at the log's beginning, or, with a
bank that has a log of its own, where that ends, once its digest is found to be the right one. At a mark the session ends, so
that the bank puts its checkpoint, and feeds compare theirs. So it does at the log's end; then it goes over to the next log. A
bank that strayed ends its feed by status 3."""
import argparse
import pathlib
import signal
import socket
import sys
import time

import bank
import log
import machine
import messages
import options as words_of
import pieces
import status
import wire
from audit import Audit, Strayed
from batches import Batch, Batches
from etcd import TELL_SECONDS, LogError, Tell

AGAIN_SECONDS = 0.5  # before a session that takes the place of one that broke off
OTHER_SECONDS = 0.1  # before the next look for a bank of this log
TOGETHER = 10_000  # after how many asks there is a Flush, where so many wait
SIZE = wire.client.OUTCOME.size


class Kept:
    """A file with the outcomes of the log so far. What a session tells again has to be what is there."""

    def __init__(self, path: pathlib.Path):
        path.touch()
        self.file = path.open("r+b")

    def asks(self) -> int:
        """Of how many asks it has the outcomes."""
        return self.file.seek(0, 2) // SIZE

    def go_to(self, asks: int) -> None:
        self.file.seek(asks * SIZE)

    def take(self, outcomes: bytes) -> None:
        there = self.file.read(len(outcomes))
        if there != outcomes[: len(there)]:
            raise Strayed(f"it tells other outcomes than those that {self.file.name} has of the same log")
        self.file.write(outcomes[len(there) :])
        self.file.flush()


class Feed:
    """A log that is read, and a bank that is asked what it says."""

    def __init__(self, book: log.Log, address: tuple[str, int], place: machine.Place, audit: Audit, tell: Tell):
        self.book, self.address, self.place, self.audit, self.tell = book, address, place, audit, tell
        self.kept = Kept(place.outcomes)
        self.coming = book.follow()
        self.batches = Batches(pieces.wait(book, "opening"))
        self.at = 0  # which batch the bank is asked next
        self.bank = 0  # when the bank was started that was asked all before that
        self.heard = False  # whether the log was read so far
        self.last_mark = 0
        self.end: Batch | None = None
        self.told = book.names(f"{book.prefix}/outcomes/")  # the batches whose outcomes are in etcd, perhaps not all of them
        self.since: str | None = None  # when the bank was started that is there
        self.away: float | None = None  # since when the bank is another log's

    def run(self) -> str:
        """One session after the other, until the log's end: the prefix of the next one."""
        while True:
            try:
                with bank.Session(self.address, self.tell) as session:
                    if following := self.serve(session):
                        return following
            except bank.BankAway as fault:
                self.tell(f"the session broke off, and another one begins: {fault}")
                time.sleep(AGAIN_SECONDS)
            finally:
                self.since = None

    def serve(self, session: bank.Session) -> str | None:
        """A session until a mark, a fault of the bank, or the log's end: then it's the prefix of the next log."""
        if not self.begin():
            return self.stay_away()
        start, behind = time.monotonic(), True
        while True:
            while self.at == len(self.batches):
                if behind and self.at:
                    behind = False
                    took = time.monotonic() - start
                    self.tell(f"the bank has heard the log, {self.batches.asks} asks, {took:.3f} s after it was there")
                self.hear()
                self.audit.look()
                session.look()
            if self.is_done():
                return self.end.entry.value.decode()
            if self.step(session, self.batches[self.at]):
                return None

    def is_done(self) -> bool:
        """Whether all of a log that is closed was told, and its last checkpoint compared."""
        return self.end is not None and (self.audit.is_done(self.end.entry.revision) or not self.batches.asks)

    def stay_away(self) -> None:
        """Leaves a bank alone that isn't of this log, and says so now and then."""
        self.away = self.away or time.monotonic()
        if time.monotonic() - self.away >= bank.SILENCE_SECONDS:
            self.away = None
            self.tell(f"the bank isn't of the log {self.book.prefix}, or no serve.py of this folder keeps it")
        time.sleep(OTHER_SECONDS)

    def begin(self) -> bool:
        """Finds where a session begins: not at all where the bank is another log's."""
        found = machine.beginning(self.place)
        if found is None:
            return False
        if not self.heard:
            self.hear()
        self.at = self.first(found)
        self.bank = found.since
        before = self.batches[self.at].before if self.at else 0
        self.kept.go_to(before)
        self.tell(f"the bank is there, and is asked from ask {before + 1} on")
        self.since, self.away = messages.moment(found.since / 1e9), None
        return True

    def first(self, found: machine.Beginning) -> int:
        """The first batch that the bank is asked: one with Asks, so that it tells something. All before it was asked of this
        bank by this feed; or it is in the bank's log, in the file of outcomes, and told to others."""
        if found.since == self.bank:
            return self.batches.last_before(self.at)
        if found.digest is None:
            return 0
        self.check(found)
        place = self.batches.place_of(found.entries, self.kept.asks())
        untold = (at for at, batch in enumerate(self.batches.all) if batch.asks and str(batch.entry.revision) not in self.told)
        return min(place, next(untold, place))

    def check(self, found: machine.Beginning) -> None:
        """Compares the digest of a bank that has a log of its own."""
        if found.entries > self.batches.entries:
            raise Strayed(f"its log has {found.entries} entries, and this log {self.batches.entries}: somebody else asked it")
        if (right := self.batches.digest(found.entries)) != found.digest:
            raise Strayed(f"its log of {found.entries} entries has the digest {found.digest[:16]} in place of {right[:16]}: "
                          "it has another opening or other asks")
        self.tell(f"the bank has {found.entries} entries of its own, digest {found.digest[:16]}")

    def step(self, session: bank.Session, batch: Batch) -> bool:
        """Asks the bank the next batches, or passes a mark: whether the session was ended."""
        if batch.entry.is_mark or batch is self.end:
            self.at += batch is not self.end
            if batch.entry.revision != self.last_mark or not self.audit.wants(self.last_mark):
                return False
            session.end()
            self.audit.passed(self.last_mark, batch.entries)
            return True
        together = self.together(self.at)
        if self.ask(session, together) and self.audit.settle(self.batches.entries):
            session.end()
            return True
        self.at += len(together)
        return False

    def together(self, place: int) -> list[Batch]:
        """The batches from there on that are told with one Flush: to replay a log of small ones takes less so."""
        count, end = 0, place
        while end < len(self.batches) and count < TOGETHER:
            batch = self.batches[end]
            if batch.entry.is_mark or batch is self.end:
                break
            count += batch.asks
            end += 1
        return self.batches.all[place:end]

    def hear(self) -> None:
        """Takes what comes of the log, which may be nothing for a while. A batch at fault counts as none, and so does what is
        put behind the end."""
        self.heard = True
        for entry in next(self.coming):
            if self.end:
                return
            asks: list[wire.Ask] = []
            is_end = entry.key == self.book.closing
            try:
                asks = [] if is_end else wire.read_batch(entry.value)
            except ValueError as fault:
                self.tell(f"{entry.key} of revision {entry.revision} is left out: {fault}")
                self.tell_outcomes(entry, b"")
            self.batches.add(entry, asks)
            # Of marks that came while nobody looked, the last one says all. The end is one too.
            self.last_mark = entry.revision if entry.is_mark or is_end else self.last_mark
            self.end = self.batches[-1] if is_end else None

    def ask(self, session: bank.Session, batches: list[Batch]) -> bool:
        """Asks the bank these batches, and keeps and tells the outcomes: whether there are any."""
        good = [batch for batch in batches if batch.asks]
        if not good:
            return False
        outcomes = session.ask(b"".join(batch.entry.value for batch in good), sum(batch.asks for batch in good))
        self.kept.take(outcomes)
        start = 0
        for batch in good:
            end = start + batch.asks * SIZE
            self.tell_outcomes(batch.entry, outcomes[start:end])
            start = end
        return True

    def tell_outcomes(self, entry: log.Entry, outcomes: bytes) -> None:
        """Tells outcomes to whoever waits for them, where nobody did so before."""
        if (name := str(entry.revision)) in self.told:
            return
        _, there = self.book.put_new(f"{self.book.prefix}/outcomes/{name}", outcomes)
        self.told.add(name)
        if there not in (None, outcomes):
            self.tell(f"{entry.key} has other outcomes by another bank: the next mark says which one strayed")

    def status(self) -> dict:
        """How it stands, for a page."""
        done = self.batches[self.at].before if self.at < len(self.batches) else self.batches.asks
        return {"prefix": self.book.prefix, "length": self.batches.entries, "asks": self.batches.asks,
                "lag": self.batches.asks - done, "bank since": self.since, "member": self.book.etcd.member(),
                "closed": self.end is not None} | self.audit.status()


def feed(options: argparse.Namespace, tell: Tell) -> None:
    """Feeds the bank of one log after the other, for ever."""
    present: list[Feed] = []
    status.serve(options.status, lambda: present[-1].status() if present else {})
    first = log.Log(words_of.etcd(options, tell), options.prefix)
    while True:
        place = machine.present(first, options.folder)
        book = log.Log(first.etcd, place.prefix)
        tell(f"the log is {place.prefix}")
        audit = Audit(book, options.name, options.banks, place.checkpoint, tell)
        present[:] = [Feed(book, (options.host, options.port), place, audit, tell)]
        following = present[0].run()
        tell(f"the log {place.prefix} is closed, and all of it is told: {following} follows")
        wait_for_next(log.Log(first.etcd, following), audit)
        place.go_over(following)


def wait_for_next(book: log.Log, audit: Audit) -> None:
    """Waits for the opening of the next log, and looks meanwhile what the other feeds tell of the end of this one."""
    start = told = time.monotonic()
    while book.get(f"{book.prefix}/opening") is None:
        audit.look()
        if time.monotonic() - told >= TELL_SECONDS:
            told = time.monotonic()
            audit.tell(f"the opening of {book.prefix} has been waited for {told - start:.0f} s: does a roll.py run?")
        time.sleep(OTHER_SECONDS)
    audit.look(at_once=True)


def main() -> None:
    words = argparse.ArgumentParser(description="Feeds one bank with a log of batches in etcd.")
    words_of.add_etcd(words)
    words.add_argument("--port", type=int, default=4000, help="the bank's port (4000)")
    words.add_argument("--host", default="127.0.0.1", help="the bank's host (127.0.0.1)")
    words.add_argument("--folder", type=pathlib.Path, required=True, help="the machine's folder, that of its serve.py")
    words.add_argument("--name", default=socket.gethostname(), help="the feed's name, another one for each (the host's)")
    words.add_argument("--banks", type=int, default=3, help="how many banks there are; a majority of them is right (3)")
    words_of.add_status(words)
    options = words_of.parse(words)
    if options.port not in wire.client.PORTS or options.banks < 1 or not options.name or "/" in options.name:
        words.error("a number or the name is out of range")
    tell = messages.teller(f"feed {options.name}")
    signal.signal(signal.SIGTERM, lambda *_: sys.exit(0))
    try:
        feed(options, tell)
    except Strayed as fault:
        tell(f"the bank strayed: {fault}")
        sys.exit(3)
    except (LogError, OSError) as fault:
        tell(str(fault))
        sys.exit(1)
    except KeyboardInterrupt:
        sys.exit(130)


if __name__ == "__main__":
    main()
