#!/usr/bin/env python3
"""Ends a log and begins the next one: `roll.py --folder FOLDER`, on a machine whose feed and bank have that folder.

It puts a mark, to see that a majority of the banks, and this machine's, are where they should be. It closes the log, by a key
that is made once; waits until feeds have told all outcomes, and that majority its digest at the end; takes the rows of this
machine's checkpoint, which has to have that digest; and makes the next log's opening of them. Feeds, banks and gateways go
over by themselves. Who runs it again, or twice at once, gets the same."""
import argparse
import hashlib
import pathlib
import re
import secrets
import sys
import time
from collections import Counter, deque
from collections.abc import Callable

import log
import machine
import messages
import options as words_of
import pieces
import wire
from carried import MOST, Carried
from etcd import TELL_SECONDS, LogError, NobodyAnswers, Tell

LOOK_SECONDS = 0.05


def next_prefix(prefix: str) -> str:
    """`/smallbank-2` after `/smallbank`, and `/smallbank-3` after that."""
    found = re.fullmatch(r"(.*)-([0-9]+)", prefix)
    return f"{found[1]}-{int(found[2]) + 1}" if found else f"{prefix}-2"


class Tail:
    """The last batches of a log, with as many asks as the next log carries over, and their outcomes."""

    def __init__(self, book: log.Log):
        self.book, self.carried = book, pieces.get(book, "carried") or b""
        self.batches: deque[tuple[log.Entry, int]] = deque()  # and how many Asks each has
        self.outcomes: dict[int, bytes] = {}
        self.total = self.count = 0
        self.end: log.Entry | None = None

    def add(self, entries: list[log.Entry]) -> None:
        """Takes what comes of the log. A batch at fault counts as none, and so does what is put behind the end."""
        for entry in entries:
            if self.end:
                return
            if entry.key == self.book.closing:
                self.end = entry
                continue
            try:
                asks = len(wire.read_batch(entry.value))
            except ValueError:
                continue
            self.batches.append((entry, asks))
            self.total += asks
            self.count += asks
            while self.count - self.batches[0][1] >= MOST:
                left, asks = self.batches.popleft()
                self.outcomes.pop(left.revision, None)
                self.count -= asks

    def fetch(self) -> int:
        """Gets the outcomes that were told meanwhile: of how many batches none were told."""
        missing = [entry for entry, asks in self.batches if asks and entry.revision not in self.outcomes]
        told = self.book.get_all([f"{self.book.prefix}/outcomes/{entry.revision}" for entry in missing])
        self.outcomes |= {entry.revision: outcomes for entry, outcomes in zip(missing, told) if outcomes is not None}
        return sum(outcomes is None for outcomes in told)

    def spell(self) -> bytes:
        """What the next log carries over: the last requests of this one, and of what this one carried over itself."""
        carried = Carried(self.carried)
        for entry, _ in self.batches:
            carried.add_batch(entry.value, self.outcomes.get(entry.revision, b""))
        return carried.spell()


class Roll:
    """A log that is to end."""

    def __init__(self, book: log.Log, options: argparse.Namespace, tell: Tell):
        self.book, self.options, self.tell = book, options, tell
        self.tail = Tail(book)
        self.place = machine.Place(options.folder, book.prefix)

    def run(self) -> None:
        coming = self.book.follow()
        self.tail.add(next(coming))
        while self.tail.total < self.options.at and not self.tail.end:
            self.tail.add(next(coming))
        self.tail.fetch()
        following = self.options.next or next_prefix(self.book.prefix)
        log.Log(self.book.etcd, following).following()  # A LogError where this user has no right to the next log.
        self.look_before()
        start = time.monotonic()
        following = self.book.close(following)
        self.tell(f"the log {self.book.prefix} is closed: {following} follows")
        after = log.Log(self.book.etcd, following)
        if after.get(f"{following}/opening") is not None:
            return self.tell(f"the log {following} has begun before")
        while not self.tail.end:
            self.tail.add(next(coming))
        self.wait("feeds tell all outcomes", lambda: not self.tail.fetch())
        opening = pieces.wait(self.book, "opening")
        if self.tail.total:
            end = self.tail.end.revision
            self.wait("a majority of the banks, and this machine's, have the same digest at the end", lambda: self.saved(end))
            opening = self.rows(opening, self.saved(end))
        pieces.put(after, "carried", self.tail.spell())
        pieces.put(after, "opening", opening)
        self.tell(f"the log {following} has begun, {time.monotonic() - start:.3f} s after the end of {self.book.prefix}")

    def look_before(self) -> None:
        """Looks at a mark whether the log can be ended here: once it's closed, there is no way back. Where another mark comes
        behind, feeds may leave this one out; so there may be one more."""
        held = not self.tail.total
        while not held and self.book.following() is None:
            try:
                mark, _ = self.book.append(f"{self.book.first}mark/{secrets.token_hex(16)}", b"")
            except log.Closed:
                return
            held = self.wait("a majority of the banks, and this machine's, have the same digest at a mark",
                             lambda: self.saved(mark), TELL_SECONDS)

    def wait(self, what: str, holds: Callable[[], object], seconds: float | None = None) -> bool:
        """Waits until something holds, or for these seconds: whether it does. It says so now and then."""
        start = told = time.monotonic()
        while not holds():
            time.sleep(LOOK_SECONDS)
            if time.monotonic() - told >= TELL_SECONDS:
                told = time.monotonic()
                self.tell(f"it has waited for {told - start:.0f} s until {what}")
            if seconds is not None and time.monotonic() - start >= seconds:
                return False
        return True

    def saved(self, mark: int) -> bytes | None:
        """This machine's checkpoint, once it has the digest that a majority of the banks has at a mark."""
        counts = Counter(self.book.below(f"{self.book.prefix}/digest/{mark}/").values())
        digest, count = counts.most_common(1)[0] if counts else (b"", 0)
        if 2 * count <= self.options.banks:
            if sum(counts.values()) >= self.options.banks:
                raise LogError(f"mark {mark}: the banks have {len(counts)} digests, and no majority has the same")
            return None
        read = self.place.checkpoint.read_bytes() if self.place.checkpoint.exists() else b""
        return read if hashlib.sha256(read).hexdigest().encode() == digest else None

    def rows(self, opening: bytes, saved: bytes) -> bytes:
        """The next log's opening: the rows of a checkpoint, with the names of the opening."""
        checkpoint = wire.read_checkpoint(saved)
        names = [line.split(b" ")[0] for line in opening.splitlines()[:-1]]
        rows = zip(names, checkpoint.savings, checkpoint.checking, strict=True)
        return b"".join(b"%b %b %b\n" % (name, wire.money(savings).encode(), wire.money(checking).encode())
                        for name, savings, checking in rows) + b"begin\n"


def main() -> None:
    words = argparse.ArgumentParser(description="Ends a log and begins the next one.")
    words_of.add_etcd(words)
    words.add_argument("--folder", type=pathlib.Path, required=True, help="the folder of this machine's feed and bank")
    words.add_argument("--next", type=words_of.prefix, metavar="PREFIX", help="the next log's (this one's, with -2 behind it)")
    words.add_argument("--banks", type=int, default=3, help="how many banks there are; a majority of them is right (3)")
    words.add_argument("--at", type=int, default=0, metavar="ASKS", help="wait until the log has this number of asks (0)")
    options = words_of.parse(words)
    tell = messages.teller("roll")
    try:
        Roll(log.Log(words_of.etcd(options, tell), options.prefix), options, tell).run()
    except (LogError, NobodyAnswers, OSError, ValueError) as fault:
        tell(str(fault))
        sys.exit(1)
    except KeyboardInterrupt:
        sys.exit(130)


if __name__ == "__main__":
    main()
