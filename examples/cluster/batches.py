"""A log as a feed reads it: its batches, what of each is new, and the digest of any beginning of it."""
import hashlib
from typing import NamedTuple

import wire
from log import Entry

LOG_LENGTH = 1_000_000  # how many numbers a bank's log has
MAGIC = b"SBLOG001"  # of a log's file, before its opening


class Batch(NamedTuple):
    """An entry of the log, and how many Asks it is: none where it is a mark, the end, or at fault."""

    entry: Entry
    asks: int
    before: int  # how many asks there are before it
    entries: int  # how many requests there are up to its end, which a bank's log then has
    new: bytes  # the frames of those Asks whose keys weren't there before


class Batches:
    """What is known of a log."""

    def __init__(self, opening: bytes):
        self.opening = opening
        self.all: list[Batch] = []
        self.requests: set[int] = set()  # client and request of each, as one number
        self.asks = 0

    def __len__(self) -> int:
        return len(self.all)

    def __getitem__(self, place: int) -> Batch:
        return self.all[place]

    @property
    def entries(self) -> int:
        return len(self.requests)

    def add(self, entry: Entry, asks: list[wire.Ask]) -> None:
        """Takes the next entry, with the Asks that it has."""
        keys = [ask.client << 32 | ask.request for ask in asks]
        before = len(self.requests)
        fresh = set(keys).difference(self.requests)
        if len(fresh) == len(keys) and before + len(keys) <= LOG_LENGTH:
            self.requests |= fresh
            new = entry.value if asks else b""
        else:
            new = b"".join(frame for key, frame in zip(keys, wire.frames(entry.value)) if self.number(key))
        self.all.append(Batch(entry, len(asks), self.asks, len(self.requests), new))
        self.asks += len(asks)

    def number(self, key: int) -> bool:
        """Whether a request gets a number: it has none, and the log isn't full."""
        if key in self.requests or len(self.requests) >= LOG_LENGTH:
            return False
        self.requests.add(key)
        return True

    def digest(self, count: int) -> str:
        """The digest of a bank's log of the first `count` requests, as docs/WIRE.md has it."""
        digest, before = hashlib.sha256(MAGIC + self.opening), 0
        for batch in self.all:
            if batch.entries > count:
                digest.update(b"".join(list(wire.frames(batch.new))[: count - before]))
                break
            digest.update(batch.new)
            before = batch.entries
        return digest.hexdigest()

    def place_of(self, entries: int, asks: int) -> int:
        """The place of the last batch with Asks before which the log has at most these numbers of requests and of asks."""
        found = 0
        for place, batch in enumerate(self.all):
            if batch.before > asks or (self.all[place - 1].entries if place else 0) > entries:
                break
            found = place if batch.asks else found
        return found

    def last_before(self, end: int) -> int:
        """The place of the last batch with Asks before this one."""
        return next((place for place in range(end - 1, -1, -1) if self.all[place].asks), 0)
