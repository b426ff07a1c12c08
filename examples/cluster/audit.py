"""What is compared at marks: each feed puts a digest of its bank's checkpoint into etcd, and looks at the others'."""
import hashlib
import pathlib
import time
from collections import Counter

import log
import wire
from etcd import Tell

# How often a mark is passed anew whose checkpoint wasn't saved, as where the bank was killed there.
TRIES = 3
LOOK_SECONDS = 1.0


class Strayed(Exception):
    """The bank isn't where the log says."""


class Audit:
    """The marks that this feed's bank passed, and how it compares with the others there."""

    def __init__(self, book: log.Log, name: str, banks: int, checkpoint: pathlib.Path, tell: Tell):
        self.book, self.name, self.banks, self.checkpoint, self.tell = book, name, banks, checkpoint, tell
        self.tries: Counter[int] = Counter()  # by a mark's revision
        self.pending: tuple[int, int] | None = None  # a mark that was passed, and how many entries there are before it
        self.open: int | None = None  # the last mark that was compared, while not all have told theirs there
        self.last: tuple[int, str] | None = None  # the last mark that was compared, and this bank's digest there
        self.looked = 0.0
        self.warned = False

    def wants(self, mark: int) -> bool:
        """Whether the session is to end at this mark."""
        waits = self.pending is not None and self.pending[0] == mark
        return self.tries[mark] < TRIES and not waits

    def is_done(self, mark: int) -> bool:
        """Whether this mark is passed for good."""
        return self.tries[mark] >= TRIES

    def passed(self, mark: int, entries: int) -> None:
        """The session was ended at this mark, where the log has so many entries."""
        self.tries[mark] += 1
        self.pending = mark, entries

    def settle(self, known: int) -> bool:
        """Compares the checkpoint of the mark that was passed, where one is pending. All that is known of the log has
        `known` entries. It answers whether the mark is to be passed anew.

        It's called when the bank has told the first outcomes of the next session. The end of a stream says that the
        checkpoint was put where a session ended well; but it comes too where the bank is killed. Sessions are served one
        after the other, so by now it was put, or this is a new bank, which has a shorter one or none."""
        if self.pending is None:
            return False
        (mark, entries), self.pending = self.pending, None
        try:
            read = self.checkpoint.read_bytes()
            length = wire.checkpoint_length(read)
            if length < entries:
                raise ValueError(f"{self.checkpoint} has {length} entries in place of {entries}")
        except (OSError, ValueError) as fault:
            # Perhaps the bank was killed there.
            if self.tries[mark] >= TRIES:
                raise OSError(f"mark {mark} was passed {TRIES} times, and no checkpoint of it was found: {fault}") from None
            self.tell(f"mark {mark} is passed once more: {fault}")
            return True
        if length > known:
            why = "somebody else asked it, or it is another log's"
            raise Strayed(f"its checkpoint has {length} entries, and the log {known}: {why}")
        self.tries[mark] = TRIES
        if length > entries:
            self.tell(f"mark {mark}: not compared, since the bank is further, with {length} entries in place of {entries}")
        else:
            self.compare(mark, entries, hashlib.sha256(read).hexdigest())
        return False

    def compare(self, mark: int, entries: int, digest: str) -> None:
        """Tells the others the digest of this bank's checkpoint, and looks at theirs."""
        _, there = self.book.put_new(f"{self.book.prefix}/digest/{mark}/{self.name}", digest.encode())
        if there not in (None, digest.encode()):
            raise Strayed(f"mark {mark}: its checkpoint has another digest than {self.name} told before")
        self.tell(f"mark {mark}: {entries} entries, digest {digest[:16]}")
        self.last, self.open, self.warned = (mark, digest), mark, False
        self.look(at_once=True)

    def look(self, at_once: bool = False) -> None:
        """Looks at the digests of the last mark, once a second at most, until all banks' are there."""
        if self.open is None or not at_once and time.monotonic() - self.looked < LOOK_SECONDS:
            return
        self.looked = time.monotonic()
        digests = self.book.below(f"{self.book.prefix}/digest/{self.open}/")
        counts, mine = Counter(digests.values()), digests[self.name]
        others = sorted(name for name, digest in digests.items() if digest != mine)
        common, count = counts.most_common(1)[0]
        majority = 2 * count > max(self.banks, len(digests))
        if others and (majority and common != mine or not majority and len(digests) >= self.banks):
            raise Strayed(f"mark {self.open}: its checkpoint has another digest than that of {', '.join(others)}")
        if others and not self.warned:
            self.warned = True
            self.tell(f"mark {self.open}: the checkpoint of {', '.join(others)} has another digest")
        if len(digests) >= self.banks:
            self.open = None

    def status(self) -> dict:
        """The last mark, for a page."""
        mark, digest = self.last or (None, None)
        return {"last mark": mark, "digest": digest, "compared with all": self.last is not None and self.open is None}
