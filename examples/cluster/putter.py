"""Puts the gateway's batches into the log, and follows the outcomes that feeds report of them."""
import threading
from typing import NamedTuple, Protocol

import log
import pieces
from carried import Carried
from etcd import Tell
from talk import Piece


class Hearer(Protocol):
    """Whoever waits for outcomes. It's called from other threads."""

    def hear(self, prefix: str, entries: list[log.Entry]) -> None:
        """Takes outcomes of the log below a prefix."""

    def needs(self, prefix: str) -> bool:
        """Whether it waits for outcomes of that log."""

    def fail(self, fault: Exception) -> None:
        """Ends, as no more will be heard."""


class Put(NamedTuple):
    """A batch that is in the log below a prefix, and its outcomes, where they are known already."""

    prefix: str
    revision: int
    outcomes: bytes | None


class Putter:
    """The log that is put to at present. When it's closed, the next one takes its place."""

    def __init__(self, book: log.Log, hearer: Hearer, tell: Tell):
        self.book, self.hearer, self.tell = book, hearer, tell
        self.carried = Carried()
        self.over = False  # whether it waits for the next log

    def begin(self) -> None:
        """Goes to the last log, and follows its outcomes."""
        while following := self.book.following():
            self.book = log.Log(self.book.etcd, following)
        self.go_to(self.book.prefix)

    def go_to(self, prefix: str) -> None:
        """Goes to a log, once its opening is there, and so all that it carries over."""
        self.over = True
        self.book = log.Log(self.book.etcd, prefix)
        self.book.wait(f"{prefix}/opening")
        self.carried = Carried(pieces.get(self.book, "carried") or b"")
        _, revision = self.book.look()
        threading.Thread(target=self.follow, args=(self.book.another(), revision), daemon=True).start()
        self.tell(f"the log is {prefix}, which carries {len(self.carried)} requests over")
        self.over = False

    def follow(self, book: log.Log, revision: int) -> None:
        """Hears the outcomes that are reported after a revision, as long as there are any to wait for."""
        try:
            for entries in book.follow_keys(f"{book.prefix}/outcomes/", f"{book.prefix}/outcomes0", revision):
                self.hearer.hear(book.prefix, entries)
                if not entries and self.book.prefix != book.prefix and not self.hearer.needs(book.prefix):
                    return
        except Exception as fault:
            self.hearer.fail(fault)

    def put(self, batch: list[Piece]) -> Put | None:
        """Puts what is open of these pieces, and isn't carried over from the log before: nothing may be left of it."""
        while True:
            self.answer(batch)
            left = [(piece, place) for piece in batch for place, told in enumerate(piece.outcomes) if told is None]
            if not left:
                return None
            first = left[0][0].keys[left[0][1]]
            value = b"".join(piece.frames[place] for piece, place in left)
            try:
                revision, there = self.book.put_batch(value, int.from_bytes(first[:4], "big"), int.from_bytes(first[4:], "big"))
            except log.Closed as closed:
                self.tell(str(closed))
                self.go_to(closed.following)
                continue
            # What was there before may have been answered before, while nobody here listened.
            outcomes = None if there is None else self.book.get(f"{self.book.prefix}/outcomes/{revision}")
            return Put(self.book.prefix, revision, outcomes)

    def answer(self, batch: list[Piece]) -> None:
        """Answers the asks of the log before from what was carried over."""
        if not self.carried:
            return
        for piece in batch:
            for place, frame in enumerate(piece.frames):
                if piece.outcomes[place] is None and (outcome := self.carried.outcome(frame)):
                    piece.answer(place, outcome)
