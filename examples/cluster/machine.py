"""The folder of a machine: what its feed and its bank have of each log.

    FOLDER/bank.output     what the bank prints that runs now, behind the prefix of its log and when it was started
    FOLDER/NAME/           a log's, by the name of its prefix:
      opening  node0.ckpt  log       what the bank reads and writes
      outcomes                       those of the log so far, by the feed
      over                           the prefix of the next log: the feed is done with this one

The feed says which log it is at, and the bank's keeper follows it. So both are always at the same one."""
import pathlib
import re
from typing import NamedTuple

from log import Log

# What stands in the file of a bank that listens. One without a log of its own has no line `log`.
BEGINNING = re.compile(rb"of (.*)\nsince ([0-9]+)\n(?:log ([0-9]+) ([0-9a-f]{64})\n)?listening ")


class Place(NamedTuple):
    """A log's part of a machine's folder."""

    folder: pathlib.Path
    prefix: str

    @property
    def own(self) -> pathlib.Path:
        return self.folder / self.prefix.strip("/").replace("/", ".")

    @property
    def opening(self) -> pathlib.Path:
        return self.own / "opening"

    @property
    def checkpoint(self) -> pathlib.Path:
        return self.own / "node0.ckpt"

    @property
    def outcomes(self) -> pathlib.Path:
        return self.own / "outcomes"

    @property
    def bank_output(self) -> pathlib.Path:
        return self.folder / "bank.output"

    def next(self) -> str | None:
        """The prefix of the next log, where this machine is done with this one."""
        try:
            return (self.own / "over").read_text()
        except FileNotFoundError:
            return None

    def go_over(self, following: str) -> None:
        """Says that this machine is done with the log. What is half written is never read."""
        self.own.mkdir(parents=True, exist_ok=True)
        written = self.own / "over.new"
        written.write_text(following)
        written.rename(self.own / "over")

    def last(self) -> "Place":
        """The log that this machine is at, as far as it knows."""
        place = self
        while following := place.next():
            place = place._replace(prefix=following)
        return place


class Beginning(NamedTuple):
    """When a bank was started, and where it began: its log's length and digest; without a log of its own 0, and no digest."""

    since: int
    entries: int
    digest: str | None


def beginning(place: Place) -> Beginning | None:
    """Where the bank began that listens now; None where it isn't of this log.

    To be asked when the bank has been connected to: a bank prints this before it listens, and its keeper makes another
    file before it starts another one. So where these lines aren't of the bank that was connected to, that one is gone."""
    try:
        printed = place.bank_output.read_bytes()
    except FileNotFoundError:
        return None
    found = BEGINNING.match(printed)
    if not found or found[1].decode() != place.prefix:
        return None
    return Beginning(int(found[2]), int(found[3] or 0), found[4].decode() if found[4] else None)


def present(book: Log, folder: pathlib.Path) -> Place:
    """The log that this machine's feed is to be at. A log that is over, and that the machine has nothing of, is left out."""
    place = Place(folder, book.prefix).last()
    while not place.own.exists():
        at = Log(book.etcd, place.prefix)
        following = at.following()
        if following is None or at.get(f"{following}/opening") is None:
            break
        place.go_over(following)
        place = place.last()
    place.own.mkdir(parents=True, exist_ok=True)
    return place
