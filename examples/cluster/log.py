"""A log of batches in etcd.

Each batch is a key of its own, which is made where it isn't there and never put again. The log's order is that of the
revisions at which the keys were made. So a retry, by whoever, through whichever member, finds the key and moves nothing.
The key `log/closed` ends the log: what puts a batch looks in the same transaction that it isn't there."""
import base64
import hashlib
import time
from collections.abc import Iterator
from typing import NamedTuple

from etcd import TELL_SECONDS, Compacted, Etcd, LogError, Unanswered, text

PAGE, LONGEST_PAGE = 16, 128  # how many batches are read at once: as they may be long, or while they are short
SHORT_PAGE = 1 << 20  # bytes, up to which the next page may be twice as long
NAMES = 10_000  # how many names are read at once
TOGETHER = 100  # how many keys are asked for at once; etcd takes 128
LOOK_SECONDS, LATE_LOOK_SECONDS = 0.05, 0.5  # how often it is looked for a key: at first, and once it was said that it's missing


class Closed(Exception):
    """The log has ended, and isn't put to any more. Another one follows."""

    def __init__(self, following: str):
        super().__init__(f"the log is closed: it goes on below the prefix {following}")
        self.following = following


class Entry(NamedTuple):
    """A batch of the log, a mark where its value is empty, or the log's end."""

    revision: int
    key: str
    value: bytes

    @property
    def is_mark(self) -> bool:
        return not self.value


class Log:
    """The log below a prefix of etcd's keys, and what banks told of it beside."""

    def __init__(self, etcd: Etcd, prefix: str):
        self.etcd, self.prefix = etcd, prefix
        self.first, self.end = f"{prefix}/log/", f"{prefix}/log0"  # `0` comes after `/`
        self.closing = f"{prefix}/log/closed"

    def another(self) -> "Log":
        """The same log, for another thread."""
        return Log(self.etcd.another(), self.prefix)

    # ---- to put

    def put_new(self, key: str, value: bytes) -> tuple[int, bytes | None]:
        """Makes a key where it isn't there: the revision at which it was made, and its value where it was there."""
        return self.make(key, value, [key])

    def append(self, key: str, value: bytes) -> tuple[int, bytes | None]:
        """Makes a key of the log where it isn't there. Where the log is closed, nothing is made, and it's a Closed."""
        return self.make(key, value, [key, self.closing])

    def put_batch(self, value: bytes, client: int, first: int) -> tuple[int, bytes | None]:
        """Appends a batch. Its key says whose first request it begins with, and which bytes it has. So other asks under the
        same numbers are another batch, and the same ones are the same, whoever puts them."""
        key = f"{self.first}{client}/{first}-{hashlib.sha256(value).hexdigest()}"
        revision, there = self.append(key, value)
        if there not in (None, value):
            raise LogError(f"{key} has another value than its name says")
        return revision, there

    def make(self, key: str, value: bytes, absent: list[str]) -> tuple[int, bytes | None]:
        """Makes a key where none of these is there, of which it is the first."""
        answer = self.etcd.call("/v3/kv/txn", {
            "compare": [{"key": text(each), "target": "CREATE", "result": "EQUAL", "create_revision": "0"} for each in absent],
            "success": [{"request_put": {"key": text(key), "value": text(value)}}],
            "failure": [{"request_range": {"key": text(each)}} for each in absent],
        })
        if answer.get("succeeded"):
            return int(answer["header"]["revision"]), None
        there, *end = (each["response_range"].get("kvs", []) for each in answer["responses"])
        if not there:
            raise Closed(read_key(end[0][0]).value.decode())
        entry = read_key(there[0])
        return entry.revision, entry.value

    def close(self, following: str) -> str:
        """Closes the log, once: the prefix of the next log, which is another one where it was closed before."""
        _, there = self.put_new(self.closing, following.encode())
        return following if there is None else there.decode()

    # ---- to read

    def get(self, key: str) -> bytes | None:
        found = self.etcd.call("/v3/kv/range", {"key": text(key)}).get("kvs")
        return read_key(found[0]).value if found else None

    def get_all(self, keys: list[str]) -> list[bytes | None]:
        """What these keys have, each."""
        values: list[bytes | None] = []
        for start in range(0, len(keys), TOGETHER):
            asked = [{"request_range": {"key": text(key)}} for key in keys[start : start + TOGETHER]]
            told = self.etcd.call("/v3/kv/txn", {"success": asked})["responses"]
            found = (each["response_range"].get("kvs") for each in told)
            values += [read_key(each[0]).value if each else None for each in found]
        return values

    def wait(self, key: str) -> bytes:
        """What a key has, once it's there."""
        start = told = time.monotonic()
        while (value := self.get(key)) is None:
            if time.monotonic() - told >= TELL_SECONDS:
                told = time.monotonic()
                self.etcd.tell(f"{key} has been waited for {told - start:.0f} s")
            time.sleep(LOOK_SECONDS if told == start else LATE_LOOK_SECONDS)
        return value

    def following(self) -> str | None:
        """The prefix of the next log, where this one is closed."""
        value = self.get(self.closing)
        return None if value is None else value.decode()

    def below(self, prefix: str) -> dict[str, bytes]:
        """The keys that begin with a prefix, which ends with `/`, without the prefix."""
        body = {"key": text(prefix), "range_end": text(prefix[:-1] + "0")}
        found = map(read_key, self.etcd.call("/v3/kv/range", body).get("kvs", []))
        return {entry.key.removeprefix(prefix): entry.value for entry in found}

    def names(self, prefix: str) -> set[str]:
        """The keys that begin with a prefix, which ends with `/`, without the prefix and their values."""
        names: set[str] = set()
        body = {"key": text(prefix), "range_end": text(prefix[:-1] + "0"), "keys_only": True, "limit": str(NAMES)}
        while True:
            answer = self.etcd.call("/v3/kv/range", body)
            found = list(map(read_key, answer.get("kvs", [])))
            names |= {entry.key.removeprefix(prefix) for entry in found}
            if not answer.get("more"):
                return names
            body["key"] = text(found[-1].key + "\0")

    def count(self) -> int:
        """How many batches and marks there are."""
        return self.look()[0]

    def look(self) -> tuple[int, int]:
        """How many batches and marks there are, and etcd's revision."""
        answer = self.etcd.call("/v3/kv/range", {"key": text(self.first), "range_end": text(self.end), "count_only": True})
        return int(answer.get("count", 0)), int(answer["header"]["revision"])

    def read(self) -> tuple[list[Entry], int]:
        """The whole log in order, and the revision that it was read at, the same for all pages."""
        return self.read_keys(self.first, self.end)

    def read_at(self, revision: int) -> tuple[list[Entry], int]:
        """The log as it was at a revision, or is now where that is 0."""
        return self.read_keys_at(self.first, self.end, revision)

    def read_keys(self, first: str, end: str) -> tuple[list[Entry], int]:
        """Keys in the order in which they were made, and the revision that they were read at."""
        while True:
            try:
                return self.read_keys_at(first, end, 0)
            except Compacted:
                continue

    def read_keys_at(self, first: str, end: str, revision: int) -> tuple[list[Entry], int]:
        entries, key, page = [], text(first), PAGE
        while True:
            body = {"key": key, "range_end": text(end), "limit": str(page), "revision": str(revision)}
            answer = self.etcd.call("/v3/kv/range", body)
            revision = revision or int(answer["header"]["revision"])
            read = list(map(read_key, answer.get("kvs", [])))
            entries += read
            if not answer.get("more"):
                return in_order(sorted(entries)), revision
            key = text(read[-1].key + "\0")
            page = min(2 * page, LONGEST_PAGE) if sum(len(entry.value) for entry in read) <= SHORT_PAGE else PAGE

    def follow(self) -> Iterator[list[Entry]]:
        """The whole log, and then what comes, in order and for ever; nothing where a while passed in silence."""
        entries, revision = self.read()
        yield entries
        yield from self.follow_keys(self.first, self.end, revision)

    def follow_keys(self, first: str, end: str, revision: int) -> Iterator[list[Entry]]:
        """The keys that are made after a revision, in order and for ever; nothing where a while passed in silence."""
        while True:
            try:
                for answer in self.etcd.watch(first, end, revision + 1):
                    entries = in_order([read_event(event) for event in answer.get("events", [])])
                    # A watch that is made anew goes on after the last batch, also in the midst of a long answer.
                    revision = entries[-1].revision if entries else revision
                    yield entries
            except Compacted:
                # The keys are all there still, so what is missing comes by a range.
                entries, pinned = self.read_keys(first, end)
                yield [entry for entry in entries if entry.revision > revision]
                revision = pinned
            except Unanswered:
                # Silence too: of a member that is cut off nothing is heard, and no fault either.
                self.etcd.leave()
                yield []
                self.count()  # Says where no member answers, and comes back once one does.


def read_key(found: dict) -> Entry:
    """What a key of etcd says. A key that was put again is a LogError: readers may differ about its place and value."""
    key = base64.b64decode(found["key"]).decode(errors="replace")
    if found["create_revision"] != found["mod_revision"]:
        raise LogError(f"{key} was put again, at revision {found['mod_revision']}: this is a log no more")
    return Entry(int(found["create_revision"]), key, base64.b64decode(found.get("value", "")))


def read_event(event: dict) -> Entry:
    if event.get("type", "PUT") != "PUT":
        key, revision = base64.b64decode(event["kv"]["key"]).decode(errors="replace"), event["kv"]["mod_revision"]
        raise LogError(f"{key} was deleted, at revision {revision}: this is a log no more")
    return read_key(event["kv"])


def in_order(entries: list[Entry]) -> list[Entry]:
    """These entries. Two that were made at once are a LogError: nothing says which is the first."""
    for before, after in zip(entries, entries[1:]):
        if before.revision >= after.revision:
            raise LogError(f"{before.key} and {after.key} were made at once, at revision {after.revision}: this is a log no more")
    return entries
