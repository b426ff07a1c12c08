"""Long values beside a log: its opening, and what it carries over from the log before it.

etcd takes 1.5 MB as a value. So the bytes stand in pieces, `NAME/00000` and so on, and the key `NAME` says how many these are
and the SHA-256 of all. It is made last: where it's there, all is there. Each key is made once, so another value is found."""
import hashlib

from etcd import LogError
from log import Log

PIECE = 1_000_000


def put(book: Log, name: str, value: bytes) -> None:
    """Makes the keys, where they aren't there yet with the same bytes."""
    parts = [value[start : start + PIECE] for start in range(0, len(value), PIECE)]
    for place, part in enumerate(parts):
        put_same(book, f"{book.prefix}/{name}/{place:05}", part)
    put_same(book, f"{book.prefix}/{name}", f"{len(parts)} {hashlib.sha256(value).hexdigest()}".encode())


def put_same(book: Log, key: str, value: bytes) -> None:
    _, there = book.put_new(key, value)
    if there not in (None, value):
        raise LogError(f"{key} is there with another value")


def get(book: Log, name: str) -> bytes | None:
    """The value, where all of it is there."""
    head = book.get(f"{book.prefix}/{name}")
    if head is None:
        return None
    count, digest = head.decode().split(" ")
    value = b"".join(book.get(f"{book.prefix}/{name}/{place:05}") or b"" for place in range(int(count)))
    if hashlib.sha256(value).hexdigest() != digest:
        raise LogError(f"{book.prefix}/{name} has other pieces than it says")
    return value


def wait(book: Log, name: str) -> bytes:
    """The value, once all of it is there."""
    book.wait(f"{book.prefix}/{name}")
    return get(book, name) or b""
