"""A bank's log on disk, read and written from its format alone.

A file is a list of records. A record is the length of its body, a u32, that length's complement, a u32, the SHA-256 of all
bodies of the file up to and with its own, and the body. The first body is `SBLOG001` and the opening, up to and with its line
`begin`. Each other one has Ask frames, at least one, and no key stands twice in a file."""
import functools
import hashlib
import pathlib
import re
import struct
import sys
from typing import NamedTuple

sys.path.insert(0, str(pathlib.Path(__file__).resolve().parents[2] / "examples" / "cluster"))
import wire  # noqa: E402

MAGIC = b"SBLOG001"
LENGTHS = struct.Struct(">II")  # of the body, and its complement
HEAD = LENGTHS.size + hashlib.sha256().digest_size
ALL_ONES = 2**32 - 1
MONEY = rb"(?:0|[1-9][0-9]{0,9})\.[0-9]{2}|10000000000\.00"
ROW = re.compile(rb"([a-z0-9_]{1,20}) (?:%b) -?(?:%b)\n" % (MONEY, MONEY))
MOST_CUSTOMERS = 65_536


class Log(NamedTuple):
    """What bytes begin with, and their rest. The opening is None where they are no log yet."""

    opening: bytes | None
    batches: tuple[bytes, ...]  # the body of each batch
    ends: tuple[int, ...]  # where each record ends, that of the opening first
    digest: str
    rest: bytes
    is_torn: bool  # else the rest is damage

    @property
    def size(self):
        return self.ends[-1] if self.ends else 0

    @property
    def asks(self):
        return [ask for batch in self.batches for ask in asks_of(batch)]

    @property
    def line(self):
        """What a bank prints of this log."""
        return b"log %d %b\n" % (len(self.asks), self.digest.encode())


def spell(opening, batches):
    """The bytes of a log."""
    digest, records = hashlib.sha256(), []
    for body in [MAGIC + opening, *batches]:
        digest.update(body)
        records.append(LENGTHS.pack(len(body), ALL_ONES - len(body)) + digest.digest() + body)
    return b"".join(records)


def read(data):
    """The longest list of whole records at the front of these bytes, and what is behind it."""
    digest, keys, bodies, ends = hashlib.sha256(), set(), [], []
    while (body := next_body(data, ends[-1] if ends else 0, digest)) is not None:
        if not is_opening(body) if not bodies else not has_new_asks(body, keys):
            break
        digest.update(body)
        ends.append((ends[-1] if ends else 0) + HEAD + len(body))
        bodies.append(body)
    rest = data[ends[-1] if ends else 0 :]
    opening = bodies[0][len(MAGIC) :] if bodies else None
    return Log(opening, tuple(bodies[1:]), tuple(ends), digest.hexdigest(), rest, is_torn(rest))


def next_body(data, at, before):
    """The body of the record at a place, if it is whole and its head is right."""
    if len(data) < at + HEAD:
        return None
    length, complement = LENGTHS.unpack_from(data, at)
    body = data[at + HEAD : at + HEAD + length]
    if complement != ALL_ONES - length or len(body) < length:
        return None
    digest = before.copy()
    digest.update(body)
    return body if data[at + LENGTHS.size : at + HEAD] == digest.digest() else None


def is_opening(body):
    lines = body.removeprefix(MAGIC).splitlines(keepends=True)
    rows = [ROW.fullmatch(line) for line in lines[:-1]]
    is_read = body.startswith(MAGIC) and lines[-1:] == [b"begin\n"] and all(rows) and b" -0.00\n" not in body
    return is_read and len({row[1] for row in rows}) == len(rows) <= MOST_CUSTOMERS


def has_new_asks(body, keys):
    """Whether these are Asks, each with a key that none before it has; the keys are added."""
    asks = asks_of(body)
    new = {(ask.client, ask.request) for ask in asks}
    if not asks or len(new) < len(asks) or new & keys:
        return False
    keys |= new
    return True


@functools.lru_cache(maxsize=None)
def asks_of(body):
    """The Asks of a body, or none where it has anything else. A log that grows is read again and again, so they are kept."""
    try:
        return tuple(wire.read_frames(body))
    except ValueError:
        return ()


def is_torn(rest):
    """Whether these bytes are the beginning of a record, and not all of it, or zeros alone."""
    if not rest.strip(b"\0") or len(rest) < 4:
        return True
    length = int.from_bytes(rest[:4], "big")
    complement = (ALL_ONES - length).to_bytes(4, "big")
    return complement.startswith(rest[4:8]) and len(rest) < HEAD + length
