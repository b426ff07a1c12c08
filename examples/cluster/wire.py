"""Batches of Ask frames, outcomes and checkpoints, as docs/WIRE.md has them. A frame is as examples/client.py says."""
import pathlib
import re
import struct
import sys
from collections.abc import Iterator
from typing import NamedTuple

sys.path.insert(0, str(pathlib.Path(__file__).resolve().parents[1]))
import client  # noqa: E402

FLUSH = client.frame(bytes([client.TAG_FLUSH]))
# A batch is at most so many Asks. The longest Ask has 62 bytes and an Outcome 21, so a batch and its outcomes fit into the
# 1.5 MB that etcd takes as a value.
MOST_ASKS = 20_000
LONGEST_BODY = 64
HEAD_OF_ASK = struct.Struct(">HBII")  # length, tag, client, request
GOOD_OUTCOMES = {(client.OUTCOME.size - 2, client.TAG_OUTCOME, status, code) for status, code in client.WORDS}
VERBS = {kind: (verb, fields) for verb, (kind, fields) in client.CALLS.items()}
NAME = re.compile(rb"[a-z0-9_]{1,20}")
MAGICS = {b"SBCKPT01": 1, b"SBCKPT02": 2}  # how many totals stand behind the balances: theirs, then that of the opening
HEAD = struct.Struct(">8sQI")  # magic, how many replies, how many customers
REPLY = struct.Struct(">Bq")  # code, total


class Ask(NamedTuple):
    """What an Ask frame says; the call as its bytes."""

    client: int
    request: int
    call: bytes


class Checkpoint(NamedTuple):
    """Balances in cents, in the opening's order, and a reply, code and total, for each entry of the log."""

    savings: tuple[int, ...]
    checking: tuple[int, ...]
    total: int
    replies: tuple[tuple[int, int], ...]


def money(cents: int) -> str:
    return f"{'-' * (cents < 0)}{abs(cents) // 100}.{abs(cents) % 100:02}"


def encode_ask(number: int, request: int, line: bytes) -> bytes:
    """The Ask frame of a call line. A line that is no call is a ValueError."""
    return client.frame(client.ASK.pack(client.TAG_ASK, number, request) + client.call(line))


def encode(ask: Ask) -> bytes:
    """The Ask frame of an ask."""
    return client.frame(client.ASK.pack(client.TAG_ASK, ask.client, ask.request) + ask.call)


def spell_call(call: bytes) -> bytes:
    """The line of a call. Bytes that are no call are a ValueError, for just those that end a bank's session."""
    if not call or call[0] not in VERBS:
        raise ValueError("no call")
    verb, fields = VERBS[call[0]]
    words, place = [verb], 1
    for kind in fields:
        end = place + (1 + int.from_bytes(call[place : place + 1], "big") if kind == "N" else 8)
        if end > len(call):
            raise ValueError("a call that is too short")
        words.append(spell_name(call[place + 1 : end]) if kind == "N" else spell_amount(call[place:end]))
        place = end
    if place != len(call):
        raise ValueError("a call that is too long")
    return b" ".join(words)


def spell_ask(ask: Ask) -> bytes:
    """The line of an ask in the input of `smallbank run`."""
    return b"ask %d %d %b\n" % (ask.client, ask.request, spell_call(ask.call))


def spell_name(name: bytes) -> bytes:
    if not NAME.fullmatch(name):
        raise ValueError("a bad name")
    return name


def spell_amount(field: bytes) -> bytes:
    cents = int.from_bytes(field, "big", signed=True)
    if abs(cents) > client.LIMIT:
        raise ValueError("a bad amount")
    return money(cents).encode()


def read_frames(value: bytes) -> list[Ask]:
    """The Asks of bytes that are whole Ask frames and nothing else. Any other bytes are a ValueError."""
    asks, place = [], 0
    while place < len(value):
        length = int.from_bytes(value[place : place + 2], "big")
        body = value[place + 2 : place + 2 + length]
        if not 0 < length <= LONGEST_BODY or len(body) < length:
            raise ValueError(f"byte {place}: no frame")
        if body[0] != client.TAG_ASK or length < client.ASK.size:
            raise ValueError(f"byte {place}: no Ask")
        _, number, request = client.ASK.unpack_from(body)
        ask = Ask(number, request, body[client.ASK.size :])
        try:
            spell_call(ask.call)
        except ValueError as fault:
            raise ValueError(f"byte {place}: {fault}") from None
        asks.append(ask)
        place += 2 + length
    return asks


def read_batch(value: bytes) -> list[Ask]:
    """The Asks of a batch: whole Ask frames of clients from 1 on, and not too many. Any other bytes are a ValueError.

    Each feed judges each batch by this alone, so all leave out the same ones. A bank that got other bytes would end its
    session in the midst of the batch, each time anew. Client 0 is left out since a run can't be told its numbers."""
    asks = read_frames(value)
    if any(ask.client == 0 for ask in asks):
        raise ValueError("an ask of client 0")
    if len(asks) > MOST_ASKS:
        raise ValueError(f"{len(asks)} asks, and a batch has at most {MOST_ASKS}")
    return asks


def frames(value: bytes) -> Iterator[bytes]:
    """Each frame of bytes that are whole frames."""
    place = 0
    while place < len(value):
        end = place + 2 + int.from_bytes(value[place : place + 2], "big")
        yield value[place:end]
        place = end


def heads(value: bytes) -> Iterator[tuple[int, int]]:
    """Client and request of each Ask of bytes that are whole Ask frames."""
    place = 0
    while place < len(value):
        length, _, number, request = HEAD_OF_ASK.unpack_from(value, place)
        yield number, request
        place += 2 + length


def check_outcomes(outcomes: bytes, value: bytes) -> None:
    """A ValueError where these bytes aren't an outcome of each Ask of a value, in order."""
    asked = iter(heads(value))
    for length, tag, number, request, status, code, _ in client.OUTCOME.iter_unpack(outcomes):
        if (length, tag, status, code) not in GOOD_OUTCOMES or (number, request) != next(asked, None):
            raise ValueError(f"this is no outcome, or of another ask: client {number}, request {request}")
    if next(asked, None):
        raise ValueError("an outcome is missing")


def spell_reply(code: int, total: int) -> str:
    words = client.WORDS[0, code]
    return words if words != "shown" else f"shown {money(total)}"


def spell_outcomes(outcomes: bytes) -> list[str]:
    """The outcomes as a client is told them."""
    read = client.OUTCOME.iter_unpack(outcomes)
    return [spell_reply(code, total) if status == 0 else client.WORDS[status, code] for *_, status, code, total in read]


def checkpoint_length(checkpoint: bytes) -> int:
    """How many entries of the log a checkpoint is of. Bytes that begin as none are a ValueError."""
    if len(checkpoint) < HEAD.size or checkpoint[:8] not in MAGICS:
        raise ValueError("no checkpoint")
    return HEAD.unpack_from(checkpoint)[1]


def read_checkpoint(checkpoint: bytes) -> Checkpoint:
    """What a checkpoint says. Bytes of another length than it states are a ValueError."""
    length, customers = checkpoint_length(checkpoint), HEAD.unpack_from(checkpoint)[2]
    columns = struct.Struct(f">{customers}q{customers}q{MAGICS[checkpoint[:8]]}q")
    if len(checkpoint) != HEAD.size + columns.size + length * REPLY.size:
        raise ValueError("no checkpoint: its length is wrong")
    cents = columns.unpack_from(checkpoint, HEAD.size)
    replies = tuple(REPLY.iter_unpack(checkpoint[HEAD.size + columns.size :]))
    return Checkpoint(cents[:customers], cents[customers : 2 * customers], cents[2 * customers], replies)
