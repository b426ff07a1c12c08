#!/usr/bin/env python3
"""Asks a bank that `smallbank serve` serves: `examples/client.py --port 4000 < calls`.

Standard input has a call a line, such as `deposit bob 5.00`; standard output gets an outcome a line. Lines are asked as they
come: each goes out as an Ask frame under the client's number and the next request number, and a Flush frame follows each
batch of them. Then the server answers with an Outcome frame for each Ask since the Flush before, in order. What is asked
again under the same two numbers is answered again and isn't done again: `--repeat` asks everything twice, and compares.

At the end it waits until the server has ended its side, and so has executed and saved what was asked. The exit status is 0;
1 if an outcome was `mismatch` or `log full`; 2 if the words or a line are refused, and lines before that one were asked; 3 if
the connection, standard input or standard output failed."""
import argparse
import contextlib
import errno
import itertools
import os
import random
import re
import socket
import struct
import sys

# A frame is the length of its body, two bytes, and then the body, whose first byte is its tag. All numbers on the wire are
# big-endian. Here are the tags, what stands in an Ask before its call, and a whole Outcome, its length included.
TAG_ASK, TAG_OUTCOME, TAG_FLUSH = 1, 5, 6
ASK = struct.Struct(">BII")  # tag, client, request
OUTCOME = struct.Struct(">HBIIBBq")  # length, tag, client, request, status, code, total
# A call is its kind, one byte, then its names N and its amount V.
CALLS = {b"balance": (1, "N"), b"deposit": (2, "NV"), b"savings": (3, "NV"), b"amalgamate": (4, "NN"),
         b"check": (5, "NV"), b"pay": (6, "NNV")}
# What an Outcome's status and code say. Its total is 0 but for `shown`.
WORDS = {(0, 0): "shown", (0, 1): "done", (0, 2): "penalised", (0, 3): "no customer", (0, 4): "same customer",
         (0, 5): "negative", (0, 6): "would overdraw", (0, 7): "over limit", (1, 0): "mismatch", (2, 0): "log full"}
LIMIT = 1_000_000_000_000  # cents
NUMBERS, PORTS = range(2**32), range(1, 2**16)  # numbers of clients and of requests
PIECE = 1 << 16  # bytes: as many are read at a time
OUTPUT = "standard output"


def frame(body):
    return struct.pack(">H", len(body)) + body


def field(kind, word):
    """A name as its length, one byte, and its bytes; an amount as its cents, eight bytes."""
    if kind == "N":
        if re.fullmatch(rb"[a-z0-9_]{1,20}", word):
            return bytes([len(word)]) + word
        raise ValueError("bad name")
    if re.fullmatch(rb"-?(0|[1-9][0-9]{0,10})\.[0-9]{2}", word) and word != b"-0.00":
        cents = int(word.replace(b".", b""))
        if abs(cents) <= LIMIT:
            return struct.pack(">q", cents)
    raise ValueError("bad money")


def call(line):
    verb, *words = line.split(b" ")
    if verb not in CALLS:
        raise ValueError("unknown verb")
    kind, fields = CALLS[verb]
    if len(words) != len(fields):
        raise ValueError("wrong words")
    return bytes([kind]) + b"".join(map(field, fields, words))


class BadLine(SystemExit):
    """A line at fault, which has been told, ends the program."""


class Failure(Exception):
    """What failed, and the error that it gave."""


@contextlib.contextmanager
def named(what):
    """Says of an error of the system what it is of."""
    try:
        yield
    except OSError as error:
        raise Failure(what, error) from error


def asks(text, client, first, place=1):
    """The request number and the Ask frame of each line of a text, whose first line has this place in the input."""
    for place, line in enumerate(text.removesuffix(b"\n").split(b"\n") if text else [], place):
        try:
            if first not in NUMBERS:
                raise ValueError("no request number is left")
            yield first, frame(ASK.pack(TAG_ASK, client, first) + call(line))
        except ValueError as fault:
            print(f"client: line {place}: {fault}", file=sys.stderr)
            raise BadLine(2) from fault
        first += 1


def texts(size):
    """Standard input as it comes, by whole lines: at most so many at a time, and at least those that are there."""
    rest = b""
    while True:
        with named("standard input"):
            piece = sys.stdin.buffer.read1(PIECE)
        *lines, rest = (rest + piece).split(b"\n")
        if rest and not piece:
            lines.append(rest)
        yield from (b"".join(line + b"\n" for line in lines[start : start + size]) for start in range(0, len(lines), size))
        if not piece:
            return


def batches(options):
    """The Ask frames of each batch. A line at fault ends them, behind those of the lines before it."""
    place = 0
    for text in texts(options.flush):
        asked = []
        try:
            for _, ask in asks(text, options.client, options.first + place, place + 1):
                asked.append(ask)
                place += 1
        except BadLine:
            if asked:
                yield asked
            raise
        yield asked


def outcome(replies, client, request):
    """Reads the next frame, which must be the outcome of this request, and says it in words."""
    read = replies.read(OUTCOME.size)
    if len(read) < OUTCOME.size:
        raise OSError("the server hung up")
    *head, status, code, total = OUTCOME.unpack(read)
    words = WORDS.get((status, code))
    if words is None or head != [OUTCOME.size - 2, TAG_OUTCOME, client, request]:
        raise OSError(f"this is no outcome of request {request}: {read.hex()}")
    return words if words != "shown" else f"shown {'-' * (total < 0)}{abs(total) // 100}.{abs(total) % 100:02}"


class Session:
    """A connection to the bank, with the next request's number, and whether one was a mismatch or found the log full."""

    def __init__(self, connection, options):
        connection.setsockopt(socket.IPPROTO_TCP, socket.TCP_NODELAY, 1)
        self.connection, self.replies, self.options = connection, connection.makefile("rb"), options
        self.request, self.has_refusals = options.first, False

    def converse(self, asked):
        """Sends a batch and reads its outcomes before the next one, so that neither side waits for the other to read."""
        times = 2 if self.options.repeat else 1
        self.connection.sendall(b"".join(ask * times for ask in asked) + frame(bytes([TAG_FLUSH])))
        try:
            for _ in asked:
                self.tell([outcome(self.replies, self.options.client, self.request) for _ in range(times)])
                self.request += 1
        finally:
            with named(OUTPUT):
                sys.stdout.flush()

    def tell(self, told):
        """Prints the outcome of a request, which is the same each time."""
        self.has_refusals |= told[0] in ("mismatch", "log full")
        with named(OUTPUT):
            print(told[0])
        if told[0] != told[-1]:
            raise OSError(f"request {self.request} was answered `{told[0]}`, and again `{told[-1]}`")

    def end(self):
        """Ends this side, and waits until the server has ended its own."""
        self.connection.shutdown(socket.SHUT_WR)
        if rest := self.replies.read(1):
            raise OSError(f"this came after the last outcome: {rest.hex()}")


def read_options():
    words = argparse.ArgumentParser(description="Asks a bank that `smallbank serve` serves, by call lines.")
    words.add_argument("--port", type=int, required=True)
    words.add_argument("--host", default="127.0.0.1")
    words.add_argument("--client", type=int, help="the client's number; without it a random one, which is told")
    words.add_argument("--first", type=int, default=1, help="the first request's number (1)")
    words.add_argument("--flush", type=int, default=100, help="how many lines a batch has at most (100)")
    words.add_argument("--repeat", action="store_true", help="ask each request twice, and compare the outcomes")
    options = words.parse_args()
    if options.client is None:
        options.client = random.randrange(1, NUMBERS.stop)
        print(f"client: asks as client {options.client}", file=sys.stderr)
    if options.client not in NUMBERS or options.first not in NUMBERS or options.flush < 1 or options.port not in PORTS:
        words.error("a number is out of range")
    return options


def run(options):
    """Asks all lines, and answers the exit status."""
    asked, bad = batches(options), None
    # If the first line is at fault, nobody is asked.
    first = next(asked, [])
    with named(f"{options.host}:{options.port}"), socket.create_connection((options.host, options.port)) as connection:
        session = Session(connection, options)
        try:
            for batch in itertools.chain([first] if first else [], asked):
                session.converse(batch)
        except BadLine as fault:
            bad = fault
        session.end()
    if bad:
        raise bad
    return 1 if session.has_refusals else 0


def main():
    options = read_options()
    try:
        if sys.stdin is None or sys.stdout is None:
            raise Failure(OUTPUT if sys.stdin else "standard input", OSError(errno.EBADF, os.strerror(errno.EBADF)))
        sys.exit(run(options))
    except Failure as fault:
        what, error = fault.args
        # Who reads no more wants no word of it.
        if what != OUTPUT or not isinstance(error, BrokenPipeError):
            print(f"client: {what}: {error.strerror or error}", file=sys.stderr)
        if sys.stdout:
            # What is left for standard output goes nowhere.
            os.dup2(os.open(os.devnull, os.O_WRONLY), sys.stdout.fileno())
        sys.exit(3)
    except KeyboardInterrupt:
        sys.exit(130)


if __name__ == "__main__":
    main()
