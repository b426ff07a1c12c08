#!/usr/bin/env python3
"""Puts call lines into a log of batches in etcd: `examples/cluster/submit.py --client 7 --wait < calls`.

Standard input has a call a line, as that of examples/client.py. Each becomes an Ask frame under the client's number and the
next request number, and so many of them a batch. With `--wait` the outcomes are printed that a bank's feed told of them.
Whoever isn't sure whether it went through gives the same words and lines again: what is there already isn't put again."""
import argparse
import io
import random
import secrets
import sys
import time
from typing import NamedTuple

import log
import messages
import options as words_of
import wire
from etcd import LogError, NobodyAnswers
from wire import client

LOOK_SECONDS = (0.02, 0.5)  # how often it is looked for outcomes: at first, and at last


class Batch(NamedTuple):
    """The Asks of some lines, as a value of the log."""

    asks: list[wire.Ask]
    value: bytes


tell = messages.teller("submit")


def batches(read: bytes, options: argparse.Namespace) -> list[Batch]:
    """The batches of all lines. A line at fault ends the program, before anything was put."""
    lines = read.removesuffix(b"\n").split(b"\n") if read else []
    frames = []
    for place, line in enumerate(lines):
        try:
            if options.first + place not in client.NUMBERS:
                raise ValueError("no request number is left")
            frames.append(wire.encode_ask(options.client, options.first + place, line))
        except ValueError as fault:
            tell(f"line {place + 1}: {fault}")
            sys.exit(2)
    values = [b"".join(frames[start : start + options.flush]) for start in range(0, len(frames), options.flush)]
    return [Batch(wire.read_batch(value), value) for value in values]


def told(book: log.Log, revision: int, give_up: float) -> bytes:
    """The outcomes of the batch of this revision, once a feed told them."""
    start, pause = time.monotonic(), LOOK_SECONDS[0]
    while (outcomes := book.get(f"{book.prefix}/outcomes/{revision}")) is None:
        if time.monotonic() - start > give_up:
            raise NobodyAnswers(f"no feed told its outcomes for {give_up:.0f} s")
        time.sleep(pause)
        pause = min(2 * pause, LOOK_SECONDS[1])
    return outcomes


def show(batch: Batch, outcomes: bytes) -> None:
    """Prints an outcome a line."""
    if not outcomes:
        raise LogError("the feeds left it out, as it isn't whole Asks")
    replies = io.BytesIO(outcomes)
    for ask in batch.asks:
        print(client.outcome(replies, ask.client, ask.request))
    sys.stdout.flush()


def submit(asked: list[Batch], book: log.Log, options: argparse.Namespace) -> None:
    """Puts all batches, one after the other, since their order is that of the log; then waits for outcomes."""
    revisions = []
    for place, batch in enumerate(asked):
        time.sleep(options.pause * random.uniform(0.5, 1.5) if place else 0)
        where = f"requests {batch.asks[0].request} to {batch.asks[-1].request}"
        try:
            revisions.append(book.put_batch(batch.value, batch.asks[0].client, batch.asks[0].request)[0])
        except NobodyAnswers as fault:
            raise NobodyAnswers(f"{where} may be in the log or not, and nothing after them is; "
                                f"the same words and lines once more put what is missing: {fault}") from None
        except LogError as fault:
            raise LogError(f"{where} and those after them aren't put: {fault}") from None
        except log.Closed as fault:
            show_all(asked[:place], revisions, book, options)
            raise LogError(f"{where} and those after them aren't put, and never will be: {fault}. Ask what follows line "
                           f"{batch.asks[0].request - options.first} there, with --first {batch.asks[0].request}") from None
        if not options.wait:
            print(f"{where} in the log since revision {revisions[-1]}", flush=True)
    if options.mark:
        revision, _ = book.append(f"{book.first}mark/{secrets.token_hex(16)}", b"")
        tell(f"mark in the log since revision {revision}")
    show_all(asked, revisions, book, options)


def show_all(asked: list[Batch], revisions: list[int], book: log.Log, options: argparse.Namespace) -> None:
    """Waits for the outcomes of these batches, and prints them, where that is wanted."""
    for batch, revision in zip(asked, revisions) if options.wait else ():
        try:
            show(batch, told(book, revision, options.give_up))
        except (NobodyAnswers, LogError, OSError) as fault:
            sys.stdout.flush()
            raise NobodyAnswers(f"the batch of revision {revision} is in the log: {fault}") from None


def main() -> None:
    words = argparse.ArgumentParser(description="Puts call lines into a log of batches in etcd.")
    words_of.add_etcd(words)
    words.add_argument("--client", type=int, default=1, help="the client's number (1)")
    words.add_argument("--first", type=int, default=1, help="the first request's number (1)")
    words.add_argument("--flush", type=int, default=1000, help="how many lines a batch has (1000)")
    words.add_argument("--wait", action="store_true", help="print the outcomes")
    words.add_argument("--mark", action="store_true", help="put a mark behind, at which banks are saved and compared")
    words.add_argument("--pause", type=float, default=0, help="about so many seconds between two batches (0)")
    words.add_argument("--give-up", type=float, default=60, help="how many seconds etcd, and a feed, is waited for (60)")
    options = words_of.parse(words)
    if options.client not in client.NUMBERS[1:] or options.first not in client.NUMBERS:
        words.error("a number is out of range")
    if not 1 <= options.flush <= wire.MOST_ASKS:
        words.error(f"a batch has 1 to {wire.MOST_ASKS} lines")
    if options.pause < 0 or options.give_up <= 0:
        words.error("a time is out of range")
    asked = batches(sys.stdin.buffer.read(), options)
    book = log.Log(words_of.etcd(options, tell, options.give_up), options.prefix)
    try:
        submit(asked, book, options)
    except (NobodyAnswers, LogError, log.Closed) as fault:
        tell(str(fault))
        sys.exit(1)
    except KeyboardInterrupt:
        sys.exit(130)


if __name__ == "__main__":
    main()
