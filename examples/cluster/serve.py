#!/usr/bin/env python3
"""Keeps a bank of the present log: `serve.py --port 4000 --folder FOLDER --program smallbank --log`.

It waits for the feed of the same folder, which says which log that is; takes that log's opening from etcd; and runs
`smallbank serve` on it. When the feed is done with the log, it ends the bank and begins one of the next log. A bank that
ends by itself ends this program with its status, unless it has only used up its sessions: then it begins again."""
import argparse
import ctypes
import pathlib
import signal
import subprocess
import sys
import time

import log
import machine
import messages
import options as words_of
import pieces
from etcd import TELL_SECONDS, LogError, Tell

LOOK_SECONDS = 0.05
SESSIONS = 1000  # the most that a bank without a log of its own takes
DAY_SECONDS = 86_400
SIGNAL_OF_PARENTS_DEATH = 1  # PR_SET_PDEATHSIG
LIBRARY = ctypes.CDLL(None)


def die_with_parent() -> None:
    """Has the bank be killed where its keeper ends, however that ends."""
    LIBRARY.prctl(SIGNAL_OF_PARENTS_DEATH, signal.SIGKILL)


class Keeper:
    """A bank that is kept running."""

    def __init__(self, book: log.Log, options: argparse.Namespace, tell: Tell):
        self.book, self.options, self.tell = book, options, tell

    def place(self) -> machine.Place:
        """The log that the feed is at, once it says so."""
        told = time.monotonic()
        while not (place := machine.Place(self.options.folder, self.book.prefix).last()).own.exists():
            if time.monotonic() - told >= TELL_SECONDS:
                told = time.monotonic()
                self.tell(f"no feed of {self.options.folder} is at the log {place.prefix} yet")
            time.sleep(LOOK_SECONDS)
        return place

    def run(self) -> None:
        """One bank after the other, until one fails: its status is this program's then."""
        while True:
            place = self.place()
            self.tell(f"the log is {place.prefix}")
            opening = pieces.wait(log.Log(self.book.etcd, place.prefix), "opening")
            place.opening.write_bytes(opening)
            child = self.start(place)
            try:
                status = self.watch(child, place)
            finally:
                child.kill()
                child.wait()
            if status:
                self.tell(f"the bank ended with status {status}")
                sys.exit(status if status > 0 else 1)

    def start(self, place: machine.Place) -> subprocess.Popen:
        """Starts the bank. What it prints stands in a file that begins with its log's prefix, and with when it was started."""
        words = [self.options.program, "serve", "--port", f"{self.options.port}", "--store", place.own]
        words += ["--workers", f"{self.options.workers}"]
        # The feed may have nothing to say for long.
        words += ["--log", place.own, "--patience", f"{DAY_SECONDS}"] if self.options.log else ["--sessions", f"{SESSIONS}"]
        place.bank_output.unlink(missing_ok=True)
        with place.opening.open("rb") as opening, place.bank_output.open("wb") as output:
            output.write(f"of {place.prefix}\nsince {time.time_ns()}\n".encode())
            output.flush()
            return subprocess.Popen(words, stdin=opening, stdout=output, preexec_fn=die_with_parent)

    def watch(self, child: subprocess.Popen, place: machine.Place) -> int | None:
        """The status with which the bank ends; nothing where the log is over before."""
        while place.next() is None:
            if child.poll() is not None:
                return child.returncode
            time.sleep(LOOK_SECONDS)
        self.tell(f"the log {place.prefix} is over")
        return None


def main() -> None:
    words = argparse.ArgumentParser(description="Keeps a bank of the present log.")
    words_of.add_etcd(words)
    words.add_argument("--port", type=int, default=4000, help="the bank's port (4000)")
    words.add_argument("--folder", type=pathlib.Path, required=True, help="the machine's folder, that of its feed")
    words.add_argument("--program", type=pathlib.Path, default="smallbank", help="the bank's program (smallbank)")
    words.add_argument("--log", action="store_true", help="the bank keeps a log of its own on the disk")
    words.add_argument("--workers", type=int, default=0, help="the bank's workers (0)")
    options = words_of.parse(words)
    if not 1 <= options.port <= 65_535 or not 0 <= options.workers <= 16:
        words.error("a number is out of range")
    tell = messages.teller("bank")
    # So that the bank is ended with it.
    signal.signal(signal.SIGTERM, lambda *_: sys.exit(0))
    try:
        Keeper(log.Log(words_of.etcd(options, tell), options.prefix), options, tell).run()
    except (LogError, OSError) as fault:
        tell(str(fault))
        sys.exit(1)
    except KeyboardInterrupt:
        sys.exit(130)


if __name__ == "__main__":
    main()
