"""A session with a bank that `smallbank serve` serves."""
import select
import socket
import time
from collections.abc import Callable

import wire

RETRY_SECONDS = 0.2
# After how many seconds without a word from the bank it is said.
SILENCE_SECONDS = 10.0


class BankAway(Exception):
    """The session is over before its end."""


def begin(address: tuple[str, int], tell: Callable[[str], None]) -> socket.socket:
    """A connection with the bank, once it is there."""
    start = told = time.monotonic()
    while True:
        try:
            connection = socket.create_connection(address, timeout=SILENCE_SECONDS)
            connection.setsockopt(socket.IPPROTO_TCP, socket.TCP_NODELAY, 1)
            return connection
        except OSError as fault:
            now = time.monotonic()
            if now - told >= SILENCE_SECONDS:
                told = now
                tell(f"the bank at {address[0]}:{address[1]} hasn't been there for {now - start:.0f} s: {fault}")
            time.sleep(RETRY_SECONDS)


class Session:
    """A session, for a `with`. What breaks it off is a BankAway."""

    def __init__(self, address: tuple[str, int], tell: Callable[[str], None]):
        self.tell = tell
        self.connection = begin(address, tell)

    def __enter__(self) -> "Session":
        return self

    def __exit__(self, *_fault: object) -> None:
        self.connection.close()

    def ask(self, value: bytes, asks: int) -> bytes:
        """Asks what a value says, which is so many Asks: their outcomes."""
        try:
            self.send(value + wire.FLUSH)
            outcomes = self.receive(asks * wire.client.OUTCOME.size)
            wire.check_outcomes(outcomes, value)
            return outcomes
        except (OSError, ValueError) as fault:
            raise BankAway(str(fault)) from None

    # A bank that serves somebody else first neither reads nor speaks until then, so silence is said and is no fault.

    def send(self, value: bytes) -> None:
        left = memoryview(value)
        while left:
            try:
                left = left[self.connection.send(left) :]
            except TimeoutError:
                self.tell(f"the bank has read nothing for {SILENCE_SECONDS:.0f} s: it may serve somebody else")

    def receive(self, size: int) -> bytes:
        read = bytearray()
        while len(read) < size:
            try:
                piece = self.connection.recv(size - len(read))
            except TimeoutError:
                self.tell(f"the bank has said nothing for {SILENCE_SECONDS:.0f} s: it may serve somebody else")
                continue
            if not piece:
                raise OSError("the bank hung up")
            read += piece
        return bytes(read)

    def look(self) -> None:
        """A BankAway where the bank hung up while nothing was asked."""
        if select.select([self.connection], [], [], 0)[0]:
            raise BankAway("the bank hung up, or spoke out of turn")

    def end(self) -> None:
        """Ends the session, and waits until the bank has ended it too."""
        try:
            self.connection.settimeout(None)
            self.connection.shutdown(socket.SHUT_WR)
            if self.connection.recv(1):
                raise OSError("the bank spoke out of turn")
        except OSError as fault:
            raise BankAway(str(fault)) from None
