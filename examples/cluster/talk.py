"""A client's conversation with the gateway: its frames, and the outcomes that it waits for."""
import asyncio
from collections import deque
from collections.abc import Callable

import wire

READ = 1 << 16
MOST_UNANSWERED = 10_000  # asks of a client; after that it isn't read from for a while
MOST_UNFLUSHED = 100_000  # asks of a client without a Flush; after that its conversation ends


class Fault(Exception):
    """A client sends what it may not."""


class Piece:
    """Asks of a client that stand together, and the outcomes that are known of them."""

    __slots__ = ("talk", "frames", "keys", "outcomes", "open")

    def __init__(self, talk: "Talk", frames: list[bytes]):
        self.talk, self.frames = talk, frames
        # A frame is a length, a tag, client and request, and the call: the two numbers are the key.
        self.keys = [frame[3:11] for frame in frames]
        self.outcomes: list[bytes | None] = [None] * len(frames)
        self.open = len(frames)  # how many outcomes aren't known

    def answer(self, place: int, outcome: bytes) -> None:
        self.outcomes[place] = outcome
        self.open -= 1


class Reader:
    """Bytes that come in any pieces, as runs of Asks, with a Flush between two of them."""

    def __init__(self) -> None:
        self.rest = b""

    def take(self, data: bytes) -> tuple[list[list[bytes]], str]:
        """The runs of Ask frames, the last one of which has no Flush behind it yet; and what is at fault behind them."""
        data, runs, place = self.rest + data, [[]], 0
        while len(data) >= place + 2:
            length = int.from_bytes(data[place : place + 2], "big")
            if not 0 < length <= wire.LONGEST_BODY:
                return runs, "no frame"
            if len(data) < (end := place + 2 + length):
                break
            frame = data[place:end]
            if frame == wire.FLUSH:
                runs.append([])
            elif fault := what_is_wrong(frame):
                return runs, fault
            else:
                runs[-1].append(frame)
            place = end
        self.rest = data[place:]
        return runs, ""


def what_is_wrong(frame: bytes) -> str:
    """What a feed would find at fault in this frame: nothing, if it is an Ask that a batch may have."""
    try:
        wire.read_batch(frame)
    except ValueError as fault:
        return str(fault)
    return ""


class Talk:
    """A client that is connected. Its asks go to `hand_on`, piece by piece, and it gets their outcomes at its Flushes."""

    def __init__(self, writer: asyncio.StreamWriter, hand_on: Callable[[Piece], None], flushed: Callable[[], None], most: int):
        self.writer, self.hand_on, self.flushed, self.most = writer, hand_on, flushed, most  # of Asks in a piece
        self.items: deque[Piece | None] = deque()  # in order, None for a Flush
        self.held: list[bytes] = []  # outcomes that wait for a Flush
        self.unanswered = self.unflushed = self.flushes = 0
        self.moved = asyncio.Event()
        self.reader = Reader()

    async def run(self, stream: asyncio.StreamReader) -> None:
        """The conversation, until the client ends it; then until all outcomes are told that a Flush asked for."""
        fault = ""
        while not fault and (data := await stream.read(READ)):
            runs, fault = self.reader.take(data)
            self.take(runs)
            if self.unflushed > MOST_UNFLUSHED:
                fault = f"more than {MOST_UNFLUSHED} asks without a Flush"
            await self.writer.drain()  # a client that doesn't read isn't read from
            await self.until(lambda: self.unanswered <= MOST_UNANSWERED)
        await self.until(lambda: not self.items)
        await self.writer.drain()
        if fault or self.reader.rest:
            raise Fault(fault or "the end within a frame")

    def take(self, runs: list[list[bytes]]) -> None:
        for place, frames in enumerate(runs):
            if place:
                self.items.append(None)
                self.flushes += 1
                self.unflushed = 0
            for start in range(0, len(frames), self.most):
                piece = Piece(self, frames[start : start + self.most])
                self.items.append(piece)
                self.unanswered += len(piece.frames)
                self.unflushed += len(piece.frames)
                self.hand_on(piece)
        if len(runs) > 1:
            self.flushed()
        self.move()

    async def until(self, holds: Callable[[], bool]) -> None:
        while not holds():
            self.moved.clear()
            await self.moved.wait()

    def move(self) -> None:
        """Tells the client the outcomes up to the last Flush that they are all known of."""
        told = b""
        while self.items and not (self.items[0] and self.items[0].open):
            piece = self.items.popleft()
            if piece is None:
                told += b"".join(self.held)
                self.held.clear()
                self.flushes -= 1
            else:
                self.held += piece.outcomes
                self.unanswered -= len(piece.frames)
        if told and not self.writer.is_closing():
            self.writer.write(told)
        self.moved.set()
