"""What the gateway gathers of its clients' asks, until it is put as one batch."""
import asyncio
from collections import deque

from talk import Piece, Talk

GATHER_SECONDS = 0.02
MOST_ASKS = 1_000


class Gather:
    """Pieces that wait. A batch is due when the first of them has waited long enough, when there are enough, or when each
    client that is connected waits for outcomes: then nobody is left whose asks could come."""

    def __init__(self) -> None:
        self.talks: set[Talk] = set()
        self.waiting: deque[Piece] = deque()
        self.count = 0
        self.due = asyncio.Event()
        self.timer: asyncio.TimerHandle | None = None

    def add(self, piece: Piece) -> None:
        self.waiting.append(piece)
        self.count += len(piece.frames)
        if self.timer is None:
            self.timer = asyncio.get_running_loop().call_later(GATHER_SECONDS, self.due.set)
        if self.count >= MOST_ASKS:
            self.due.set()

    def look(self) -> None:
        """To be called when a client has flushed, or is gone."""
        if self.waiting and all(talk.flushes for talk in self.talks):
            self.due.set()

    async def take(self) -> list[Piece]:
        """The pieces of the next batch, once it is due."""
        await self.due.wait()
        self.due.clear()
        if self.timer:
            self.timer.cancel()
        taken, count, self.timer = [], 0, None
        while self.waiting and count + len(self.waiting[0].frames) <= MOST_ASKS:
            taken.append(self.waiting.popleft())
            count += len(taken[-1].frames)
        self.count -= count
        if self.waiting:
            # They waited already.
            self.due.set()
        return taken
