"""What a log carries over from the one before it: the last 100,000 requests with their outcomes, for those who ask again.

A request that is asked again in the next log would be executed again there. So whoever puts a batch answers these from here.
The bytes are an Ask frame and its Outcome frame, one request behind the other."""
from collections import OrderedDict

import wire

MOST = 100_000
SIZE = wire.client.OUTCOME.size
REPLIED, MISMATCH = 0, 1
STATUS = 11  # the place of an Outcome's status: behind length, tag, client and request, and before code and total


class Carried:
    """The last requests with their outcomes, by key; the one that was asked last is the last."""

    def __init__(self, read: bytes = b""):
        self.requests: OrderedDict[bytes, tuple[bytes, bytes]] = OrderedDict()
        place = 0
        while place < len(read):
            end = place + 2 + int.from_bytes(read[place : place + 2], "big")
            self.add(read[place:end], read[end : end + SIZE])
            place = end + SIZE

    def __len__(self) -> int:
        return len(self.requests)

    def add(self, ask: bytes, outcome: bytes) -> None:
        """Takes an ask that was executed. One that wasn't, as its log was full or its key another call's, isn't kept."""
        if len(outcome) < SIZE or outcome[STATUS] != REPLIED:
            return
        key = ask[3:11]
        self.requests[key] = ask, outcome
        self.requests.move_to_end(key)
        if len(self.requests) > MOST:
            self.requests.popitem(last=False)

    def add_batch(self, value: bytes, outcomes: bytes) -> None:
        for place, ask in enumerate(wire.frames(value)):
            self.add(ask, outcomes[place * SIZE : (place + 1) * SIZE])

    def outcome(self, ask: bytes) -> bytes | None:
        """The outcome of an ask whose key is here; another call under it is a mismatch."""
        found = self.requests.get(ask[3:11])
        if found is None:
            return None
        if found[0] == ask:
            return found[1]
        return found[1][:STATUS] + bytes([MISMATCH]) + bytes(SIZE - STATUS - 1)

    def spell(self) -> bytes:
        return b"".join(ask + outcome for ask, outcome in self.requests.values())
