"""Clients that ask at once, some of them twice, for a trial."""
import random

from fleet import Fleet, Process

CUSTOMERS = 100
CLIENTS = range(1, 8)
CHANGED = 100  # requests that are asked once more, as other calls
KINDS = ["balance {0}", "deposit {0} {2}", "savings {0} {3}", "check {0} {2}", "amalgamate {0} {1}"]


def opening() -> bytes:
    return b"".join(b"customer_%d 1000.00 %d.50\n" % (place, place) for place in range(CUSTOMERS)) + b"begin\n"


def calls(count: int, numbers: random.Random) -> bytes:
    """So many call lines, of customers that are there but for one."""
    names = [f"customer_{place}" for place in range(CUSTOMERS)] + ["nobody"]
    lines = []
    for kind in numbers.choices(KINDS, weights=[3, 3, 3, 3, 1], k=count):
        amounts = f"{numbers.randrange(200)}.{numbers.randrange(100):02}", f"{numbers.randint(-200, 200)}.00"
        lines.append(kind.format(*numbers.choices(names, k=2), *amounts))
    return "".join(line + "\n" for line in lines).encode()


class Load:
    """Seven clients with their lines. The first one's are submitted by two processes at once in the same batches, which
    are in the log once; the second one's once more in other batches, which are repeats in the log; and some of the third
    one's numbers also with other calls, of which just one each is carried out."""

    def __init__(self, asks: int, flush: int, seed: int):
        numbers = random.Random(seed)
        self.count, self.flush, self.other_flush = asks // (len(CLIENTS) + 1), flush, flush + flush // 3 + 1
        lines = {client: calls(self.count, numbers) for client in CLIENTS}
        # By a submitter's name: the client, its lines, and how many of them a batch has.
        self.jobs = {f"client{client}": (client, lines[client], flush) for client in CLIENTS}
        self.jobs["client1-again"] = 1, lines[1], flush
        self.jobs["client2-again"] = 2, lines[2], self.other_flush
        self.jobs["client3-changed"] = 3, calls(CHANGED, numbers), flush

    def batches_each(self) -> int:
        """How many batches a client has."""
        return -(-self.count // self.flush)

    def batches(self) -> int:
        """How many batches are in the log at the end."""
        return len(CLIENTS) * self.batches_each() + -(-self.count // self.other_flush) + -(-CHANGED // self.flush)

    def asks(self) -> int:
        """How many asks they have."""
        return (len(CLIENTS) + 1) * self.count + CHANGED

    def start(self, fleet: Fleet, pause: float) -> list[Process]:
        """Starts the submitters, which pause for about so long after a batch."""
        submitters = [self.submitter(fleet, name, pause) for name in self.jobs]
        for submitter in submitters:
            submitter.start()
        return submitters

    def submitter(self, fleet: Fleet, name: str, pause: float) -> Process:
        client, lines, flush = self.jobs[name]
        words = ["--client", f"{client}", "--flush", f"{flush}", "--pause", f"{pause}", "--wait"]
        return fleet.process(name, "submit.py", "submit", client, *words, given=lines)

    def given(self, name: str) -> tuple[int, bytes]:
        """The client and the lines of a submitter."""
        return self.jobs[name][:2]
