"""What has to hold at the end: the same bytes at all banks, those of one `smallbank run` of the log read back."""
import json
import pathlib
import subprocess
import urllib.request
from typing import NamedTuple

import log
import pieces
import wire
from crowd import Told
from fleet import Node
from wire import client


class Wrong(Exception):
    """Something that has to hold doesn't."""


class Played(NamedTuple):
    """What a run of the log prints: a line for each ask, and the rows."""

    answers: list[str]
    rows: list[str]


class Checked(NamedTuple):
    """A log that was found to be as it should, and what it is."""

    book: log.Log
    asks: list[wire.Ask]
    outcomes: bytes
    checkpoint: bytes
    played: Played

    def by_frame(self) -> dict[bytes, bytes]:
        """The outcome of each ask. The same ask has the same one wherever it is in the log."""
        frames = map(wire.encode, self.asks)
        return {frame: self.outcomes[place * SIZE : (place + 1) * SIZE] for place, frame in enumerate(frames)}

    @property
    def requests(self) -> int:
        return wire.checkpoint_length(self.checkpoint)

    def says(self) -> str:
        mismatches = sum(answer.startswith("mismatch") for answer in self.played.answers)
        return (f"the log {self.book.prefix} has {len(self.asks)} asks: {self.requests} requests, "
                f"{len(self.asks) - self.requests - mismatches} repeats and {mismatches} mismatches")


SIZE = client.OUTCOME.size


def asks_of(book: log.Log) -> list[wire.Ask]:
    """All Asks of a log whose batches are good ones."""
    return [ask for entry in book.read()[0] if entry.key != book.closing for ask in wire.read_batch(entry.value)]


def run(program: pathlib.Path, opening: bytes, asks: list[wire.Ask]) -> Played:
    """Runs the log as text, without a server, a socket or etcd."""
    ended = subprocess.run([program, "run"], input=opening + b"".join(map(wire.spell_ask, asks)), capture_output=True)
    if ended.returncode != 0:
        raise Wrong(f"a run of the log ended with status {ended.returncode}: {ended.stderr.decode()}")
    printed = ended.stdout.decode().splitlines()
    return Played(printed[: len(asks)], printed[len(asks) :])


def told_by(answer: str) -> str:
    """What a client is told whose ask a run answers by this line: the number in the log isn't told."""
    first, rest = answer.split(" ", 1)
    return rest if first.isdecimal() else "mismatch" if first == "mismatch" else "log full"


def same(files: list[pathlib.Path], what: str) -> bytes:
    """The bytes of these files, which have to be the same."""
    first, *others = [file.read_bytes() for file in files]
    for file, other in zip(files[1:], others):
        if other != first:
            raise Wrong(f"the {what} of {files[0].name} and {file.name} differ")
    return first


def expect(holds: bool, what: str) -> None:
    if not holds:
        raise Wrong(f"this doesn't hold: {what}")


def check_by_run(asks: list[wire.Ask], outcomes: bytes, checkpoint: bytes, opening: bytes, played: Played) -> None:
    """Outcomes and checkpoint against a run of the log: replies one by one, rows, and the replies that are saved."""
    expect([told_by(answer) for answer in played.answers] == wire.spell_outcomes(outcomes), "the outcomes are a run's replies")
    saved = wire.read_checkpoint(checkpoint)
    names = [line.split(" ")[0] for line in opening.decode().splitlines()[:-1]]
    rows = [f"{name} {wire.money(savings)} {wire.money(checking)}"
            for name, savings, checking in zip(names, saved.savings, saved.checking)]
    expect(rows + [f"total {wire.money(saved.total)}"] == played.rows, "the checkpoint's balances are a run's rows")
    numbered = dict(answer.split(" ", 1) for answer in played.answers if answer[0].isdecimal())
    replies = {f"{number}": wire.spell_reply(*reply) for number, reply in enumerate(saved.replies, 1)}
    expect(replies == numbered, "the checkpoint's replies are a run's, by their numbers")


def check_log(book: log.Log, nodes: list[Node], program: pathlib.Path) -> Checked:
    """A log that all these nodes have: the same bytes, and those of a run. No session ends meanwhile."""
    asks, opening = asks_of(book), pieces.get(book, "opening")
    outcomes = same([node.place(book.prefix).outcomes for node in nodes], "outcomes")
    checkpoint = same([node.place(book.prefix).checkpoint for node in nodes], "checkpoints")
    played = run(program, opening, asks)
    check_by_run(asks, outcomes, checkpoint, opening, played)
    return Checked(book, asks, outcomes, checkpoint, played)


def check_next(first: Checked, second: Checked) -> None:
    """The next log begins with the rows of the first one, and has none of its requests."""
    opening = pieces.get(second.book, "opening").decode().splitlines()
    expect(opening == [*first.played.rows[:-1], "begin"], "the next log's opening is the rows of a run of the first one")
    both = {ask[:2] for ask in first.asks} & {ask[:2] for ask in second.asks}
    expect(not both, f"no request of the first log is in the next one: {sorted(both)[:3]}")


def check_pages(nodes: list[Node], requests: int) -> None:
    """The pages of feeds that are at the log's end: nothing is missing, and each has the same digest at the last mark."""
    pages = []
    for node in nodes:
        with urllib.request.urlopen(f"http://127.0.0.1:{node.page}", timeout=10) as page:
            pages.append(json.loads(page.read()))
    expect(all((page["length"], page["lag"]) == (requests, 0) for page in pages), f"the pages say {requests} requests: {pages}")
    expect(len({page["digest"] for page in pages}) == 1 and pages[0]["digest"], f"the pages say one digest: {pages}")


def check_crowd(told: list[Told], logs: list[Checked]) -> int:
    """What a crowd was told: how many outcomes that is, all of them as in the logs."""
    right = {frame: outcome for each in logs for frame, outcome in each.by_frame().items()}
    for each in told:
        expect(right.get(each.ask) == each.outcome, f"a client of a gateway has the log's outcome of {each.ask.hex()}")
    return len(told)


def check_submitters(submitters: list[tuple[pathlib.Path, int, bytes]], asks: list[wire.Ask], outcomes: bytes) -> int:
    """What submitters printed that were given these lines under a client's number: how many outcomes that is, all of them
    as in the log. The same ask has the same outcome wherever it is in the log."""
    spelled = dict(zip(asks, wire.spell_outcomes(outcomes)))
    count = 0
    for output, number, lines in submitters:
        frames = b"".join(wire.encode_ask(number, *each) for each in enumerate(lines.splitlines(), 1))
        expected = [spelled[ask] for ask in wire.read_frames(frames)]
        expect(output.read_text().splitlines() == expected, f"{output.name} has the log's outcomes")
        count += len(expected)
    return count
