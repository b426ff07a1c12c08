"""What `.ci/disk` does with the built program: it runs it on a disk that loses what wasn't synced, cuts the power behind each call
of the disk, and compares what is left with what was printed and told until then."""
import contextlib
import functools
import hashlib
import os
import pathlib
import random
import re
import socket
import subprocess
import sys
import tempfile
from typing import NamedTuple

from operating import TOP, connect, converse, port_of, printed_to_the_end, run, watched

sys.path.insert(0, str(TOP / "bench/faults"))
import bank_model  # noqa: E402
import log_file  # noqa: E402
import lossy_disk  # noqa: E402
import wire  # noqa: E402

OPENING = b"alice 100.00 50.00\nbob 0.00 20.00\ncarol 10.00 0.00\nbegin\n"
ASKS = [wire.encode_ask(7, place, line) for place, line in
        enumerate([b"balance alice", b"deposit bob 5.00", b"pay alice carol 12.50", b"check bob 90.00", b"savings carol -1.00"], 1)]
FLUSH = wire.FLUSH
OUTCOME = wire.client.OUTCOME.size
BY_KEY = {ask[3:11]: wire.read_frames(ask)[0] for ask in ASKS}
EMPTY = log_file.spell(OPENING, [])
TWO = log_file.spell(OPENING, ASKS[:2])
REST = b"\xff" * 20 + b"what follows a log that is damaged"
# One client at a time, and several at once.
WAYS = ([], ["--clients=2"])
# How often a power cut is tried behind a call that leaves some of what waits, beside one that leaves nothing and one that
# leaves all.
AT_RANDOM = 4

lossy_disk.build()


# ---- runs


class Played(NamedTuple):
    """What a server printed, and wrote to standard error; its status; the outcomes that came; and its calls."""

    printed: bytes
    said: bytes
    status: int
    told: list
    calls: list

    @property
    def order(self):
        return lossy_disk.order(self.calls)


@contextlib.contextmanager
def disk_of(log=None):
    """A disk with this log, or without one."""
    with tempfile.TemporaryDirectory() as name:
        root = pathlib.Path(name) / "root"
        (root / "bank").mkdir(parents=True)
        (root / "store").mkdir()
        if log is not None:
            (root / "bank/log").write_bytes(log)
        yield lossy_disk.Disk(root, root.parent / "account")


def log_of(disk):
    return (disk.root / "bank/log").read_bytes()


def play(disk, given, talk, *words, **modes):
    """Serves one session on the log, whose client does this."""
    return serve_once(disk, ["--log", f"{disk.root}/bank", *words], given, talk, modes)


def serve_once(disk, words, given, talk, modes):
    pipe, before = subprocess.PIPE, len(disk.calls())
    words = ["serve", "--port=0", "--quiet", "--sessions=1", *words]
    environment = os.environ | disk.settings(**modes)
    with watched(words, stdin=pipe, stdout=pipe, stderr=pipe, env=environment) as process:
        with contextlib.suppress(BrokenPipeError):
            process.stdin.write(given)
            process.stdin.close()
        process.stdin = None
        printed, line = b"", process.stdout.readline()
        while line and not line.startswith(b"listening"):
            printed, line = printed + line, process.stdout.readline()
        told = talk(port_of(line)) if line else []
        more, status = printed_to_the_end(process)
        said = process.stderr.read()
    return Played(printed + more, said, status, told, disk.calls()[before:])


def one_by_one(asks):
    """A client who sends a Flush behind each ask, and hears its outcome. What it was told."""
    def talk(port):
        told = []
        with connect(port) as client, contextlib.suppress(ConnectionError):
            for ask in asks:
                client.sendall(ask + FLUSH)
                outcome = client.recv(OUTCOME)
                if not outcome:
                    return told
                told.append(outcome)
            client.shutdown(socket.SHUT_WR)
            assert client.recv(1) == b"", "more was told than asked"
        return told
    return talk


def at_once(asks):
    """A client who sends all of these, and hears what comes."""
    def talk(port):
        told = converse(port, b"".join(asks))
        return [told[at : at + OUTCOME] for at in range(0, len(told), OUTCOME)]
    return talk


def cut(disk, **modes):
    """Runs `log --cut`. How it ended, and its calls."""
    before = len(disk.calls())
    ended = run(["log", f"{disk.root}/bank", "--cut"], env=os.environ | disk.settings(**modes))
    return ended, disk.calls()[before:]


def expect_order(order, *expected):
    wanted = [it.strip().replace("LOG", "bank/log") for part in expected for it in part.split(";") if it.strip()]
    first = next((at for at, (a, b) in enumerate(zip(order, wanted)) if a != b), min(len(order), len(wanted)))
    assert order == wanted, f"call {first} is {order[first:first + 1]}, not {wanted[first:first + 1]}: {order}"


# ---- what is left after a power cut


def lines_of(log):
    """What a bank prints of the first asks of a log: none of them, one, two, .."""
    digest, lines = hashlib.sha256(log_file.MAGIC + log.opening), []
    rest = b"".join(log.batches)
    while True:
        lines.append(b"log %d %b" % (len(lines), digest.hexdigest().encode()))
        if not rest:
            return lines
        size = 2 + int.from_bytes(rest[:2], "big")
        digest.update(rest[:size])
        rest = rest[size:]


class Left(NamedTuple):
    """What a log that is left says: itself, what a bank prints of its first asks, and the outcome of each ask by its key."""

    log: log_file.Log
    lines: list
    outcomes: dict


@functools.lru_cache(maxsize=10_000)
def read_back(data):
    log = log_file.read(data)
    bank = bank_model.Bank(OPENING)
    for ask in log.asks:
        bank.take(ask)
    outcomes = {key: bank.outcome(ask) for key, ask in BY_KEY.items()}
    return Left(log, lines_of(log) if log.opening else [], outcomes)


class Told:
    """What was printed and told until now."""

    def __init__(self):
        self.is_begun, self.line, self.outcomes = False, None, b""

    def hear(self, call):
        if call.kind == "P":
            found = re.findall(rb"^log \d+ [0-9a-f]{64}$", call.data, re.MULTILINE)
            self.is_begun, self.line = True, found[-1] if found else self.line
        elif call.kind == "T":
            self.outcomes += call.data

    def check(self, left):
        """What is left has all of it."""
        log, lines, outcomes = read_back(left.get("bank/log", b""))
        assert log.is_torn, f"damage at byte {log.size}"
        assert not self.is_begun or log.opening == OPENING, f"the opening is {log.opening}"
        assert self.line is None or self.line in lines, f"{self.line} was printed, and {log.line} is left"
        for at in range(0, len(self.outcomes), OUTCOME):
            outcome = self.outcomes[at : at + OUTCOME]
            assert outcomes[outcome[3:11]] == outcome, f"{outcome.hex()} was told, and {log.line} is left"


def ways_to_land(count=AT_RANDOM):
    return [lossy_disk.least, lossy_disk.most, *(lossy_disk.at_random(random.Random(seed)) for seed in range(count))]


def all_left(disk, failing=lossy_disk.least):
    """What a power cut leaves behind each call, with the number of the call. Of a sync that failed so much had landed."""
    state = lossy_disk.State(disk.begins)
    for number, call in enumerate(disk.calls(), 1):
        state.take(call, failing)
        for left in {tuple(sorted(state.left(choose).items())) for choose in ways_to_land()}:
            yield number, call, dict(left)


def expect_kept(disk):
    """Whatever call the power is cut behind, all that was printed and told until then is left."""
    calls = disk.calls()
    for failing in (lossy_disk.least, lossy_disk.most)[: 1 + any(call.error for call in calls)]:
        told, heard = Told(), 0
        for number, call, left in all_left(disk, failing):
            if number > heard:
                told.hear(call)
                heard = number
            try:
                told.check(left)
            except AssertionError as fault:
                done = lossy_disk.order(calls[:number])[-3:]
                raise AssertionError(f"power cut behind call {number}, {done}: {fault}") from None


def expect_moved(disk, log, rest):
    """Whatever call the power is cut behind, the records stand, and what followed them is in one of the files. Once the line
    is printed the log is as printed."""
    line, printed = log_file.read(log).line, 0
    for number, call, left in all_left(disk):
        printed = printed or (number if call.kind == "P" and call.data == line else 0)
        found, moved = left["bank/log"], left.get("bank/log.rest", b"")
        is_whole = found == log + rest or found == log and moved == rest
        assert is_whole, f"power cut behind call {number}: {len(found)} bytes are left, and {len(moved)} are moved"
        assert not printed or found == log, f"power cut behind call {number}: {len(found)} bytes are left of {len(log)}"
    assert printed, "no line was printed"
