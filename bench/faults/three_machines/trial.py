"""A round: three machines with clients that ask, some faults, and what holds when all is mended."""
import argparse
import contextlib
import pathlib
import random
import secrets
import time
from collections.abc import Callable

import asking
import fleet
import judge
import load
from kinds import KINDS, Kind
from machines import GATEWAY_PORT, Machine, Machines, Settings, addresses
from network import Host

ASKS = 200  # of a client
ASK_SECONDS = 4  # for which clients ask where nothing is at fault, as they pause between batches
LONGEST = 90  # seconds that clients, and what they were told, may take


class Trial:
    """What the faults of a round strike, and the random numbers that it goes by."""

    def __init__(self, options: argparse.Namespace, number: int, hosts: list[Host], folder: pathlib.Path):
        self.numbers = random.Random(f"{options.seed} {number}")
        self.kinds = choose(self.numbers, number, options.kind)
        keeps_log = any(kind.keeps_log for kind in self.kinds) or self.numbers.random() < 0.5
        etcd = [word for kind in self.kinds for word in kind.etcd]
        self.folder, self.opening = folder, load.opening()
        self.machines = Machines(folder, hosts, Settings(options.bank, self.opening, keeps_log, etcd))
        self.unpicked = self.machines.all[:]
        self.told = asking.Told()
        self.submitters: list[asking.Submitter] = []
        self.clients: list[asking.Caller | asking.Submitter] = []
        self.awaited: dict[str, Callable[[], bool]] = {}  # what has to come when all is mended

    def pick(self) -> Machine:
        """A machine at which nothing else was picked in this round, as long as there is one."""
        machine = self.numbers.choice(self.unpicked or self.machines.all)
        if machine in self.unpicked:
            self.unpicked.remove(machine)
        return machine

    def run(self) -> str:
        """The whole round: what was found to hold."""
        with self.machines:
            self.machines.start()
            self.begin()
            with contextlib.ExitStack() as struck:
                for kind in self.kinds:
                    time.sleep(self.numbers.uniform(0.2, 1))
                    struck.enter_context(kind.strike(self))
                time.sleep(self.numbers.uniform(0.3, 3))
            self.finish()
            mark = self.mark()
            return judge.judge(self, mark)

    def begin(self) -> None:
        """Has clients ask. The first one's lines are asked by two at once, in different batches; and some numbers of the
        third one with other calls. Submitters take no part in a roll-over: they don't know what it carries over."""
        lines = [load.calls(ASKS, self.numbers).splitlines() for _ in range(6)]
        self.caller("client1", 1, lines[0])
        self.caller("client1-again", 1, lines[0])
        self.caller("client2", 2, lines[1])
        self.caller("client3", 3, lines[2])
        self.caller("client3-changed", 3, lines[3][: ASKS // 4])
        if not any(kind.rolls for kind in self.kinds):
            self.submitters = [self.submitter(client, lines[client]) for client in (4, 5)]
        self.clients += self.submitters
        for client in self.clients:
            client.start()

    def caller(self, name: str, client: int, lines: list[bytes]) -> None:
        gateways = [(host.address, GATEWAY_PORT) for host in self.machines.hosts]
        self.numbers.shuffle(gateways)
        flush = self.numbers.randint(2, 20)
        pause = ASK_SECONDS / (len(lines) / flush)
        numbers, asked = random.Random(self.numbers.random()), asking.frames(client, lines)
        self.clients.append(asking.Caller(name, asked, flush, pause, gateways, numbers, self.told))

    def submitter(self, client: int, lines: list[bytes]) -> asking.Submitter:
        members = addresses(self.machines.hosts, self.numbers.choice(self.machines.hosts))
        flush = self.numbers.randint(5, 40)
        words = ["--members", members, "--flush", f"{flush}", "--pause", f"{ASK_SECONDS / (ASKS / flush):.3f}"]
        return asking.submitter(client, lines, words, self.folder, self.told)

    def finish(self) -> None:
        """Waits until all clients were told all, and what else has to come has come."""
        for what, holds in self.awaited.items():
            fleet.wait_for(what, LONGEST, holds)

        def is_done() -> bool:
            self.machines.watch()
            return not any(client.is_alive() for client in self.clients)

        fleet.wait_for("what clients are told", LONGEST, is_done)
        if self.told.faults:
            raise judge.Wrong("; ".join(self.told.faults))

    def mark(self) -> int:
        """A mark in the last log, at which all banks were saved and compared."""
        book = self.machines.books()[-1]
        revision, _ = book.append(f"{book.first}mark/{secrets.token_hex(8)}", b"")

        def is_compared() -> bool:
            self.machines.watch()
            return len(book.below(f"{book.prefix}/digest/{revision}/")) == len(self.machines.all)

        fleet.wait_for("the digests of all banks", LONGEST, is_compared)
        return revision


def choose(numbers: random.Random, number: int, wanted: str | None) -> list[Kind]:
    """One kind in turn, and up to two others beside it, in any order, but that one that waits strikes first."""
    turns = sorted(KINDS, key=lambda kind: not kind.is_first)
    first = turns[(number - 1) % len(turns)] if wanted is None else next(kind for kind in KINDS if wanted in kind.name)
    others = [kind for kind in KINDS if kind is not first and not kind.is_large]
    kinds = [first]
    for kind in numbers.sample(others, numbers.choice([0, 1, 1, 2])):
        if not (kind.stays and any(each.rolls for each in kinds) or kind.rolls and any(each.stays for each in kinds)):
            kinds.append(kind)
    numbers.shuffle(kinds)
    return sorted(kinds, key=lambda kind: (not kind.waits, kind.is_large))
