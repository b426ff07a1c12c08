#!/usr/bin/env python3
"""Three banks behind a replicated log, killed, started again, and rolled over: `examples/cluster/demo.py`.

It starts three members of etcd, three banks with their feeds and two gateways on this machine, with users and TLS. Seven
clients ask some 20,000 times at once, by submitters, some of it twice, and a crowd asks through the gateways. In the middle
the member that leads, a bank, a feed and a gateway are killed by -9 and started again. Then a fourth bank joins, banks with a
cent too much are found, and while the crowd asks on, the log is closed and the next one begins. At the end outcomes and
checkpoints of both logs have to be the same bytes everywhere, and those of one `smallbank run` of each log read back. It
wants etcd (`apt-get install etcd-server etcd-client`), openssl and Python 3.11, stops what it started and nothing else, and
ends within two minutes."""
import argparse
import json
import pathlib
import random
import shutil
import signal
import subprocess
import sys
import tempfile
import time
from collections.abc import Callable

import checks
import fleet
import load
import log
import options as words_of
from crowd import Crowd, ask_all
from etcd import LogError, NobodyAnswers
from fleet import Broken, Fleet, Gateway, Node, Process
from progress import Progress
from roll import next_prefix

TOP = pathlib.Path(__file__).resolve().parents[2]
SIZE = 3
HAS_LOG = True, False, True  # which banks have a log of their own
MOST_SECONDS, STEP_SECONDS = 110, 60
ASK_SECONDS = 20  # for which clients ask, by pauses between their batches, so that there is a middle to kill something in
DOWN_SECONDS = 1.0  # for which what was killed is away
CROWD, CROWD_PAUSE = range(1001, 1025), 0.2
PAUSE_SECONDS = 5.0  # the longest that a roll-over may take, for a client
AGAIN, AGAIN_OF = 1_000, 50_000  # how many requests of the first log are asked again in the next one, of how many last ones
AFTER_SECONDS = 2.0  # for which the crowd asks on in the next log
SEED = 7
FAULTS = (Broken, checks.Wrong, LogError, log.Closed, NobodyAnswers, OSError, ValueError)


class Demo:
    """A fleet with a load, and what is measured, in seconds but for the asks a second."""

    def __init__(self, machines: Fleet, work: load.Load):
        self.fleet, self.nodes, self.work = machines, machines.nodes, work
        self.book = machines.book()
        self.gateways = [Gateway(f"gateway{place}", machines, place) for place in range(2)]
        self.context = words_of.client_context(machines.certificates.ca, None, None)
        numbers = random.Random(SEED + 1)
        self.crowd = Crowd(CROWD, [gateway.address for gateway in self.gateways], self.context,
                           lambda: load.calls(1, numbers).removesuffix(b"\n"), CROWD_PAUSE)
        self.measures: dict[str, float] = {}
        self.kills: list[tuple[str, list[Node], float, float]] = []  # what, the nodes that lived on, when, and to which end
        self.start = time.monotonic()

    def say(self, what: str) -> None:
        print(f"{time.monotonic() - self.start:6.1f} s  {what}", flush=True)

    def wait(self, what: str, holds: Callable[[], bool]) -> None:
        """Waits for something, as long as nothing ended that should run."""
        def looks() -> bool:
            self.fleet.watch()
            return holds()

        fleet.wait_for(what, STEP_SECONDS, looks)

    def wait_for_all(self) -> None:
        """Waits until all outcomes of the log are at all nodes."""
        size = len(checks.asks_of(self.book)) * checks.SIZE
        self.wait("all outcomes", lambda: all(node.length() >= size for node in self.nodes))

    def batches(self) -> int:
        """How many batches of the submitters are in the log."""
        clients = {f"{client}" for client in load.CLIENTS}
        return sum(name.split("/")[0] in clients for name in self.book.names(self.book.first))

    def mark(self, name: str) -> int:
        return self.book.append(f"{self.book.first}mark/{name}", b"")[0]

    def digests(self, mark: int) -> dict[str, bytes]:
        return self.book.below(f"{self.book.prefix}/digest/{mark}/")

    # ---- the way there

    def begin(self) -> None:
        self.fleet.begin()
        for node in self.nodes:
            node.start()
        for gateway in self.gateways:
            gateway.process.start()
        self.wait("the start of the banks", lambda: all(each.listens() for each in [*self.nodes, *self.gateways]))
        self.say(f"{len(self.fleet.members)} members of etcd, with users and TLS; {len(self.nodes)} banks with a feed beside "
                 f"each, {sum(HAS_LOG)} of them with a log of their own; {len(self.gateways)} gateways")

    def ask(self, calm: bool) -> list[Process]:
        """Has all clients ask, and waits for all outcomes: the submitters, which have ended."""
        with Progress(self.nodes) as progress:
            start = time.monotonic()
            submitters = self.work.start(self.fleet, 0 if calm else ASK_SECONDS / self.work.batches_each())
            self.say(f"{len(load.CLIENTS)} clients ask {self.work.asks()} times, by {len(submitters)} submitters")
            if not calm:
                self.kill_all()
            self.wait("what the submitters do", lambda: all(each.status() == 0 for each in submitters))
            self.wait_for_all()
        if calm:
            self.measures["asks a second, to the last outcome everywhere"] = self.work.asks() / (progress.last() - start)
        for what, nodes, killed, end in self.kills:
            self.measures[f"{what} killed: longest time without an outcome at a node"] = progress.standstill(nodes, killed, end)
        self.say("all is answered, everywhere")
        return submitters

    def reach(self, share: float) -> None:
        """Waits until so much of the log is there, and no more than nearly all of it."""
        self.wait(f"{share:.0%} of the log", lambda: self.batches() >= share * self.work.batches())
        checks.expect(self.batches() < 0.95 * self.work.batches(), f"{share:.0%} of the log is the middle")

    def kill(self, process: Process) -> float:
        """Kills a process by -9 and starts it again after a while: when it was killed."""
        process.kill()
        killed = time.monotonic()
        self.say(f"{process.name} killed")
        time.sleep(DOWN_SECONDS)
        process.start()
        self.say(f"{process.name} started again, with {self.batches()} of {self.work.batches()} batches in the log")
        return killed

    def kill_all(self) -> None:
        """Kills the member that leads, then a bank, a feed and a gateway, each in the midst of what there is to do."""
        self.mark("begin")
        self.reach(0.1)
        start = time.monotonic()
        self.reach(0.2)
        self.kills.append(("nothing", self.nodes, start, time.monotonic()))
        self.reach(0.25)
        killed = self.kill(self.fleet.leader())
        self.reach(0.4)
        self.kills.append(("leader", self.nodes, killed, time.monotonic()))
        for place, share in enumerate((0.45, 0.52)):
            self.kill_beside(share, "bank with a log" if HAS_LOG[place] else "bank", self.nodes[place], self.nodes[place].bank)
        self.kill_beside(0.7, "feed", self.nodes[2], self.nodes[2].feed)
        self.kill_gateway()
        self.mark("middle")

    def kill_beside(self, share: float, what: str, node: Node, process: Process) -> None:
        """Kills a bank or a feed, and waits until its node is as far as the others were when it was started again."""
        self.reach(share)
        killed = self.kill(process)
        started, others = time.monotonic(), [other for other in self.nodes if other is not node]
        far = max(other.length() for other in others)
        self.wait(f"the node whose {what} was killed", lambda: node.length() >= far)
        self.measures[f"{what} killed: from its new start until it's as far as the others"] = time.monotonic() - started
        self.kills.append((f"{what} of another node", others, killed, time.monotonic()))

    def kill_gateway(self) -> None:
        """Kills a gateway. Its clients ask again at the other one."""
        killed = self.kill(self.gateways[0].process)
        self.measures["gateway killed: the longest that a client waited"] = self.crowd.longest(killed, time.monotonic())
        moved = self.crowd.connected(killed, time.monotonic())
        checks.expect(moved >= len(CROWD) // 2, f"clients go to the other gateway: {moved}")
        self.say(f"{moved} clients went to the other gateway, and asked again there")

    def compare(self, name: str) -> int:
        """Has all nodes be saved and compared: the mark where they are."""
        mark = self.mark(name)
        self.wait("the digests", lambda: len(self.digests(mark)) == len(self.nodes))
        checks.expect(len(set(self.digests(mark).values())) == 1, "the feeds told the same digest")
        self.say(f"a mark, at which {len(self.nodes)} banks are saved")
        return mark

    def join(self, name: str) -> None:
        """A bank joins that has nothing."""
        late = Node(name, self.fleet)
        late.prefix = self.book.prefix
        late.bank.start()
        start, far = time.monotonic(), max(node.length() for node in self.nodes)
        late.feed.start()
        self.wait("the replay", lambda: late.length() >= far)
        self.measures[f"another bank, {name}: from its start until it's as far as the others"] = time.monotonic() - start
        self.nodes.append(late)
        self.say(f"another bank, {name}, has joined, and is where the others are")

    def stray(self, name: str, has_log: bool, told: str) -> None:
        """A bank joins whose opening has a cent more. Its feed has to find it: by its log, or at the last mark."""
        program = self.fleet.folder / f"{name}.program"
        # No pipe: the bank takes the shell's place, so that it ends with who started it.
        opening = self.fleet.folder / f"{name}.opening"
        change = f"sed '1s/1000.00/1000.01/' > {opening}"
        program.write_text(f"#!/bin/sh\n{change} && exec {self.fleet.program} \"$@\" < {opening}\n")
        program.chmod(0o755)
        rich = Node(name, self.fleet, has_log=has_log, program=program)
        rich.start()
        fleet.wait_for("a bank that strayed", STEP_SECONDS, lambda: rich.feed.status() is not None)
        said = rich.feed.errors.read_text()
        checks.expect(rich.feed.status() == 3 and told in said, f"a bank with a cent too much is told: {said}")
        rich.feed.kill()
        rich.bank.kill()
        self.say(f"a bank with a cent too much was found, with status 3: {told}")

    # ---- the next log

    def roll(self) -> checks.Checked:
        """Ends the log, and begins the next one, while the crowd asks. The first log is checked."""
        start, first = time.monotonic(), self.book
        self.fleet.run("roll.py", "roll", "--folder", self.nodes[0].folder)
        self.book = self.fleet.book(prefix=next_prefix(first.prefix))
        began = time.monotonic()
        self.wait("the crowd in the next log", lambda: sum(told.asked > began for told in self.crowd.told()) > 2 * len(CROWD))
        longest = self.crowd.longest(start, time.monotonic())
        self.measures["roll-over: the longest that a client waited"] = longest
        checks.expect(longest < PAUSE_SECONDS, f"clients wait less than {PAUSE_SECONDS} s for the next log: {longest:.2f}")
        moved = self.crowd.connected(start, time.monotonic())
        checks.expect(not moved, f"clients keep their connections meanwhile: {moved}")
        self.say(f"the next log has begun; the crowd of {len(CROWD)} kept its connections, and waited {longest:.2f} s at most")
        for node in self.nodes:
            node.prefix = self.book.prefix
        return checks.check_log(first, self.nodes, self.fleet.program)

    def ask_again(self, first: checks.Checked) -> None:
        """What was asked in the first log is asked again, through a gateway; and a submitter comes that knows that log alone."""
        right = dict(list(first.by_frame().items())[-AGAIN_OF:])
        sample = random.Random(SEED).sample(sorted(right), AGAIN)
        told = ask_all(self.gateways[1].address, self.context, sample)
        checks.expect(told == b"".join(right[frame] for frame in sample), "what is asked again has its first outcome")
        again = self.fleet.process("again", "submit.py", "submit", 0, "--client", "1", "--wait", given=b"balance customer_1\n")
        again.start()
        fleet.wait_for("a submitter that comes too late", STEP_SECONDS, lambda: again.status() is not None)
        said = again.errors.read_text()
        checks.expect(again.status() == 1 and f"goes on below the prefix {self.book.prefix}" in said, f"it's told: {said}")
        again.kill()
        self.say(f"{AGAIN} requests of the first log were asked again, and a submitter that came late was told of the next one")


    # ---- what has to hold

    def check_all(self, submitters: list[Process], logs: list[checks.Checked]) -> list[str]:
        """What was found to hold of these logs, each of which was checked by itself."""
        first = logs[0]
        checks.check_pages(self.nodes, logs[-1].requests)
        asked = sum(ask.client in load.CLIENTS for ask in first.asks)
        checks.expect(asked == self.work.asks(), f"each batch of a submitter is in the log once: {asked} asks")
        given = [(each.output, *self.work.given(each.name)) for each in submitters]
        told = checks.check_submitters(given, first.asks, first.outcomes)
        crowd = checks.check_crowd(self.crowd.told(), logs)
        self.fleet.watch()
        return [
            *(each.says() for each in logs),
            f"all banks of a log gave the same outcomes, and have the same node0.ckpt: {len(first.outcomes)} and "
            f"{len(first.checkpoint)} bytes in the first one",
            "both are those of one `smallbank run` of the log read back: each reply by its number, each row, the total",
            f"the {told} outcomes that the submitters printed are those, and so are {crowd} that the gateways' clients were told",
            "the feeds of a log told the same digest at its last mark, and none that its bank strayed",
        ]


def run(options: argparse.Namespace, folder: pathlib.Path) -> Demo:
    """The whole of it, in a folder that is empty."""
    work = load.Load(options.asks, options.flush, SEED)
    with Fleet(folder, options.bank, load.opening(), SIZE, secure=True, logs=HAS_LOG) as machines:
        demo = Demo(machines, work)
        demo.begin()
        held = run_calm(demo) if options.calm else run_all(demo)
        demo.say("checked:")
    print("".join(f"  - {each}\n" for each in held))
    print("".join(f"  {value:10.2f}  {name}\n" for name, value in demo.measures.items()), end="")
    return demo


def run_calm(demo: Demo) -> list[str]:
    """What was found to hold, when nothing is killed."""
    submitters = demo.ask(calm=True)
    demo.compare("end")
    demo.join("late3")
    demo.compare("again")
    return demo.check_all(submitters, [checks.check_log(demo.book, demo.nodes, demo.fleet.program)])


def run_all(demo: Demo) -> list[str]:
    """What was found to hold, when all was done that there is to do."""
    with demo.crowd:
        submitters = demo.ask(calm=False)
        demo.compare("end")
        demo.join("late3")
        demo.stray("rich4", False, "its checkpoint has another digest")
        demo.stray("rich5", True, "it has another opening or other asks")
        first = demo.roll()
        demo.ask_again(first)
        time.sleep(AFTER_SECONDS)
    demo.wait_for_all()
    demo.join("late6")
    demo.compare("end")
    second = checks.check_log(demo.book, demo.nodes, demo.fleet.program)
    checks.check_next(first, second)
    return [*demo.check_all(submitters, [first, second]),
            "the next log's opening is the first one's rows, and no request is in both"]


def give_up(number: int, _frame: object) -> None:
    raise Broken(f"it took longer than {MOST_SECONDS} s" if number == signal.SIGALRM else "it was told to end")


def main() -> None:
    words = argparse.ArgumentParser(description="Three banks behind a replicated log, killed, started again, and rolled over.")
    words.add_argument("--bank", type=pathlib.Path, default=TOP / "smallbank", help="the bank's program (./smallbank)")
    words.add_argument("--asks", type=int, default=20_000, help="about how many asks there are (20000)")
    words.add_argument("--flush", type=int, default=100, help="how many of them a batch has (100)")
    words.add_argument("--calm", action="store_true", help="nothing is killed, and nobody pauses between two batches")
    words.add_argument("--keep", action="store_true", help="keep what all of them wrote, and say where")
    words.add_argument("--measures", type=pathlib.Path, help="a file for what was measured, as JSON")
    options = words.parse_args()
    options.bank = options.bank.resolve()
    if not 4_000 <= options.asks <= 800_000 or not 1 <= options.flush <= 10_000:
        words.error("asks are 4000 to 800000, and 1 to 10000 to a batch")
    for program, package in (("etcd", "etcd-server etcd-client"), ("openssl", "openssl")):
        if not shutil.which(program):
            sys.exit(f"demo: {program} isn't there: apt-get install {package}")
    try:
        # It may have to be built first, which isn't counted.
        subprocess.run([options.bank, "--version"], stdout=subprocess.DEVNULL, check=True)
    except (OSError, subprocess.CalledProcessError) as fault:
        sys.exit(f"demo: there is no bank to run: {fault}")
    folder = pathlib.Path(tempfile.mkdtemp(prefix="cluster-"))
    for number in (signal.SIGALRM, signal.SIGTERM):
        signal.signal(number, give_up)
    signal.alarm(MOST_SECONDS)
    try:
        demo = run(options, folder)
    except (*FAULTS, KeyboardInterrupt) as fault:
        why = "it was interrupted" if isinstance(fault, KeyboardInterrupt) else str(fault) or type(fault).__name__
        sys.exit(f"demo: {why}\ndemo: what was started is stopped; what it wrote is in {folder}")
    if options.measures:
        options.measures.write_text(json.dumps(demo.measures))
    if options.keep:
        print(f"what all of them wrote is in {folder}")
    else:
        shutil.rmtree(folder)


if __name__ == "__main__":
    main()
