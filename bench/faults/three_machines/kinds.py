"""The faults of a round. Each is a function that strikes, yields as long as it lasts, and mends what it broke."""
import contextlib
import os
import signal
import subprocess
import time
from collections.abc import Callable, Iterator
from typing import TYPE_CHECKING, NamedTuple

import fleet
from machines import Machine, addresses

if TYPE_CHECKING:
    from trial import Trial

SECONDS = 20  # none of the waits here takes so long
SMALL_SPACE, ROOM = 90_000, 100_000_000  # bytes that etcd takes at first, and then


class Kind(NamedTuple):
    """A fault by its name, and what it wants of a round."""

    name: str
    strike: Callable[["Trial"], contextlib.AbstractContextManager[None]]
    etcd: tuple[str, ...] = ()  # words for members of etcd
    keeps_log: bool = False  # banks keep a log
    rolls: bool = False  # the log rolls over
    stays: bool = False  # or must not
    is_large: bool = False  # it isn't struck by chance beside another one
    is_first: bool = False  # its turn comes before those of others
    waits: bool = False  # it waits for what can't come while other faults last, and so strikes before these


KINDS: list[Kind] = []


def kind(name: str, *etcd: str, **wants: bool) -> Callable[[Callable[["Trial"], Iterator[None]]], None]:
    def add(strike: Callable[["Trial"], Iterator[None]]) -> None:
        KINDS.append(Kind(name, contextlib.contextmanager(strike), etcd, **wants))

    return add


# ---- the network


def any_member(trial: "Trial") -> Machine:
    """The one that leads, every other time, if one does."""
    chosen, wants_leader = trial.numbers.choice(trial.machines.all), trial.numbers.random() < 0.5
    return wants_leader and trial.machines.leader() or chosen


@kind("a machine cut off")
def machine_cut(trial: "Trial") -> Iterator[None]:
    host = any_member(trial).host
    host.cut()
    yield
    host.mend()


@kind("a member cut off from the others, not from its clients", is_first=True)
def member_cut(trial: "Trial") -> Iterator[None]:
    host = any_member(trial).host
    host.cut_member()
    yield
    host.mend()


@kind("two members that don't reach each other")
def pair_severed(trial: "Trial") -> Iterator[None]:
    one = any_member(trial).host
    other = trial.numbers.choice([host for host in trial.machines.hosts if host is not one])
    one.sever(other)
    yield
    one.mend()
    other.mend()


@kind("all members cut off from each other")
def all_cut(trial: "Trial") -> Iterator[None]:
    for host in trial.machines.hosts:
        host.cut_member()
    yield
    for host in trial.machines.hosts:
        host.mend()


# ---- processes


def revive(process: fleet.Process) -> None:
    """Starts it again, unless another fault that was mended did so."""
    if process.child is None:
        process.start()


@kind("a member killed")
def member_killed(trial: "Trial") -> Iterator[None]:
    member = any_member(trial).member
    member.kill()
    yield
    revive(member)


@kind("a member that hangs")
def member_hangs(trial: "Trial") -> Iterator[None]:
    member = any_member(trial).member
    if member.child:
        member.child.send_signal(signal.SIGSTOP)
    yield
    if member.child:
        member.child.send_signal(signal.SIGCONT)


@kind("a bank killed")
def bank_killed(trial: "Trial") -> Iterator[None]:
    machine = trial.pick()
    machine.bank.kill()
    yield
    revive(machine.bank)


@kind("a feed killed")
def feed_killed(trial: "Trial") -> Iterator[None]:
    machine = trial.pick()
    machine.feed.kill()
    yield
    revive(machine.feed)


@kind("gateways killed in the middle of batches", is_first=True)
def gateways_killed(trial: "Trial") -> Iterator[None]:
    for _ in range(3):
        gateway = trial.numbers.choice(trial.machines.all).gateway
        # While no feed goes on, clients wait for their batches.
        signal_feeds(trial, signal.SIGSTOP)
        time.sleep(trial.numbers.uniform(0.1, 0.3))
        gateway.kill()
        signal_feeds(trial, signal.SIGCONT)
        time.sleep(trial.numbers.uniform(0, 0.5))
        revive(gateway)
    gateway.kill()
    yield
    revive(gateway)


def signal_feeds(trial: "Trial", number: signal.Signals) -> None:
    for machine in trial.machines.all:
        if machine.feed.child:
            machine.feed.child.send_signal(number)


@kind("a gateway that hangs")
def gateway_hangs(trial: "Trial") -> Iterator[None]:
    gateway = trial.numbers.choice(trial.machines.all).gateway
    if gateway.child:
        gateway.child.send_signal(signal.SIGSTOP)
    yield
    if gateway.child:
        gateway.child.send_signal(signal.SIGCONT)


@kind("a machine without power")
def machine_off(trial: "Trial") -> Iterator[None]:
    yield from off([trial.pick()])


@kind("all machines without power")
def all_off(trial: "Trial") -> Iterator[None]:
    yield from off(trial.machines.all)


def off(machines: list[Machine]) -> Iterator[None]:
    processes = [process for machine in machines for process in machine.processes]
    for process in processes:
        process.kill()
    yield
    for process in processes:
        revive(process)


@kind("submitters killed in the middle", stays=True)
def submitters_killed(trial: "Trial") -> Iterator[None]:
    for submitter in trial.submitters:
        submitter.strike()
        time.sleep(trial.numbers.uniform(0, 0.3))
    yield


# ---- etcd's space


@kind("etcd compacted while a feed hangs", waits=True)
def etcd_compacted(trial: "Trial") -> Iterator[None]:
    feed = trial.pick().feed
    feed.child.send_signal(signal.SIGSTOP)
    time.sleep(trial.numbers.uniform(0.3, 1))
    book = trial.machines.books()[0]
    book.etcd.call("/v3/kv/compaction", {"revision": f"{book.look()[1]}"})
    yield
    if feed.child:
        feed.child.send_signal(signal.SIGCONT)

@kind("a full etcd", "--quota-backend-bytes", f"{SMALL_SPACE}", is_large=True, is_first=True, waits=True)
def etcd_full(trial: "Trial") -> Iterator[None]:
    fleet.wait_for("a full etcd", SECONDS, lambda: "NOSPACE" in alarm(trial, "list"))
    yield
    for machine in trial.machines.all:
        words = machine.member.words
        words[words.index("--quota-backend-bytes") + 1] = f"{ROOM}"
        machine.member.kill()
        machine.member.start()
    # A put that was on its way to a member as it was raises the alarm once more.
    fleet.wait_for("room in etcd", SECONDS, lambda: alarm(trial, "disarm") == "" == alarm(trial, "list"))


def alarm(trial: "Trial", what: str) -> str:
    """What etcd's own client says of its alarms, or that they are disarmed; a text too where no member answers."""
    words = ["etcdctl", "--endpoints", addresses(trial.machines.hosts), "alarm", what]
    ended = subprocess.run(words, capture_output=True, text=True, env={**os.environ, "ETCDCTL_API": "3"})
    return ended.stdout if ended.returncode == 0 else "nobody answers"
