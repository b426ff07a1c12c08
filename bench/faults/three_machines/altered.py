"""Banks whose log is altered on the disk while they are down. Those that strayed have to be found."""
import random
import shutil
import subprocess
from collections.abc import Callable, Iterator
from typing import TYPE_CHECKING

import fleet
import judge  # noqa: F401  (puts the folder of log_file on the path)
import log_file
import wire
from checks import expect
from kinds import SECONDS, kind, revive
from machines import Machine

if TYPE_CHECKING:
    from trial import Trial

STRAYED, DAMAGED = 3, 3  # statuses: of a feed, and of a bank and so of its keeper
LEAST = 3  # batches that a log has before it is altered


def of_another_call(log: log_file.Log, numbers: random.Random) -> bytes:
    """One ask has another call."""
    batches = list(log.batches)
    place = numbers.randrange(len(batches))
    asks = wire.read_frames(batches[place])
    changed = numbers.randrange(len(asks))
    asks[changed] = asks[changed]._replace(call=wire.client.call(b"deposit customer_1 0.01"))
    batches[place] = b"".join(map(spell, asks))
    return log_file.spell(log.opening, batches)


def of_an_ask_more(log: log_file.Log, numbers: random.Random) -> bytes:
    """Somebody asked it beside its feed."""
    more = wire.encode_ask(99, numbers.randrange(1000), b"deposit customer_1 0.01")
    return log_file.spell(log.opening, [*log.batches, more])


def of_another_order(log: log_file.Log, _numbers: random.Random) -> bytes:
    """The last batch stands before the one before it."""
    return log_file.spell(log.opening, [*log.batches[:-2], log.batches[-1], log.batches[-2]])


def spell(ask: wire.Ask) -> bytes:
    return wire.client.frame(wire.client.ASK.pack(wire.client.TAG_ASK, ask.client, ask.request) + ask.call)


def down(trial: "Trial") -> tuple[Machine, log_file.Log]:
    """A machine whose bank was killed, and its log, which has some batches."""
    machine = trial.pick()
    path = machine.place().own / "log"

    def read() -> log_file.Log:
        return log_file.read(path.read_bytes() if path.exists() else b"")

    fleet.wait_for("a log of some batches", SECONDS, lambda: len(read().batches) >= LEAST)
    machine.bank.kill()
    return machine, read()


@kind("a bank whose log was altered", keeps_log=True, stays=True, waits=True, is_first=True)
def log_altered(trial: "Trial") -> Iterator[None]:
    machine, log = down(trial)
    alter: Callable[..., bytes] = trial.numbers.choice([of_another_call, of_an_ask_more, of_another_order])
    place = machine.place()
    (place.own / "log").write_bytes(alter(log, trial.numbers))
    machine.bank.start()
    fleet.wait_for(f"a feed that finds a log {alter.__name__}", SECONDS, lambda: machine.feed.status() is not None)
    said = machine.feed.errors.read_text()
    is_told = machine.feed.status() == STRAYED and "the bank strayed" in said
    expect(is_told, f"a log {alter.__name__} is told by status 3: {said}")
    yield
    # Its operator has it begin from nothing.
    machine.bank.kill()
    machine.feed.kill()
    shutil.rmtree(place.own)
    machine.bank.start()
    machine.feed.start()


@kind("a bank whose log lost its end", keeps_log=True, stays=True, waits=True)
def log_cut(trial: "Trial") -> Iterator[None]:
    machine, log = down(trial)
    path = machine.place().own / "log"
    data = path.read_bytes()
    path.write_bytes(data[: trial.numbers.randint(log.ends[0], len(data))])
    yield
    revive(machine.bank)


@kind("a bank whose log is damaged", keeps_log=True, stays=True, waits=True)
def log_damaged(trial: "Trial") -> Iterator[None]:
    machine, log = down(trial)
    path = machine.place().own / "log"
    data = bytearray(path.read_bytes())
    data[trial.numbers.randrange(log.ends[0], log.size)] ^= 1 << trial.numbers.randrange(8)
    path.write_bytes(data)
    machine.bank.start()
    fleet.wait_for("a bank that finds damage", SECONDS, lambda: machine.bank.status() is not None)
    expect(machine.bank.status() == DAMAGED, f"a damaged log is told by status 3, not {machine.bank.status()}")
    yield
    machine.bank.kill()
    cut = [trial.machines.settings.program, "log", path.parent, "--cut"]
    subprocess.run(cut, stdout=subprocess.DEVNULL, check=True)
    machine.bank.start()
