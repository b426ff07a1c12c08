"""Logs that roll over while clients ask, and things are killed."""
import time
from collections.abc import Iterator
from typing import TYPE_CHECKING

import fleet
import log
from kinds import kind
from machines import PREFIX, Machine

if TYPE_CHECKING:
    from trial import Trial

SOME = 5
SECONDS = 60  # for which a roll-over lasts at most, with all that is killed


def roller(trial: "Trial", prefix: str) -> fleet.Process:
    """A roll-over that has begun, at any machine."""
    machine: Machine = trial.numbers.choice(trial.machines.all)
    name = f"roll{len(trial.machines.others)}"
    roll = machine.script(name, "roll.py", "--prefix", prefix, "--folder", machine.folder)
    trial.machines.others.append(roll)
    roll.start()
    return roll


def kill_some(trial: "Trial", rolls: list[fleet.Process]) -> None:
    """Kills some of all that takes part, one after the other, and starts it again."""
    machines, numbers = trial.machines.all, trial.numbers
    everything = [process for machine in machines for process in machine.processes]
    for _ in range(numbers.randint(1, 4)):
        time.sleep(numbers.uniform(0, 0.4))
        victim = numbers.choice(rolls if numbers.random() < 0.3 else everything)
        victim.kill()
        time.sleep(numbers.uniform(0, 0.5))
        victim.start()


def one_is_done(rolls: list[fleet.Process]) -> bool:
    """Whether one of them has ended well. At a machine that has left the log out another one may wait for ever."""
    return any(roll.status() == 0 for roll in rolls)


@kind("a roll-over", rolls=True)
def rolled_over(trial: "Trial") -> Iterator[None]:
    roll = roller(trial, PREFIX)
    trial.awaited["a roll-over"] = lambda: roll.status() == 0
    yield


@kind("two roll-overs at once, with kills, and two more", rolls=True, is_large=True, is_first=True, waits=True)
def rolled_over_with_kills(trial: "Trial") -> Iterator[None]:
    rolls = [roller(trial, PREFIX), roller(trial, PREFIX)]
    kill_some(trial, rolls)
    fleet.wait_for("one of two roll-overs", SECONDS, lambda: one_is_done(rolls))
    book = log.Log(trial.machines.etcd(), f"{PREFIX}-2")
    fleet.wait_for("some batches of the next log", SECONDS, lambda: book.count() >= SOME)
    after = [roller(trial, f"{PREFIX}-2"), roller(trial, f"{PREFIX}-2")]
    kill_some(trial, after)
    trial.awaited["one of two more roll-overs"] = lambda: one_is_done(after)
    yield
