"""What has to hold of a round: nothing lost, nothing executed twice, the same bytes everywhere."""
import hashlib
import pathlib
import sys
from typing import TYPE_CHECKING

sys.path.insert(0, str(pathlib.Path(__file__).resolve().parents[1]))
import bank_model  # noqa: E402
import checks  # noqa: E402
import log  # noqa: E402
import log_file  # noqa: E402
import pieces  # noqa: E402
import wire  # noqa: E402
from checks import Wrong, expect  # noqa: E402
from machine import Place  # noqa: E402

if TYPE_CHECKING:
    from trial import Trial


class Judge:
    """A model of the bank, which executes each request once, through all logs of a round."""

    def __init__(self, trial: "Trial"):
        self.trial, self.machines = trial, trial.machines.all
        self.bank = bank_model.Bank(trial.opening)
        self.asks: list[wire.Ask] = []
        self.batches = 0

    def take(self, book: log.Log, end: int) -> None:
        """Compares what all banks made of a log, up to a mark or its end, with a model and with a run of it."""
        opening = pieces.get(book, "opening")
        rows = self.bank.state().rpartition(b"total ")[0] + b"begin\n"
        expect(opening == rows, f"{book.prefix} opens where the log before it ended, each request executed once")
        batches = [entry for entry in book.read()[0] if not entry.is_mark and entry.key != book.closing]
        asks = [ask for entry in batches for ask in wire.read_batch(entry.value)]
        new = first_of_each(asks)
        for ask in new:
            is_new = (ask.client, ask.request) not in self.bank.entries
            expect(is_new, f"{ask} isn't executed once more in {book.prefix}")
            self.bank.take(ask)
        expected = b"".join(map(self.bank.outcome, asks))
        places = [place for machine in self.machines if not is_left_out(place := machine.place(book.prefix))]
        expect(2 * len(places) > len(self.machines), f"a majority has gone through {book.prefix}")
        outcomes = checks.same([place.outcomes for place in places], "outcomes")
        expect(outcomes == expected, "the outcomes are a model's")
        checkpoint = checks.same([place.checkpoint for place in places], "checkpoints")
        played = checks.run(self.trial.machines.settings.program, opening, asks)
        checks.check_by_run(asks, outcomes, checkpoint, opening, played)
        expect("".join(row + "\n" for row in played.rows).encode() == self.bank.state(), "a run's rows are a model's")
        # Nothing is compared at the end of a log that nobody asked.
        digests = list(book.below(f"{book.prefix}/digest/{end}/").values())
        right = hashlib.sha256(checkpoint).hexdigest().encode()
        expect(digests == (len(places) if asks else 0) * [right], "all digests are that of the checkpoint")
        for place in places if self.trial.machines.settings.keeps_log else ():
            kept = log_file.read((place.own / "log").read_bytes())
            expect(kept.is_torn and not kept.rest and kept.opening == opening, f"{place.own}/log is whole")
            expect(kept.asks == new, f"{place.own}/log has each request once, in order")
        self.asks += asks
        self.batches += len(batches)

    def judge_told(self) -> None:
        """What clients were told stands, and they were told all that they asked."""
        there = set(self.asks)
        for ask, outcome in self.trial.told.outcomes.items():
            stands = self.bank.outcome(ask)
            if stands is None:
                raise Wrong(f"client {ask.client}, request {ask.request} was told `{outcome}`, and isn't in the log")
            told = f"client {ask.client}, request {ask.request} was told `{outcome}`"
            expect([outcome] == wire.spell_outcomes(stands), f"{told} as the log has it")
        expect(there <= set(self.trial.told.outcomes), "the logs have what was asked, and nothing else")


def is_left_out(place: Place) -> bool:
    """Whether a machine has left a log out that was over before it had anything of it."""
    return place.next() is not None and not place.outcomes.exists()


def first_of_each(asks: list[wire.Ask]) -> list[wire.Ask]:
    firsts: dict[tuple[int, int], wire.Ask] = {}
    for ask in asks:
        firsts.setdefault((ask.client, ask.request), ask)
    return list(firsts.values())


def judge(trial: "Trial", mark: int) -> str:
    """Judges all logs of a round, the last one up to a mark: what it had."""
    judge = Judge(trial)
    books = trial.machines.books()
    for book, after in zip(books, [*books[1:], None]):
        end = mark if after is None else book.append(book.closing, b"")[0]
        judge.take(book, end)
    judge.judge_told()
    told = len(trial.told.outcomes)
    logs = f"{len(books)} logs, " if len(books) > 1 else ""
    return (f"{logs}{judge.batches} batches, {len(judge.asks)} asks, {len(judge.bank.entries)} requests, {told} told, "
            f"the last after {trial.told.longest:.1f} s at most")
