"""Stores that many clients ask at once, which are all one process: the driver of `bench/compare/load`. It speaks each store's
protocol, checks all answers, and measures from sending a batch to having its last answer. `stores --clients` prints it."""
import contextlib
import csv
import statistics
import subprocess
import sys
from typing import NamedTuple

from plain_programs import PROGRAMS

DRIVER = PROGRAMS / "load_driver"
# How many clients a served bank takes at once, and how many ask it.
MOST = 256
CLIENTS, FLUSHES = (1, 8, 64, 256), (1, 16)
# Threads of the driver, and seconds before the clock starts and while it runs.
THREADS, WARM_UP = 2, 0.3
# Seconds that a client waits for a byte: many transactions may wait for one another's rows.
PATIENCE = 60
# How many asks a run has at most: a log has room for 1,000,000.
ASKS = 900_000


class Measure(NamedTuple):
    """Asks a second, and microseconds from a flush to all its outcomes."""

    rate: float
    half: float
    most: float


def measure(store, clients, flush, customers, seconds):
    """Has so many clients ask a store that nobody has asked yet."""
    numbers = {"port": store.port, "clients": clients, "flush": flush, "customers": customers, "seconds": seconds,
               "warm-up": WARM_UP, "asks": ASKS, "threads": THREADS, "patience": PATIENCE}
    words = [word for name, number in numbers.items() for word in (f"--{name}", f"{number}")]
    ran = subprocess.run([DRIVER, *words, "--csv", *store.PROTOCOL], capture_output=True, text=True)
    if ran.returncode != 0:
        sys.exit(f"stores: {store.NAME}, {clients} clients: {ran.stderr.strip()}")
    [row] = csv.DictReader(ran.stdout.splitlines())
    for reply in ("no_customer", "mismatch", "log_full"):
        if row[reply] != "0":
            sys.exit(f"stores: {store.NAME}, {clients} clients: {row[reply]} replies `{reply}`")
    return Measure(float(row["asks_a_second"]), float(row["p50_us"]), float(row["p99_us"]))


def rows(makers, customers, rounds, seconds):
    """For each flush and number of clients the measures of each store, in turn; a maker gets the number of clients."""
    for flush in FLUSHES:
        for clients in CLIENTS:
            measures = {}
            for _ in range(rounds):
                for make in makers:
                    with contextlib.closing(make(clients)) as store:
                        measured = measure(store, clients, flush, customers, seconds)
                    measures.setdefault(store.NAME, []).append(measured)
            yield flush, clients, measures


def table(makers, customers, rounds, seconds):
    """Prints how many asks a second each store takes, and how long they wait."""
    waits = []
    for row, (flush, clients, measures) in enumerate(rows(makers, customers, rounds, seconds)):
        if row == 0:
            head = f"| asks to a flush | clients | {' | '.join(measures)} |\n" + "|---" * (len(measures) + 2) + "|"
            print(head)
        start = f"| {flush} | {clients} | "
        print(start + " | ".join(rate(each) for each in measures.values()), "|", flush=True)
        waits.append(start + " | ".join(wait(each) for each in measures.values()) + " |")
    print("\nMicroseconds from a flush to all its outcomes, of 100 the 50th and the 99th, medians:\n", head, *waits, "", sep="\n")


def rate(measures):
    """The median and the range."""
    rates = [each.rate for each in measures]
    return f"{statistics.median(rates):,.0f} ({min(rates):,.0f} to {max(rates):,.0f})"


def wait(measures):
    return ", ".join(f"{statistics.median(each):,.0f}" for each in ([it.half for it in measures], [it.most for it in measures]))
