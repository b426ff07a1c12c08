#!/usr/bin/env python3
"""Reads a log of batches in etcd back, as lines for `smallbank run`: `(cat opening; read_back.py) | smallbank run`.

The run's rows are those of each bank behind the log, and an opening for the next log, with `begin` in place of the total.
Where somebody broke the log at a revision, `--at` the one before reads what it was until then, unless etcd was compacted."""
import argparse
import sys

import log
import messages
import options as words_of
import wire
from etcd import Compacted, LogError, NobodyAnswers

tell = messages.teller("read_back")


def write_lines(book: log.Log, at: int) -> None:
    """Writes a line for each Ask of the log. A batch that feeds leave out is left out here too."""
    entries, revision = book.read_at(at) if at else book.read()
    for entry in entries:
        if entry.key == book.closing:
            break
        try:
            sys.stdout.buffer.writelines(map(wire.spell_ask, wire.read_batch(entry.value)))
        except ValueError as fault:
            tell(f"{entry.key} of revision {entry.revision} is left out: {fault}")
    sys.stdout.flush()
    tell(f"{sum(not entry.is_mark for entry in entries)} batches, up to revision {revision}")


def main() -> None:
    words = argparse.ArgumentParser(description="Reads a log of batches in etcd back, as lines for `smallbank run`.")
    words_of.add_etcd(words)
    words.add_argument("--at", type=int, default=0, metavar="REVISION", help="how the log was at a revision of etcd (now)")
    words.add_argument("--give-up", type=float, default=60, help="how many seconds etcd is waited for (60)")
    options = words_of.parse(words)
    try:
        write_lines(log.Log(words_of.etcd(options, tell, options.give_up), options.prefix), options.at)
    except (NobodyAnswers, LogError, OSError) as fault:
        tell(str(fault))
        sys.exit(1)
    except Compacted:
        tell(f"etcd has dropped what it was at revision {options.at}")
        sys.exit(1)


if __name__ == "__main__":
    main()
