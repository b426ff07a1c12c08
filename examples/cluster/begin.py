#!/usr/bin/env python3
"""Begins the first log: `begin.py --prefix /smallbank < OPENING`. It puts the opening into etcd, once, for all banks."""
import argparse
import sys

import log
import messages
import options as words_of
import pieces
from etcd import LogError, NobodyAnswers


def main() -> None:
    words = argparse.ArgumentParser(description="Begins the first log, with the opening on standard input.")
    words_of.add_etcd(words)
    words.add_argument("--give-up", type=float, default=60, help="how many seconds etcd is waited for (60)")
    options = words_of.parse(words)
    tell = messages.teller("begin")
    opening = sys.stdin.buffer.read()
    opening += b"" if opening.endswith(b"\n") else b"\n"
    if not f"\n{opening.decode(errors='replace')}".endswith("\nbegin\n"):
        tell("the opening has no line `begin` at its end")
        sys.exit(2)
    try:
        pieces.put(log.Log(words_of.etcd(options, tell, options.give_up), options.prefix), "opening", opening)
    except (LogError, NobodyAnswers) as fault:
        tell(str(fault))
        sys.exit(1)


if __name__ == "__main__":
    main()
