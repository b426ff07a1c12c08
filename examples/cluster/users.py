#!/usr/bin/env python3
"""Makes etcd's users for a log: `users.py --user root --password-file FILE --folder FOLDER`, and asks for users from then on.

Each user has the rights that its programs need, and a password file `FOLDER/NAME`, which is made where it isn't there. The
rights are given for some logs ahead, since a roll-over can't give them: run it again before these are used up."""
import argparse
import contextlib
import os
import pathlib
import secrets
import sys

import messages
import options as words_of
from etcd import AlreadyThere, Etcd, LogError, NobodyAnswers, text
from roll import next_prefix

# What each user may write below a log's prefix. All may read what is there.
USERS = {"bank": [], "feed": ["/outcomes/", "/digest/"], "gateway": ["/log/"], "submit": ["/log/"], "roll": ["/"]}


def password(folder: pathlib.Path, name: str) -> str:
    """What a user's password file has. Where there is none it is made, readable for its owner alone."""
    path = folder / name
    if not path.exists():
        with os.fdopen(os.open(path, os.O_WRONLY | os.O_CREAT | os.O_EXCL, 0o600), "w") as file:
            file.write(secrets.token_urlsafe(24) + "\n")
    return path.read_text().removesuffix("\n")


def add(etcd: Etcd, name: str, secret: str) -> None:
    """Makes a user with a role of the same name. A user who is there gets this password."""
    with contextlib.suppress(AlreadyThere):
        etcd.call("/v3/auth/role/add", {"name": name})
    try:
        etcd.call("/v3/auth/user/add", {"name": name, "password": secret})
    except AlreadyThere:
        etcd.call("/v3/auth/user/changepw", {"name": name, "password": secret})
    etcd.call("/v3/auth/user/grant", {"user": name, "role": name})


def grant(etcd: Etcd, role: str, kind: str, start: str) -> None:
    """Lets a role read, or read and write, the keys that begin with these words, which end with `/`."""
    may = {"permType": kind, "key": text(start), "range_end": text(start[:-1] + "0")}
    etcd.call("/v3/auth/role/grant", {"name": role, "perm": may})


def main() -> None:
    words = argparse.ArgumentParser(description="Makes etcd's users for a log.")
    words_of.add_etcd(words)
    words.add_argument("--folder", type=pathlib.Path, required=True, help="the folder of the password files")
    words.add_argument("--logs", type=int, default=10, help="for how many logs, this one and those after it (10)")
    words.add_argument("--give-up", type=float, default=60, help="how many seconds etcd is waited for (60)")
    options = words_of.parse(words)
    if not options.user:
        words.error("it takes the --user who may do so, as a rule root")
    tell = messages.teller("users")
    try:
        etcd = words_of.etcd(options, tell, options.give_up)
        add(etcd, options.user, options.access.password)
        for name in USERS:
            add(etcd, name, password(options.folder, name))
        prefix = options.prefix
        for _ in range(options.logs):
            for name, parts in USERS.items():
                grant(etcd, name, "READ", f"{prefix}/")
                for part in parts:
                    grant(etcd, name, "READWRITE", f"{prefix}{part}")
            prefix = next_prefix(prefix)
        etcd.call("/v3/auth/enable", {})
    except (LogError, NobodyAnswers, OSError) as fault:
        tell(str(fault))
        sys.exit(1)


if __name__ == "__main__":
    main()
