"""The options that all programs here share: where etcd is, and as whom it is asked."""
import argparse
import os
import pathlib
import ssl
from collections.abc import Iterable

import settings
from etcd import Access, Etcd, Tell

# Each of them may also stand in the environment, as SMALLBANK_USER does.
ACCESS = {
    "user": ("NAME", "the user of etcd"),
    "password-file": ("FILE", "the file with its password, and a line feed at most behind it"),
    "ca": ("FILE", "the certificates that the server's has to be signed by: it is asked over TLS"),
    "certificate": ("FILE", "the certificate to show to it"),
    "key": ("FILE", "its key"),
}


def address(word: str) -> tuple[str, int]:
    """A host and a port from `HOST:PORT`. Another word is a ValueError."""
    host, _, port = word.rpartition(":")
    if not host or not port.isdecimal() or int(port) > 65_535:
        raise ValueError(f"no HOST:PORT: {word}")
    return host, int(port)


def addresses(words: str) -> list[tuple[str, int]]:
    """Hosts and ports from `HOST:PORT,HOST:PORT`."""
    return [address(word) for word in words.split(",")]


def prefix(word: str) -> str:
    """What a log's keys begin with: `/`, and no `/` at the end."""
    if not word.startswith("/") or word.endswith("/") or not word.isprintable():
        raise ValueError(f"no prefix: {word}")
    return word


def add_etcd(words: argparse.ArgumentParser) -> None:
    """The options that say where a log is."""
    words.add_argument("--members", type=addresses, default="127.0.0.1:2379", metavar="HOST:PORT,..",
                       help="etcd's members, the nearest first (127.0.0.1:2379)")
    words.add_argument("--prefix", type=prefix, default="/smallbank", help="what the log's keys begin with (/smallbank)")
    add_access(words, ACCESS)


def add_access(words: argparse.ArgumentParser, names: Iterable[str]) -> None:
    """The options that say as whom a server is asked."""
    for name in names:
        kind, what = ACCESS[name]
        words.add_argument(f"--{name}", metavar=kind, default=os.environ.get(f"SMALLBANK_{name.upper().replace('-', '_')}"),
                           help=what)


def add_status(words: argparse.ArgumentParser) -> None:
    words.add_argument("--status", type=address, metavar="HOST:PORT", help="where a page over HTTP says how it stands")


def parse(words: argparse.ArgumentParser) -> argparse.Namespace:
    """The options, also those of a settings file, with `access` to etcd. Words at fault end the program with status 2."""
    options = settings.parse(words)
    try:
        options.access = access(options)
    except (OSError, ValueError) as fault:
        words.error(str(fault))
    return options


def access(options: argparse.Namespace) -> Access:
    """As whom etcd is asked. Files that can't be read are an OSError, also where they are no certificates."""
    user, file = getattr(options, "user", None), getattr(options, "password_file", None)
    if user and not file:
        raise ValueError("a user has a --password-file")
    password = pathlib.Path(file).read_text().removesuffix("\n") if user else ""
    return Access(client_context(options.ca, options.certificate, options.key), user or "", password)


def client_context(ca: str | None, certificate: str | None, key: str | None) -> ssl.SSLContext | None:
    """TLS for who connects: none without certificates to trust."""
    if not ca:
        if certificate or key:
            raise ValueError("a --certificate has a --ca beside it")
        return None
    context = ssl.create_default_context(cafile=ca)
    if certificate:
        context.load_cert_chain(certificate, key)
    return context


def etcd(options: argparse.Namespace, tell: Tell, give_up: float | None = None) -> Etcd:
    """The etcd that the options name."""
    return Etcd(options.members, tell, give_up, options.access)
