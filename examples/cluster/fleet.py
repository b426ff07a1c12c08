"""Members of etcd, banks, feeds and gateways as processes of this machine, which are killed and started again."""
import contextlib
import os
import pathlib
import random
import signal
import socket
import subprocess
import sys
import time
from collections.abc import Callable

import log
import options as words_of
from certificates import Certificates
from etcd import Access, Etcd
from machine import Place

HERE = pathlib.Path(__file__).resolve().parent
# Below those that the system gives to whoever connects: such a one could be in use when a bank wants its own back.
PORTS = range(20_000, 32_000)
MORE = 12  # ports for gateways, pages, and nodes that join
LOOK_SECONDS = 0.02
PREFIX = "/smallbank"


class Broken(Exception):
    """What was started doesn't do as it should."""


class Process:
    """A process that can be killed, and started again. What it writes is in `NAME.output` and `NAME.errors`."""

    def __init__(self, name: str, words: list[str | pathlib.Path], folder: pathlib.Path, given: bytes = b""):
        self.name, self.words = name, words
        self.given, self.output, self.errors = (folder / f"{name}.{kind}" for kind in ("given", "output", "errors"))
        self.given.write_bytes(given)
        for written in (self.output, self.errors):
            written.touch()
        self.child: subprocess.Popen | None = None

    def start(self) -> None:
        # Settings that programs take from their environment are none of this one's, but for what lets etcd run here at all.
        clean = {name: value for name, value in os.environ.items()
                 if not name.startswith(("ETCD_", "SMALLBANK_")) or name == "ETCD_UNSUPPORTED_ARCH"}
        with self.given.open("rb") as given, self.output.open("ab") as output, self.errors.open("ab") as errors:
            self.child = subprocess.Popen(self.words, stdin=given, stdout=output, stderr=errors, env=clean)

    def kill(self) -> None:
        """Kills it by -9, where it runs."""
        if self.child:
            self.child.kill()
            self.child.wait()
        self.child = None

    def pause(self) -> None:
        """Has it stand still, until `go_on`."""
        self.child.send_signal(signal.SIGSTOP)

    def go_on(self) -> None:
        self.child.send_signal(signal.SIGCONT)

    def status(self) -> int | None:
        return self.child.poll() if self.child else None


def free_ports(count: int) -> list[int]:
    """Ports at which nobody listens."""
    found: list[int] = []
    for port in random.sample(PORTS, len(PORTS)):
        with contextlib.suppress(OSError), socket.create_server(("127.0.0.1", port)):
            found.append(port)
        if len(found) == count:
            return found
    raise Broken("no ports are free")


def wait_for(what: str, seconds: float, holds: Callable[[], bool]) -> None:
    """Waits until something holds. Where it takes too long it's a Broken."""
    start = time.monotonic()
    while not holds():
        if time.monotonic() - start > seconds:
            raise Broken(f"{what} took longer than {seconds:.0f} s")
        time.sleep(LOOK_SECONDS)


class Node:
    """A bank and its feed, which share a folder. The bank may have a log of its own, or be another program."""

    def __init__(self, name: str, fleet: "Fleet", nearest: int = 0, has_log: bool = False, program: pathlib.Path | None = None):
        self.name, self.folder, self.prefix = name, fleet.folder / name, PREFIX
        self.folder.mkdir()
        port, self.page = fleet.spare_ports.pop(), fleet.spare_ports.pop()
        self.port = port
        both = ["--folder", self.folder, "--port", f"{port}"]
        serve = ["--program", program or fleet.program, *(["--log"] if has_log else [])]
        feed = ["--name", name, "--banks", f"{fleet.size}", "--status", f"127.0.0.1:{self.page}"]
        self.bank = fleet.process(f"bank-{name}", "serve.py", "bank", nearest, *both, *serve)
        self.feed = fleet.process(f"feed-{name}", "feed.py", "feed", nearest, *both, *feed)

    def start(self) -> None:
        self.bank.start()
        self.feed.start()

    def place(self, prefix: str = "") -> Place:
        """What its folder has of a log."""
        return Place(self.folder, prefix or self.prefix)

    @property
    def outcomes(self) -> pathlib.Path:
        return self.place().outcomes

    @property
    def checkpoint(self) -> pathlib.Path:
        return self.place().checkpoint

    def listens(self) -> bool:
        output = self.place().bank_output
        return output.exists() and b"\nlistening " in output.read_bytes()

    def length(self) -> int:
        """How many bytes of outcomes its feed has kept."""
        return self.outcomes.stat().st_size if self.outcomes.exists() else 0


class Gateway:
    """A gateway, whose clients come over TLS where the fleet has certificates."""

    def __init__(self, name: str, fleet: "Fleet", nearest: int = 0):
        port, self.page = fleet.spare_ports.pop(), fleet.spare_ports.pop()
        self.address = "127.0.0.1", port
        words = ["--listen", f"127.0.0.1:{port}", "--status", f"127.0.0.1:{self.page}"]
        if fleet.certificates:
            words += ["--listen-certificate", fleet.certificates.certificate("gateway"),
                      "--listen-key", fleet.certificates.key("gateway")]
        self.process = fleet.process(name, "gateway.py", "gateway", nearest, *words)

    def listens(self) -> bool:
        return "listening" in self.process.errors.read_text()


class Fleet:
    """Members of etcd and as many nodes, for a `with`, at whose end all that was started is killed.

    With `secure` etcd is asked over TLS alone, both ways with certificates, and by users with passwords."""

    def __init__(self, folder: pathlib.Path, program: pathlib.Path, opening: bytes, size: int, *settings: str,
                 secure: bool = False, logs: tuple[bool, ...] = ()):
        self.folder, self.program, self.opening, self.size = folder, program, opening, size
        self.settings = settings  # of etcd
        self.processes: list[Process] = []
        ports = free_ports(4 * size + MORE)
        self.ports, self.spare_ports = ports[: 2 * size], ports[2 * size :]
        self.certificates = Certificates(folder / "certificates") if secure else None
        self.passwords = folder / "passwords"
        self.passwords.mkdir()
        (self.passwords / "root").write_text("only for this trial\n")
        self.members = [self.member(place) for place in range(size)]
        self.processes += self.members
        self.nodes = [Node(f"node{place}", self, place, place < len(logs) and logs[place]) for place in range(size)]

    def __enter__(self) -> "Fleet":
        return self

    def __exit__(self, *_fault: object) -> None:
        for process in self.processes:
            process.kill()

    def begin(self) -> None:
        """Starts the members, makes users where they are wanted, and begins the first log."""
        for member in self.members:
            member.start()
        self.book().etcd.call("/v3/maintenance/status", {})
        if self.certificates:
            self.run("users.py", "root", "--folder", self.passwords)
        self.run("begin.py", "roll", given=self.opening)

    def run(self, script: str, user: str, *words: str | pathlib.Path, given: bytes = b"") -> None:
        """Runs one of the programs to its end, which has to be a good one."""
        ended = subprocess.run([sys.executable, HERE / script, *self.reach(user), *words], input=given, capture_output=True)
        if ended.returncode != 0:
            raise Broken(f"{script} ended with status {ended.returncode}: {ended.stderr.decode()[-500:]}")

    def process(self, name: str, script: str, user: str, nearest: int, *words: str | pathlib.Path, given: bytes = b"") -> Process:
        """One of the programs, by one of etcd's users."""
        made = Process(name, [sys.executable, HERE / script, *self.reach(user, nearest), *words], self.folder, given)
        self.processes.append(made)
        return made

    def member(self, place: int) -> Process:
        scheme = "https" if self.certificates else "http"
        urls = [f"{scheme}://127.0.0.1:{port}" for port in self.ports]
        clients, peers = urls[: self.size], urls[self.size :]
        cluster = ",".join(f"member{each}={url}" for each, url in enumerate(peers))
        return Process(f"member{place}", [
            "etcd", "--name", f"member{place}", "--data-dir", self.folder / f"member{place}", "--initial-cluster", cluster,
            "--listen-client-urls", clients[place], "--advertise-client-urls", clients[place],
            "--listen-peer-urls", peers[place], "--initial-advertise-peer-urls", peers[place],
            *self.member_certificates(), *self.settings,
        ], self.folder)

    def member_certificates(self) -> list[str | pathlib.Path]:
        if not (made := self.certificates):
            return []
        certificate, key = made.certificate("member"), made.key("member")
        return ["--cert-file", certificate, "--key-file", key, "--trusted-ca-file", made.ca, "--client-cert-auth",
                "--peer-cert-file", certificate, "--peer-key-file", key, "--peer-trusted-ca-file", made.ca,
                "--peer-client-cert-auth"]

    def reach(self, user: str, nearest: int = 0) -> list[str | pathlib.Path]:
        """The words that say where etcd is, and as whom it is asked, beginning with the nearest member."""
        where: list[str | pathlib.Path] = ["--members", self.addresses(nearest)]
        if not (made := self.certificates):
            return where
        return [*where, "--user", user, "--password-file", self.passwords / user, "--ca", made.ca,
                "--certificate", made.certificate("program"), "--key", made.key("program")]

    def addresses(self, nearest: int = 0) -> str:
        """The members as words, beginning with the nearest one."""
        ports = self.ports[: self.size]
        nearest %= self.size
        return ",".join(f"127.0.0.1:{port}" for port in ports[nearest:] + ports[:nearest])

    def access(self) -> Access:
        """The root user's."""
        if not (made := self.certificates):
            return Access()
        context = words_of.client_context(made.ca, made.certificate("program"), made.key("program"))
        return Access(context, "root", (self.passwords / "root").read_text().strip())

    def etcd(self, addresses: str, give_up: float = 30) -> Etcd:
        return Etcd(words_of.addresses(addresses), lambda _: None, give_up, self.access())

    def book(self, nearest: int = 0, give_up: float = 30, prefix: str = PREFIX) -> log.Log:
        return log.Log(self.etcd(self.addresses(nearest), give_up), prefix)

    def leader(self) -> Process:
        """The member that leads, by its own word."""
        leading: list[Process] = []

        def is_there() -> bool:
            for address, member in zip(self.addresses().split(","), self.members):
                told = self.etcd(address, 10).call("/v3/maintenance/status", {})
                if told["header"]["member_id"] == told.get("leader"):
                    leading.append(member)
            return bool(leading)

        wait_for("an election", 20, is_there)
        return leading[0]

    def watch(self) -> None:
        """A Broken where something ended by itself with another status than 0."""
        for process in self.processes:
            if process.status() not in (None, 0):
                raise Broken(f"{process.name} ended with status {process.status()}: {process.errors.read_text()[-500:]}")
