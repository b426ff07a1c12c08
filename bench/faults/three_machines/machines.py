"""Three machines in network namespaces, each with a member of etcd, a bank, the feed beside it, and a gateway."""
import pathlib
import subprocess
import sys

CLUSTER = pathlib.Path(__file__).resolve().parents[3] / "examples" / "cluster"
sys.path.insert(0, str(CLUSTER))
import fleet  # noqa: E402
import log  # noqa: E402
import options  # noqa: E402
from etcd import Etcd, NobodyAnswers  # noqa: E402
from machine import Place  # noqa: E402
from network import Host  # noqa: E402

SIZE = 3
CLIENT_PORT, MEMBER_PORT, BANK_PORT, GATEWAY_PORT = 2379, 2380, 4000, 4100
PREFIX = "/smallbank"  # of the first log
# Of etcd: it elects sooner than it would by itself, since this is one machine's network.
HASTE = ["--heartbeat-interval", "50", "--election-timeout", "500"]


class Settings:
    """What all machines of a round have alike."""

    def __init__(self, program: pathlib.Path, opening: bytes, keeps_log: bool, etcd: list[str]):
        self.program, self.opening, self.keeps_log, self.etcd = program, opening, keeps_log, etcd


class Machine:
    """A host with what runs there. What it keeps is in a folder of its own."""

    def __init__(self, host: Host, hosts: list[Host], folder: pathlib.Path, settings: Settings):
        self.host, self.hosts, self.folder, self.settings = host, hosts, folder, settings
        folder.mkdir()
        self.member = self.process("member", member_words(host, hosts, folder / "etcd", settings.etcd))
        keeps = ["--program", settings.program, *(["--log"] if settings.keeps_log else [])]
        self.bank = self.script("bank", "serve.py", "--port", f"{BANK_PORT}", "--folder", folder, *keeps)
        self.feed = self.script("feed", "feed.py", "--port", f"{BANK_PORT}", "--folder", folder, "--name", host.name)
        self.gateway = self.script("gateway", "gateway.py", "--listen", f"{host.address}:{GATEWAY_PORT}")
        self.processes = [self.member, self.bank, self.feed, self.gateway]

    def process(self, name: str, words: list[str | pathlib.Path], given: bytes = b"") -> fleet.Process:
        return fleet.Process(name, [*self.host.within, *words], self.folder, given)

    def script(self, name: str, file: str, *words: str | pathlib.Path, given: bytes = b"") -> fleet.Process:
        """A program of examples/cluster, whose nearest member is that of this machine."""
        members = ["--members", addresses(self.hosts, self.host)]
        return self.process(name, [sys.executable, CLUSTER / file, *members, *words], given)

    def place(self, prefix: str = PREFIX) -> Place:
        """Where it has what it keeps of a log."""
        return Place(self.folder, prefix)


def member_words(host: Host, hosts: list[Host], data: pathlib.Path, settings: list[str]) -> list[str | pathlib.Path]:
    cluster = ",".join(f"{each.name}=http://{each.member_address}:{MEMBER_PORT}" for each in hosts)
    client, peer = f"http://{host.address}:{CLIENT_PORT}", f"http://{host.member_address}:{MEMBER_PORT}"
    return ["etcd", "--name", host.name, "--data-dir", data, "--initial-cluster", cluster, *HASTE, *settings,
            "--listen-client-urls", client, "--advertise-client-urls", client,
            "--listen-peer-urls", peer, "--initial-advertise-peer-urls", peer]


def addresses(hosts: list[Host], nearest: Host | None = None) -> str:
    """The members as words, beginning with the nearest one."""
    first = hosts.index(nearest) if nearest else 0
    return ",".join(f"{each.address}:{CLIENT_PORT}" for each in hosts[first:] + hosts[:first])


class Machines:
    """All of them, for a `with`, at whose end all that was started is killed."""

    def __init__(self, folder: pathlib.Path, hosts: list[Host], settings: Settings):
        self.hosts, self.settings = hosts, settings
        self.all = [Machine(host, hosts, folder / host.name, settings) for host in hosts]
        self.others: list[fleet.Process] = []  # which end by themselves

    def __enter__(self) -> "Machines":
        return self

    def __exit__(self, *_fault: object) -> None:
        for process in self.others:
            process.kill()
        for machine in self.all:
            for process in machine.processes:
                process.kill()
            machine.host.mend()

    def start(self) -> None:
        """Starts all, and puts the opening into etcd."""
        for machine in self.all:
            for process in machine.processes:
                process.start()
        begin = [sys.executable, CLUSTER / "begin.py", "--members", addresses(self.hosts)]
        subprocess.run(begin, input=self.settings.opening, check=True)

    def etcd(self, give_up: float = 30) -> Etcd:
        return Etcd(options.addresses(addresses(self.hosts)), lambda _: None, give_up)

    def books(self) -> list[log.Log]:
        """The first log, and those that followed it."""
        books = [log.Log(self.etcd(), PREFIX)]
        while following := books[-1].following():
            books.append(log.Log(books[0].etcd, following))
        return books

    def leader(self) -> Machine | None:
        """The machine whose member leads, by its own word."""
        return next(filter(leads, self.all), None)

    def watch(self) -> None:
        """A Broken where something ended by itself."""
        for machine in self.all:
            for process in machine.processes:
                if (status := process.status()) is not None:
                    said = process.errors.read_text()[-500:]
                    raise fleet.Broken(f"{process.name} of {machine.host.name} ended with status {status}: {said}")


def leads(machine: Machine) -> bool:
    try:
        etcd = Etcd([(machine.host.address, CLIENT_PORT)], lambda _: None, give_up=0.5)
        told = etcd.call("/v3/maintenance/status", {})
        return told["header"]["member_id"] == told.get("leader")
    except NobodyAnswers:
        return False
