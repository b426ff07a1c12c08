"""Machines with addresses of their own on this one, as network namespaces, whose links are cut and mended.

Each machine is in two networks: one for clients, and one in which members of etcd reach each other. So a member can be
cut off from the others while its clients still reach it. All of it is within namespaces of this program's own, and ends
with it, however it ends: nobody else's network is touched."""
import os
import signal
import subprocess
import sys

CLIENTS, MEMBERS = "10.77.0", "10.78.0"  # the two networks
OUTSIDE = f"{CLIENTS}.254"  # where this program is
ENTERED = "FAULTS_NETWORK"


class NoNamespaces(Exception):
    """The system lets nobody make them here, or `ip` isn't there."""


def enter() -> None:
    """Runs this program once more, within namespaces of its own, and ends with its status; there, it goes on. All that
    it starts there ends with it."""
    if ENTERED in os.environ:
        prepare()
        return
    user = [] if os.geteuid() == 0 else ["--map-root-user"]
    words = ["setpriv", "--pdeathsig", "KILL", "unshare", *user, "--net", "--mount", "--mount-proc", "--pid", "--fork",
             "--kill-child"]
    try:
        subprocess.run([*words, "ip", "link"], capture_output=True, check=True)
    except (OSError, subprocess.CalledProcessError) as fault:
        raise NoNamespaces(str(fault)) from None
    signal.signal(signal.SIGTERM, lambda *_: sys.exit(143))
    child = subprocess.Popen([*words, sys.executable, *sys.argv], env={**os.environ, ENTERED: "yes"})
    try:
        sys.exit(child.wait())
    except KeyboardInterrupt:
        sys.exit(130)
    finally:
        child.kill()  # It ignores gentler signals.


def prepare() -> None:
    """A place for names of namespaces that nobody else sees, and the two networks, with nobody in them."""
    subprocess.run(["mount", "-t", "tmpfs", "tmpfs", "/run"], check=True)
    ip("link", "set", "lo", "up")
    for bridge in ("clients", "members"):
        ip("link", "add", bridge, "type", "bridge")
        ip("link", "set", bridge, "up")
    ip("address", "add", f"{OUTSIDE}/24", "dev", "clients")


def ip(*words: str) -> None:
    ended = subprocess.run(["ip", *words], capture_output=True, text=True)
    if ended.returncode != 0:
        raise OSError(f"ip {' '.join(words)}: {ended.stderr.strip()}")


class Host:
    """A machine's place in both networks, numbered from 1."""

    def __init__(self, number: int):
        self.name = f"host{number}"
        self.address, self.member_address = f"{CLIENTS}.{number}", f"{MEMBERS}.{number}"
        self.within = ["ip", "netns", "exec", self.name]  # the words before those of a program that runs there
        self.unreached: set[str] = set()
        ip("netns", "add", self.name)
        ip("-n", self.name, "link", "set", "lo", "up")
        self.join("clients", f"c{number}", self.address)
        self.join("members", f"m{number}", self.member_address)
        self.links = f"c{number}", f"m{number}"

    def join(self, bridge: str, link: str, address: str) -> None:
        ip("link", "add", link, "type", "veth", "peer", "name", bridge, "netns", self.name)
        ip("link", "set", link, "master", bridge, "up")
        ip("-n", self.name, "address", "add", f"{address}/24", "dev", bridge)
        ip("-n", self.name, "link", "set", bridge, "up")

    def leave(self) -> None:
        ip("netns", "delete", self.name)

    def cut(self) -> None:
        """Nobody reaches it, and it reaches nobody."""
        for link in self.links:
            ip("link", "set", link, "down")

    def cut_member(self) -> None:
        """Other members neither reach it nor are reached; its clients reach it still."""
        ip("link", "set", self.links[1], "down")

    def sever(self, other: "Host") -> None:
        """It and one other member don't reach each other, while all else is as before."""
        for one, far in ((self, other.member_address), (other, self.member_address)):
            if far not in one.unreached:
                ip("-n", one.name, "route", "add", "blackhole", f"{far}/32")
                one.unreached.add(far)

    def mend(self) -> None:
        """All that was cut here is whole again."""
        for link in self.links:
            ip("link", "set", link, "up")
        while self.unreached:
            ip("-n", self.name, "route", "delete", "blackhole", f"{self.unreached.pop()}/32")
