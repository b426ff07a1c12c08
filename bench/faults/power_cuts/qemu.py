"""A machine of qemu, and what it says until it is killed."""
import pathlib
import queue
import socket
import subprocess
import threading
import time
from typing import NamedTuple

import guest

SECONDS = 120  # nothing that an emulated machine does takes so long
KVM, TCG = "kvm", "tcg"
KVM_SECONDS = 20  # with the processor's help a machine begins within a few
ENDED = b"power: no ", b"power: the server ended"


class Cut(Exception):
    """The power was cut."""


class Failure(Exception):
    """The machine doesn't do what it is there for."""


def free_port():
    with socket.socket() as line:
        line.bind(("127.0.0.1", 0))
        return line.getsockname()[1]


class Setting(NamedTuple):
    """What each machine begins with."""

    kernel: pathlib.Path
    archive: pathlib.Path  # its first files
    accelerator: str


class Machine:
    """A machine, with a disk if there is one. It puts the lines that it says into a queue; what cuts its power puts Cut there."""

    def __init__(self, setting, said, disk=None, **words):
        self.said, self.text, self.port = said, [], free_port()
        self.log_listener = socket.create_server(("127.0.0.1", 0))
        self.log_listener.settimeout(SECONDS)
        words |= {"LOG_PORT": self.log_listener.getsockname()[1]}
        pipe = subprocess.PIPE
        command = [*self.command(setting, words), *(disk_words(disk) if disk else [])]
        self.child = subprocess.Popen(command, stdin=pipe, stdout=pipe, stderr=subprocess.STDOUT)
        threading.Thread(target=self.hear, daemon=True).start()

    def command(self, setting, words):
        told = " ".join(f"{name}={value}" for name, value in words.items())
        net = f"user,id=net,hostfwd=tcp:127.0.0.1:{self.port}-:{guest.PORT}"
        return ["qemu-system-x86_64", "-accel", setting.accelerator, "-cpu", "max", "-m", "256", "-nodefaults", "-no-reboot",
                "-display", "none", "-monitor", "none", "-serial", "stdio", "-kernel", setting.kernel, "-initrd", setting.archive,
                "-append", f"console=ttyS0 quiet panic=-1 mitigations=off nokaslr {told}",
                "-netdev", net, "-device", "virtio-net-pci,netdev=net,romfile="]

    def hear(self):
        for line in self.child.stdout:
            self.text.append(line.replace(b"\r", b""))
            self.said.put(self.text[-1])
        self.said.put(None)

    def line(self, begin, seconds=SECONDS):
        """The rest of the next line that begins so. Ends with Cut if the power is cut before."""
        while True:
            try:
                line = self.said.get(timeout=seconds)
            except queue.Empty:
                raise Failure(f"the machine doesn't say {begin}") from None
            if line is Cut:
                raise Cut
            if line is None or line.startswith(ENDED):
                raise Failure(f"the machine said {line} in place of {begin}")
            if line.startswith(begin):
                return line.removeprefix(begin).rstrip(b"\n")

    def work(self, seconds):
        """Ends with Cut once the power is cut; else it returns after these seconds."""
        end = time.monotonic() + seconds
        try:
            while (line := self.said.get(timeout=max(0, end - time.monotonic()))) is not Cut:
                if line is None or line.startswith(ENDED):
                    raise Failure(f"the machine said {line} under load")
        except queue.Empty:
            return
        raise Cut

    def take_log(self, size):
        """The log that the machine sends, which has this size."""
        line, _ = self.log_listener.accept()
        with line, line.makefile("rb") as pieces:
            line.settimeout(SECONDS)
            data = pieces.read()
        if len(data) != size:
            raise Failure(f"the machine sent {len(data)} bytes of a log of {size}")
        return data

    def tell(self, line):
        self.child.stdin.write(line + b"\n")
        self.child.stdin.flush()

    def kill(self):
        self.child.kill()
        self.child.wait()
        self.log_listener.close()


def disk_words(path):
    """The disk that is served at this socket, with a cache that a machine has to flush."""
    return ["-drive", f"if=none,id=disk,format=raw,cache=writeback,file=nbd+unix:///?socket={path}",
            "-device", "virtio-blk-pci,drive=disk"]


def accelerator(kernel, archive):
    """What runs machines here: the processor's own support, where a machine begins with it, or an emulation."""
    if not pathlib.Path("/dev/kvm").exists():
        return TCG
    machine = Machine(Setting(kernel, archive, KVM), queue.Queue(), FILES="ext4", SYNC="right")
    try:
        machine.line(b"power: ", KVM_SECONDS)
    except Failure as fault:
        return KVM if "no mount" in str(fault) else TCG
    finally:
        machine.kill()
