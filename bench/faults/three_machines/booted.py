"""Machines that systemd runs, in namespaces: each has the files of this one, and what it writes is its own."""
import contextlib
import pathlib
import shutil
import subprocess
import time

from network import Host

BOOT_SECONDS, END_SECONDS = 30, 5
# What needs hardware, or other machines. It isn't started.
ABSENT = ["systemd-udevd.service", "systemd-udev-trigger.service", "systemd-timesyncd.service",
          "systemd-networkd.service", "systemd-logind.service", "systemd-resolved.service", "getty.target",
          "apt-daily.timer", "apt-daily-upgrade.timer"]
BOOT = """
set -e
root=$1
mount -t proc proc "$root/proc"
mount -t sysfs sysfs "$root/sys"
mount -t tmpfs tmpfs "$root/run"
mount -t tmpfs tmpfs "$root/tmp"
mount --rbind /dev "$root/dev"
mount -t cgroup2 cgroup2 "$root/sys/fs/cgroup"
mount --rbind "$2" "$root/mnt"
hostname "$3"
exec env -i container=lxc PATH=/usr/sbin:/usr/bin:/sbin:/bin chroot "$root" /lib/systemd/systemd
"""


class Booted:
    """A machine with this host name, whose files are in a folder: it is booted, and does what a shell is told."""

    def __init__(self, host: Host, name: str, folder: pathlib.Path):
        self.host, self.name, self.root = host, name, folder / name / "root"
        self.shared = folder
        for part in ("upper", "work", "root"):
            (folder / name / part).mkdir(parents=True)
        self.group = control_group() / f"{folder.name}-{name}"
        self.child: subprocess.Popen | None = None

    def lay(self) -> None:
        """Lays its files over those of this machine. All are to be laid before one boots, so that it sees them."""
        below = f"lowerdir=/,upperdir={self.root.parent}/upper,workdir={self.root.parent}/work"
        subprocess.run(["mount", "-t", "overlay", "overlay", "-o", below, self.root], check=True)
        units = self.root / "etc" / "systemd" / "system"
        for wants in units.glob("*.wants"):
            shutil.rmtree(wants)
        for unit in ABSENT:
            (units / unit).unlink(missing_ok=True)
            (units / unit).symlink_to("/dev/null")
        (self.root / "etc" / "hostname").write_text(f"{self.name}\n")

    def boot(self) -> None:
        self.group.mkdir()
        within = ["unshare", "--pid", "--fork", "--mount", "--uts", "--ipc", "--cgroup", "--kill-child"]
        start = ["sh", "-c", f"echo $$ > {self.group}/cgroup.procs; exec \"$@\"", "sh", *self.host.within, *within]
        words = [*start, "sh", "-c", BOOT, "boot", self.root, self.shared, self.name]
        nothing = subprocess.DEVNULL
        self.child = subprocess.Popen(words, stdin=nothing, stdout=nothing, stderr=nothing)
        self.wait_for_boot()

    def wait_for_boot(self) -> None:
        end = time.monotonic() + BOOT_SECONDS
        while self.run("systemctl is-system-running").stdout.strip() not in ("running", "degraded"):
            if time.monotonic() > end:
                raise OSError(f"{self.name} hasn't booted: {self.run('systemctl list-jobs').stdout}")
            time.sleep(0.2)

    def run(self, command: str, **options: object) -> subprocess.CompletedProcess:
        """What a shell of root's says there."""
        first = self.first()
        if first is None:
            return subprocess.CompletedProcess([], 1, "", "it isn't there yet")
        enter = ["nsenter", "--target", first, "--mount", "--uts", "--ipc", "--net", "--pid", "--cgroup", "--root", "--wd"]
        clean = ["env", "-i", "HOME=/root", "PATH=/usr/local/sbin:/usr/local/bin:/usr/sbin:/usr/bin:/sbin:/bin"]
        words = [*enter, *clean, "bash", "-c", command]
        return subprocess.run(words, capture_output=True, text=True, **options)

    def first(self) -> str | None:
        """The number of its first process, as it is outside."""
        children = pathlib.Path(f"/proc/{self.child.pid}/task/{self.child.pid}/children").read_text().split()
        return children[0] if children else None

    def remove(self) -> None:
        """Its files are gone, once it is off."""
        subprocess.run(["umount", self.root], check=True)
        shutil.rmtree(self.root.parent)

    def end(self) -> None:
        """It is off, as if its power was cut."""
        if self.child:
            self.child.kill()
            self.child.wait()
        self.child = None
        # systemd made groups below, and they are empty soon.
        end = time.monotonic() + END_SECONDS
        while self.group.exists() and time.monotonic() < end:
            for below in sorted(self.group.rglob("*/"), reverse=True):
                with contextlib.suppress(OSError):
                    below.rmdir()
            with contextlib.suppress(OSError):
                self.group.rmdir()


def control_group() -> pathlib.Path:
    """Where the one tree of control groups is."""
    for line in pathlib.Path("/proc/mounts").read_text().splitlines():
        _, where, kind, *_ = line.split(" ")
        if kind == "cgroup2":
            return pathlib.Path(where)
    raise OSError("there is no tree of control groups, version 2, which systemd needs")
