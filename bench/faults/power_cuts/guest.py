"""The machine whose power is cut: Debian's kernel, and a file system in memory with busybox, the modules of the disk and of the
net, the program and its libraries. Its init mounts the disk, sends the log that it finds there, and serves on it."""
import gzip
import pathlib
import re
import shutil
import subprocess
import tempfile

HERE = pathlib.Path(__file__).resolve().parent
KERNEL = "linux-image-cloud-amd64"  # it depends on the package that has the kernel
MODULES = ["virtio_pci", "virtio_blk", "virtio_net"]
FILES = {"ext4": [], "xfs": ["xfs"]}  # the modules of each file system; the kernel has ext4 built in
DEPENDS = re.compile(rb"\0depends=([^\0]*)\0")
LIBRARY = re.compile(r"(/\S+) \(0x")
PORT, HOST, ADDRESS = 4000, "10.0.2.2", "10.0.2.15"
# $FILES, $LOG_PORT and $SYNC are words of the kernel's. The host reads lines that begin with `power: `, and writes one before a
# start.
INIT = f"""#!/bin/busybox sh
say() {{
    echo "power: $*"
}}

stop() {{
    say "$*"
    poweroff -f
}}

/bin/busybox mkdir -p /proc /sys /dev /disk /bin
/bin/busybox --install -s /bin
mount -t proc proc /proc
mount -t devtmpfs dev /dev
for module in $(cat "/modules/$FILES"); do
    insmod "/modules/$module" || stop "no module $module"
done
ip link set lo up
ip address add {ADDRESS}/24 dev eth0
ip link set eth0 up
mount -t "$FILES" /dev/vda /disk || stop "no mount"
size=none
[ ! -e /disk/log ] || size=$(stat -c %s /disk/log)
say "mounted, log $size"
[ "$size" = none ] || nc {HOST} "$LOG_PORT" < /disk/log
read -r opening
[ "$SYNC" = right ] || export WRONG_SYNC=$SYNC LD_PRELOAD=/wrong_sync.so
/smallbank serve --listen 0.0.0.0:{PORT} --quiet --log /disk < "/$opening" 2>&1
stop "the server ended with $?"
"""


def fetch(folder):
    """Downloads and unpacks Debian's packages, unless they are there, or another script is quicker. The kernel's file."""
    unpacked = folder / "unpacked"
    if not unpacked.exists():
        found = subprocess.run(["apt-cache", "depends", KERNEL], stdout=subprocess.PIPE, text=True, check=True).stdout
        names = [re.search(r"Depends: (linux-image-\S+)", found)[1], "busybox-static"]
        folder.mkdir(parents=True, exist_ok=True)
        half = pathlib.Path(tempfile.mkdtemp(dir=folder))
        subprocess.run(["apt-get", "download", "--quiet", *names], cwd=half, check=True)
        for package in half.glob("*.deb"):
            subprocess.run(["dpkg-deb", "--extract", package, half], check=True)
        try:
            half.rename(unpacked)
        except OSError:
            shutil.rmtree(half)
    return next(unpacked.glob("boot/vmlinuz-*"))


def modules(unpacked, names):
    """The files of these modules, each after those that it needs. What the kernel has built in has no file."""
    files = {it.name.removesuffix(".ko").replace("-", "_"): it for it in unpacked.glob("lib/modules/*/kernel/**/*.ko")}
    ordered = []

    def visit(name):
        file = files.get(name.replace("-", "_"))
        if file and file not in ordered:
            for below in filter(None, DEPENDS.search(file.read_bytes())[1].decode().split(",")):
                visit(below)
            ordered.append(file)

    for name in names:
        visit(name)
    return ordered


def libraries(program):
    """The files of the libraries that a program is linked with, by where it looks for them."""
    found = subprocess.run(["ldd", program], stdout=subprocess.PIPE, text=True, check=True).stdout
    return {path: pathlib.Path(path).read_bytes() for path in LIBRARY.findall(found)}


def build_wrong_sync(folder):
    library = folder / "wrong_sync.so"
    subprocess.run(["gcc", "-O2", "-Wall", "-shared", "-fPIC", "-pthread", "-o", library, HERE / "wrong_sync.c"], check=True)
    return library


def make(packages, folder, program, opening):
    """Makes what the machine begins with: the file of the kernel, and that of the first files. Packages stay in their folder."""
    kernel = fetch(packages)
    wrong = build_wrong_sync(folder)
    files = {"/init": INIT.encode(), "/bin/busybox": (packages / "unpacked/bin/busybox").read_bytes(), "/opening": opening,
             "/nothing": b"", "/smallbank": program.read_bytes(), "/wrong_sync.so": wrong.read_bytes()}
    files |= libraries(program) | libraries(wrong)
    for name, more in FILES.items():
        ordered = modules(packages / "unpacked", MODULES + more)
        files |= {f"/modules/{it.name}": it.read_bytes() for it in ordered}
        files[f"/modules/{name}"] = " ".join(it.name for it in ordered).encode()
    archive = folder / "initramfs"
    archive.write_bytes(gzip.compress(pack(files), compresslevel=1))
    return kernel, archive


def pack(files):
    """These files as an archive of the kind that the kernel unpacks, with their folders and a console."""
    folders = {str(folder) for name in files for folder in pathlib.Path(name).parents if str(folder) != "/"}
    entries = [(name, 0o40755, b"", 0) for name in sorted(folders | {"/dev"})]
    entries += [("/dev/console", 0o20600, b"", 1)]
    entries += [(name, 0o100755, data, 0) for name, data in files.items()]
    return b"".join(pack_one(place, *it) for place, it in enumerate([*entries, ("TRAILER!!!", 0, b"", 0)], 1))


def pack_one(number, name, mode, data, minor):
    name = name.lstrip("/").encode() + b"\0"
    fields = [number, mode, 0, 0, 1, 0, len(data), 0, 0, 5 * minor, minor, len(name), 0]
    head = b"070701" + b"".join(b"%08x" % it for it in fields) + name
    return pad(head) + pad(data)


def pad(data):
    return data + bytes(-len(data) % 4)
