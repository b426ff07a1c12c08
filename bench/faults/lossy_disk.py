"""A disk that loses what wasn't synced: builds lossy_disk.c, gives a program's settings for it, reads the account of its calls,
and leaves in the folder what a power cut leaves.

Of a file a power cut leaves what was synced, and of what was written since a beginning; a cut of the file since then happened or
didn't, and bytes that were written over others are new or old. After a sync that failed, what it was to write counts as clean:
no later sync writes it, but for those bytes that are written again. A name that was made, changed or removed since its folder
was synced may be as before."""
import collections
import itertools
import os
import pathlib
import struct
import subprocess

FAULTS = pathlib.Path(__file__).resolve().parent
LIBRARY = FAULTS / "out" / "lossy_disk.so"
HEAD = struct.Struct("=c3xiqqII")
Call = collections.namedtuple("Call", "kind error file at name data")


def build():
    """Builds the library. It takes its place at once, as a program may be loading the one that is there."""
    LIBRARY.parent.mkdir(exist_ok=True)
    made = LIBRARY.with_suffix(f".{os.getpid()}")
    words = ["gcc", "-O2", "-Wall", "-shared", "-fPIC", "-o", made, FAULTS / "lossy_disk.c"]
    subprocess.run(words, check=True)
    made.replace(LIBRARY)


# ---- what a power cut leaves: of each thing that may land a choice says how much does

def least(_):
    return 0


def most(count):
    return count


def at_random(numbers):
    return lambda count: numbers.choice([0, count, numbers.randint(0, count)])


def write_over(content, at, data):
    content.extend(bytes(max(0, at - len(content))))
    content[at : at + len(data)] = data


def cut_to(content, size):
    del content[size:]
    content.extend(bytes(size - len(content)))


class File:
    """What the program sees of a file, what is on the disk, and what a sync has to do until the two are one."""

    def __init__(self, content=b""):
        self.seen, self.kept, self.waiting = bytearray(content), bytearray(content), []

    def write(self, at, data):
        write_over(self.seen, at, data)
        self.waiting.append((at, data))

    def cut(self, size):
        cut_to(self.seen, size)
        self.waiting.append((size, None))

    def sync(self):
        for at, data in self.waiting:
            if data is not None:
                write_over(self.kept, at, data)
            elif at < len(self.kept):
                cut_to(self.kept, at)
        self.waiting = []

    def fail_sync(self, choose):
        """From now on all counts as clean, though of what waited only a part is on the disk."""
        self.kept, self.waiting = self.landed(choose), []

    def landed(self, choose):
        """What is on the disk if of each write so much lands. Behind a part that doesn't nothing does."""
        content = bytearray(self.kept)
        for at, data in self.waiting:
            if data is None:
                if at < len(content) and choose(1):
                    cut_to(content, at)
                continue
            over = max(0, min(len(data), len(content) - at))
            new = choose(over)
            content[at : at + new] = data[:new]
            if at <= len(content):
                content.extend(data[over : over + choose(len(data) - over)])
        return content


class State:
    """Files and names, as the program sees them and as they are on the disk."""

    def __init__(self, contents):
        self.seen = {name: File(content) for name, content in contents.items()}
        self.kept, self.waiting, self.by_number = dict(self.seen), [], {}

    def take(self, call, choose=least):
        """Does what a call did. Of a sync that failed so much landed."""
        done = {"O": self.open, "W": self.write, "C": self.cut, "S": self.sync, "D": self.sync_folder, "R": self.rename,
                "U": self.remove}.get(call.kind)
        if done and call.kind == "S":
            done(call, choose)
        elif done and not call.error:
            done(call)
        return self

    def open(self, call):
        if call.at:
            self.seen[call.name] = File()
            self.waiting.append((call.name, self.seen[call.name]))
        self.by_number[call.file] = self.seen[call.name]

    def write(self, call):
        self.by_number[call.file].write(call.at, call.data)

    def cut(self, call):
        self.by_number[call.file].cut(call.at)

    def sync(self, call, choose):
        file = self.by_number[call.file]
        if call.error:
            file.fail_sync(choose)
        else:
            file.sync()

    def sync_folder(self, call):
        """A sync of a folder that fails leaves its names to a later one."""
        ours = [it for it in self.waiting if folder_of(it[0]) == call.name]
        self.waiting = [it for it in self.waiting if folder_of(it[0]) != call.name]
        for name, file in ours:
            set_name(self.kept, name, file)

    def rename(self, call):
        new = call.data.decode()
        self.seen[new] = self.seen.pop(call.name)
        self.waiting += [(new, self.seen[new]), (call.name, None)]

    def remove(self, call):
        del self.seen[call.name]
        self.waiting.append((call.name, None))

    def left(self, choose):
        """What each file has after a power cut. Of the names that changed, those that changed first are kept."""
        names = dict(self.kept)
        for name, file in self.waiting[: choose(len(self.waiting))]:
            set_name(names, name, file)
        return {name: bytes(file.landed(choose)) for name, file in names.items()}


def set_name(names, name, file):
    names[name] = file
    if file is None:
        del names[name]


def folder_of(name):
    return name.rpartition("/")[0]


class Disk:
    """The files below a folder, and the account of what programs did there since all of it was on the disk."""

    def __init__(self, root, account):
        self.root, self.path = root.resolve(), account
        self.start()

    def start(self):
        """All that is there is on the disk now."""
        self.begins = self.contents()
        self.path.write_bytes(b"")

    def contents(self):
        return {f"{it.relative_to(self.root)}": it.read_bytes() for it in sorted(self.root.rglob("*")) if it.is_file()}

    def settings(self, **modes):
        """For a program's environment: fail_sync=3 is LOSSY_FAIL_SYNC=3."""
        named = {f"LOSSY_{name.upper()}": f"{value}" for name, value in modes.items()}
        return {"LD_PRELOAD": f"{LIBRARY}", "LOSSY_ROOT": f"{self.root}", "LOSSY_ACCOUNT": f"{self.path}", **named}

    def calls(self):
        """The calls until now. One that a kill has torn isn't there."""
        return self.read_account()[0]

    def read_account(self):
        """The calls, and where the last one ends."""
        account, at, calls = self.path.read_bytes(), 0, []
        while at + HEAD.size <= len(account):
            kind, error, file, place, name, count = HEAD.unpack_from(account, at)
            behind = at + HEAD.size + name
            if behind + count > len(account):
                break
            text, data = account[at + HEAD.size : behind], account[behind : behind + count]
            calls.append(Call(kind.decode(), error, file, place, text.decode(), data))
            at = behind + count
        return calls, at

    def state(self, choose=least):
        """What the calls until now come to. Of a sync that failed so much landed."""
        state = State(self.begins)
        for call in self.calls():
            state.take(call, choose)
        return state

    def settle(self):
        """Once a program was killed, or a file was changed from outside: the folder has what the account lacks."""
        os.truncate(self.path, self.read_account()[1])
        state = self.state()
        for name, content in self.contents().items():
            number = (self.root / name).stat().st_ino
            self.add(state, Call("O", 0, number, name not in state.seen, name, b""))
            file = state.seen[name]
            if len(content) < len(file.seen):
                self.add(state, Call("C", 0, number, len(content), name, b""))
            elif content != file.seen:
                same = next((at for at, (a, b) in enumerate(zip(content, file.seen)) if a != b), len(file.seen))
                self.add(state, Call("W", 0, number, same, name, content[same:]))

    def add(self, state, call):
        name = call.name.encode()
        head = HEAD.pack(call.kind.encode(), call.error, call.file, call.at, len(name), len(call.data))
        with open(self.path, "ab") as account:
            account.write(head + name + call.data)
        state.take(call)

    def cut_power(self, choose):
        """Leaves what a power cut leaves."""
        self.settle()
        self.leave(self.state(choose).left(choose))

    def leave(self, contents):
        for name in self.contents():
            (self.root / name).unlink()
        for name, content in contents.items():
            (self.root / name).write_bytes(content)
        self.start()


# ---- the order of calls, as text

def spell(call):
    """A line for a call, or nothing where it changes nothing and waits for nothing."""
    name, data = call.name, call.data.decode(errors="replace") if call.kind in "RP" else ""
    words = {"O": f"make {name}" if call.at else "", "W": f"write {name} {call.at}+{len(call.data)}", "C": f"cut {name} {call.at}",
             "S": f"sync {name}", "D": f"sync {name}/", "R": f"rename {name} {data}", "U": f"remove {name}", "L": f"lock {name}",
             "I": f"read {name}", "T": f"tell {len(call.data)}", "P": f"print {data.split()[0]}" if data.split() else "",
             "E": ""}[call.kind]
    return f"{words} fails" if words and call.error else words


def order(calls):
    """A line for each call, in order, and for each line that is printed, whatever number of calls prints them."""
    lines = []
    for is_printed, some in itertools.groupby(calls, lambda call: call.kind == "P"):
        some = list(some)
        if is_printed:
            printed = b"".join(call.data for call in some).splitlines()
            some = [call._replace(data=line) for line, call in zip(printed, itertools.repeat(some[0]))]
        lines += filter(None, map(spell, some))
    return lines
