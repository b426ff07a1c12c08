"""A disk that loses its power: a server of NBD, to which qemu attaches a machine's disk. What was written since the last flush
is pending. When the power is cut, at a write or a flush that is counted from a seed, any part of what is pending stays, and the
disk answers no more. A block of 4 KiB stays whole or not at all. The disk offers no writes past its cache (FUA); a kernel that
wants one flushes after a write."""
import contextlib
import os
import socket
import struct
import threading

BLOCK = 4096
# The fixed newstyle handshake, and simple replies.
MAGIC, OPTION_MAGIC, REPLY_MAGIC = b"NBDMAGIC", b"IHAVEOPT", 0x3E889045565A9
FIXED_NEWSTYLE = 1
OPTION = struct.Struct(">8sII")  # magic, option, how many bytes follow
OPTION_REPLY = struct.Struct(">QIII")  # magic, option, kind, how many bytes follow
GO, ACK, INFO, UNSUPPORTED = 7, 1, 3, 2**31 + 1
EXPORT = struct.Struct(">HQH")  # kind of information, size of the disk, what it can do
HAS_FLAGS, HAS_FLUSH = 1, 4
REQUEST = struct.Struct(">IHHQQI")  # magic, flags, kind, handle, place, how many bytes
ANSWER = struct.Struct(">IIQ")  # magic, error, handle
REQUEST_MAGIC, ANSWER_MAGIC = 0x25609513, 0x67446698
READ, WRITE, _, FLUSH = range(4)


class Disk:
    """The disk in a file. It calls `at_cut` when its power is cut."""

    def __init__(self, path, socket_path, numbers, at_cut):
        self.file = os.open(path, os.O_RDWR)
        self.size = os.fstat(self.file).st_size
        self.numbers, self.at_cut = numbers, at_cut
        self.pending, self.stays = [], []  # places and bytes, each within one block
        self.is_off, self.left = False, None
        self.writes = self.flushes = 0
        self.lock = threading.Lock()
        self.listener = socket.socket(socket.AF_UNIX)
        self.listener.bind(str(socket_path))
        self.listener.listen()
        self.server = threading.Thread(target=self.serve, daemon=True)
        self.server.start()

    def cut_after(self, count):
        """Cuts the power at the write or flush that so many others precede from now on."""
        with self.lock:
            self.left = count

    def cut(self):
        """Cuts the power now, unless it is off. How many blocks were pending, and how many of them stay."""
        with self.lock:
            return self.cut_once()

    def close(self):
        """Ends the server, whose machine is gone."""
        with contextlib.suppress(OSError):
            self.listener.shutdown(socket.SHUT_RDWR)
        self.listener.close()
        self.server.join()
        os.close(self.file)

    # ---- what is on it

    def cut_once(self):
        if not self.is_off:
            self.is_off = True
            self.stays = self.choose()
            self.keep(self.stays)
            self.at_cut()
        return len(self.pending), len(self.stays)

    def choose(self):
        """A beginning of what is pending, and any of the rest."""
        beginning = self.numbers.choice([0, self.numbers.randint(0, len(self.pending)), len(self.pending)])
        chance = self.numbers.choice([0, 0, 0.2, 0.5, 0.9])
        return [it for place, it in enumerate(self.pending) if place < beginning or self.numbers.random() < chance]

    def keep(self, pieces):
        for place, data in pieces:
            os.pwrite(self.file, data, place)

    def count(self):
        """Counts a write or a flush."""
        if self.left is not None:
            self.left -= 1
            if self.left < 0:
                self.cut_once()

    def read(self, place, size):
        data = bytearray(os.pread(self.file, size, place))
        for at, piece in self.pending:
            begin, end = max(place, at), min(place + size, at + len(piece))
            if begin < end:
                data[begin - place : end - place] = piece[begin - at : end - at]
        return data

    def write(self, place, data):
        while data:
            size = BLOCK - place % BLOCK
            self.pending.append((place, data[:size]))
            place, data = place + size, data[size:]
        self.writes += 1
        self.count()

    def flush(self):
        self.count()
        if not self.is_off:
            self.keep(self.pending)
            self.pending = []
            self.flushes += 1

    # ---- the protocol

    def serve(self):
        try:
            line, _ = self.listener.accept()
            with line, line.makefile("rb") as requests:
                self.shake_hands(line, requests)
                while self.answer(line, requests):
                    pass
        except OSError:
            pass  # the machine is gone

    def shake_hands(self, line, requests):
        line.sendall(MAGIC + OPTION_MAGIC + FIXED_NEWSTYLE.to_bytes(2, "big"))
        requests.read(4)
        while True:
            _, option, size = OPTION.unpack(take(requests, OPTION.size))
            take(requests, size)
            if option == GO:
                about = EXPORT.pack(0, self.size, HAS_FLAGS | HAS_FLUSH)
                line.sendall(OPTION_REPLY.pack(REPLY_MAGIC, option, INFO, len(about)) + about)
                line.sendall(OPTION_REPLY.pack(REPLY_MAGIC, option, ACK, 0))
                return
            line.sendall(OPTION_REPLY.pack(REPLY_MAGIC, option, UNSUPPORTED, 0))

    def answer(self, line, requests):
        """Takes a request, and answers it unless the power is off. Whether there may be another."""
        magic, _, kind, handle, place, size = REQUEST.unpack(take(requests, REQUEST.size))
        if magic != REQUEST_MAGIC or kind not in (READ, WRITE, FLUSH):
            return False
        data = take(requests, size) if kind == WRITE else b""
        with self.lock:
            told = self.read(place, size) if kind == READ else b""
            if kind == WRITE and not self.is_off:
                self.write(place, data)
            elif kind == FLUSH and not self.is_off:
                self.flush()
            is_off = self.is_off
        # A machine that is told of errors would act on them. This one's power is off, and so it waits until it is killed.
        if not is_off:
            line.sendall(ANSWER.pack(ANSWER_MAGIC, 0, handle) + told)
        return True


def take(requests, size):
    data = requests.read(size)
    if len(data) < size:
        raise ConnectionError("the machine is gone")
    return data
