"""Clients that ask a bank at random and keep each outcome that they were told, and what was told compared with a bank's log."""
import itertools
import pathlib
import socket
import sys
import threading

sys.path.insert(0, str(pathlib.Path(__file__).resolve().parents[2] / "examples" / "cluster"))
import bank_model  # noqa: E402
import log_file  # noqa: E402
import wire  # noqa: E402

OUTCOME = wire.client.OUTCOME.size
NAMES = [b"alice", b"bob", b"carol", b"dave", b"erin", b"frank", b"grace", b"heidi", b"ivan", b"judy"]
OPENING = b"".join(b"%b 100.00 50.00\n" % name for name in NAMES) + b"begin\n"
STRANGERS = [b"mallory", b"a_name_of_20_letters"]
SECONDS = 60  # nothing here takes so long
CHUNK = 500  # asks to a Flush when outcomes are asked again
GARBAGE = [b"GET / HTTP/1.1\r\n", b"\0\0", bytes.fromhex("000a 03 01 0000000000000002"), b"\0\x16\1\0"]


class Difference(Exception):
    """What was told isn't what stands."""


def check(holds, what):
    if not holds:
        raise Difference(what)


def money(numbers):
    return wire.money(numbers.choice([numbers.randint(-2_000, 20_000), numbers.randint(0, 100), 10**12])).encode()


def random_line(numbers):
    verb = numbers.choice(list(wire.client.CALLS))
    _, fields = wire.client.CALLS[verb]
    names = NAMES if numbers.random() < 0.97 else STRANGERS
    return b" ".join([verb, *(numbers.choice(names) if kind == "N" else money(numbers) for kind in fields)])


class Client(threading.Thread):
    """Asks until the server is gone, and keeps each outcome that it was told. Of twenty asks one was asked before, by any client
    of any round, and one comes under the key of such a one."""

    def __init__(self, number, port, numbers, told, asked):
        super().__init__()
        self.number, self.port, self.numbers, self.told, self.asked = number, port, numbers, told, asked
        self.ends, self.fault = [], None

    def run(self):
        try:
            while self.session():
                pass
        except OSError:
            pass
        except Difference as fault:
            self.fault = fault

    def session(self):
        """Some batches; then an end, or bytes that end a session. Whether the server goes on."""
        with connect(self.port) as line:
            for _ in range(self.numbers.choice([1, 4, 16, 64])):
                batch = [self.random_ask() for _ in range(self.numbers.randint(1, 20))]
                line.sendall(b"".join(batch) + wire.FLUSH)
                if not self.hear(line, batch):
                    return False
            # Of asks that no Flush follows no outcome says that they are kept. That their session is over says it.
            self.ends.append([self.random_ask() for _ in range(self.numbers.randint(0, 3))])
            line.sendall(b"".join(self.ends[-1]) + self.numbers.choice([b"", *GARBAGE]))
            line.shutdown(socket.SHUT_WR)
            return line.recv(1) == b""

    def random_ask(self):
        chance = self.numbers.random()
        before = self.numbers.choice(self.numbers.choice([self.asked, self.asked[-100:]])) if self.asked and chance < 0.1 else None
        if before and chance < 0.05:
            return before
        key = before[3:11] if before else self.new_key()
        call = wire.client.call(random_line(self.numbers))
        self.asked.append(wire.client.frame(bytes([wire.client.TAG_ASK]) + key + call))
        return self.asked[-1]

    def new_key(self):
        number = self.numbers.choice([0, self.number, 7, 2**32 - 1])
        return number.to_bytes(4, "big") + self.numbers.randrange(2**32).to_bytes(4, "big")

    def hear(self, line, batch):
        """Keeps the outcomes that come, also of a batch that the server doesn't finish. Whether all came."""
        text = b""
        try:
            while len(text) < OUTCOME * len(batch) and (piece := line.recv(1 << 16)):
                text += piece
        except ConnectionError:
            pass
        outcomes = [text[at : at + OUTCOME] for at in range(0, len(text) - OUTCOME + 1, OUTCOME)]
        for ask, outcome in zip(batch, outcomes):
            keep(self.told, ask, outcome)
        return len(outcomes) == len(batch)


def keep(told, ask, outcome):
    before = told.setdefault(ask, outcome)
    check(before == outcome, f"{spelled(ask)} was told {before.hex()}, and again {outcome.hex()}")


def spelled(ask):
    return wire.spell_ask(*wire.read_frames(ask)).decode().strip()


def connect(port):
    line = socket.create_connection(("127.0.0.1", port), timeout=SECONDS)
    line.setsockopt(socket.IPPROTO_TCP, socket.TCP_NODELAY, 1)
    return line


def ask_again(port, told):
    """Asks all of this again in one session, and compares what is told."""
    with connect(port) as line, line.makefile("rb") as replies:
        for at in range(0, len(told), CHUNK):
            chunk = told[at : at + CHUNK]
            line.sendall(b"".join(ask for ask, _ in chunk) + wire.FLUSH)
            for ask, before in chunk:
                outcome = replies.read(OUTCOME)
                check(outcome == before, f"{spelled(ask)} was told {before.hex()}, and after a start {outcome.hex()}")
        line.shutdown(socket.SHUT_WR)
        check(replies.read() == b"", "more was told than asked")


class Told:
    """What clients were told, the log as it was read last, and the bank that has executed it."""

    def __init__(self):
        self.told, self.asked, self.judged, self.ended = {}, [], 0, []
        self.log, self.bank = log_file.read(b""), bank_model.Bank(OPENING)
        # How many of its batches were found on the disk, and whether its opening was.
        self.on_disk, self.is_begun = 0, False

    def read(self, data, is_on_disk=True):
        """Reads a log's bytes, and executes what is new. What was found on the disk before stands in them; the rest, which a
        program wrote and nobody was told of, may be gone."""
        before, self.log = self.log, log_file.read(data)
        check(self.log.is_torn, f"damage at byte {self.log.size}")
        check(self.log.opening == OPENING or not (self.log.opening or self.is_begun), "the opening is another one")
        check(self.log.batches[: self.on_disk] == before.batches[: self.on_disk], "what was kept before isn't what is kept now")
        executed = len(before.batches)
        if self.log.batches[:executed] != before.batches:
            self.bank, self.judged, executed = bank_model.Bank(OPENING), 0, 0
        for batch in self.log.batches[executed:]:
            for ask in log_file.asks_of(batch):
                self.bank.take(ask)
        if is_on_disk:
            self.find(self.log)

    def find(self, log):
        """This log was found on the disk."""
        self.on_disk, self.is_begun = len(log.batches), log.opening is not None

    def judge(self):
        """Compares what was told since the last time with what the model has."""
        for ask, outcome in itertools.islice(self.told.items(), self.judged, None):
            stands = self.bank.outcome(*wire.read_frames(ask))
            check(outcome == stands, f"{spelled(ask)} was told {outcome.hex()}; by the log it is {stands and stands.hex()}")
        self.judged = len(self.told)
        for ask in self.ended:
            check(self.bank.outcome(*wire.read_frames(ask)), f"{spelled(ask)} isn't in the log, and its session had ended")
        self.ended = []
