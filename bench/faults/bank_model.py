"""A bank as docs/FORMATS.md says it, call by call: what `bench/faults/keeping` compares a served bank's outcomes with."""
import pathlib
import sys

sys.path.insert(0, str(pathlib.Path(__file__).resolve().parents[2] / "examples" / "cluster"))
import wire  # noqa: E402

client = wire.client
BALANCE, DEPOSIT, SAVINGS, AMALGAMATE, CHECK, PAY = range(1, 7)
SHOWN, DONE, PENALISED, NO_CUSTOMER, SAME_CUSTOMER, NEGATIVE, WOULD_OVERDRAW, OVER_LIMIT = range(8)
REPLIED, MISMATCH = range(2)
PENALTY = 100
FIELDS = dict(client.CALLS.values())


def cents(text):
    return int(text.replace(b".", b""))


def fields_of(call):
    """The kind of a call, its names, and its amount, 0 if it has none."""
    place, names, amount = 1, [], 0
    for kind in FIELDS[call[0]]:
        end = place + (1 + call[place] if kind == "N" else 8)
        if kind == "N":
            names.append(call[place + 1 : end])
        else:
            amount = int.from_bytes(call[place:end], "big", signed=True)
        place = end
    return call[0], names, amount


class Bank:
    """The rows after a log, and the reply to each of its entries."""

    def __init__(self, opening):
        rows = (line.split(b" ") for line in opening.splitlines()[:-1])
        self.rows = {name: (cents(savings), cents(checking)) for name, savings, checking in rows}
        self.entries = {}  # call and reply by key

    def take(self, ask):
        """Executes the next entry of the log."""
        self.entries[ask.client, ask.request] = ask.call, self.reply(*fields_of(ask.call))

    def outcome(self, ask):
        """The Outcome frame of an ask whose key is in the log; else None."""
        if (ask.client, ask.request) not in self.entries:
            return None
        call, reply = self.entries[ask.client, ask.request]
        said = (REPLIED, *reply) if call == ask.call else (MISMATCH, 0, 0)
        return client.OUTCOME.pack(client.OUTCOME.size - 2, client.TAG_OUTCOME, ask.client, ask.request, *said)

    def reply(self, kind, names, amount):
        """Executes a call. Its reply as code and total."""
        if any(name not in self.rows for name in names):
            return NO_CUSTOMER, 0
        if len(set(names)) < len(names):
            return SAME_CUSTOMER, 0
        if amount < 0 and kind != SAVINGS:
            return NEGATIVE, 0
        savings, checking = self.rows[names[0]]
        if kind == BALANCE:
            return SHOWN, savings + checking
        changed, code = self.change(kind, names, amount)
        if kind == SAVINGS and savings + amount < 0 or kind == PAY and checking < amount:
            return WOULD_OVERDRAW, 0
        if any(abs(balance) > client.LIMIT for row in changed.values() for balance in row):
            return OVER_LIMIT, 0
        self.rows |= changed
        return code, 0

    def change(self, kind, names, amount):
        """The rows that a call would change, as they would be, and what it would answer."""
        savings, checking = self.rows[names[0]]
        code = PENALISED if kind == CHECK and savings + checking < amount else DONE
        row = {DEPOSIT: (savings, checking + amount), SAVINGS: (savings + amount, checking), AMALGAMATE: (0, 0),
               CHECK: (savings, checking - amount - PENALTY * (code == PENALISED)), PAY: (savings, checking - amount)}[kind]
        changed = {names[0]: row}
        if len(names) > 1:
            theirs, sum_there = self.rows[names[1]]
            changed[names[1]] = theirs, sum_there + (amount if kind == PAY else savings + checking)
        return changed, code

    def state(self):
        """The lines of all rows and their total."""
        lines = [b"%b %b %b\n" % (name, *(wire.money(each).encode() for each in row)) for name, row in self.rows.items()]
        return b"".join(lines) + b"total %b\n" % wire.money(sum(map(sum, self.rows.values()))).encode()
