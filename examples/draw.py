#!/usr/bin/env python3
"""Draws a schedule with its notes: `examples/draw.py SCHEDULE OUTPUT > PICTURE.svg`.

OUTPUT is what `smallbank play` gives for SCHEDULE; docs/FORMATS.md describes both. The sequencer and the replicas are columns,
time goes down, and each event has a row. Events that come again and again with other numbers share their rows, with how often
they came. A line that can't be read is told with its number, and ends the program with status 1; an output that fails, with 3."""
import argparse
import re
import sys
from collections import Counter, defaultdict
from dataclasses import dataclass, field
from pathlib import Path
from xml.sax.saxutils import escape

# The words of each event, and its notes beside `nothing`.
EVENTS = {
    "ask": ("client request call", "new N|repeat N|mismatch N|log full"),
    "append": ("client request call", "new N|repeat N|mismatch N|log full"), "sync": ("", "synced N"), "crash": ("kept", "crashed N"),
    "send": ("replica entry", "sent N"), "resend": ("replica", "resent FEW"),
    "to": ("replica place", "repeat N|gap N|held N|busy N|accepted N"), "next": ("replica", "busy N|accepted N"),
    "ack": ("replica", "sent N"), "answer": ("replica entry", "sent N"), "have": ("replica", "sent N"),
    "from": ("replica place", "recorded N|has N|kept N|repeat N"),
    "take": ("replica worker index", "hand full|took N"), "finish": ("replica worker", "finished N REPLY|stranger N"),
    "mark": ("replica how", "busy|marked N|store fault"), "restart": ("replica", "restarted N"),
    "cut": ("replica", "pending N|cut N"), "donor": ("replica", "donor N N"), "give": ("replica taker", "gave N"),
    "adopt": ("replica place", "behind N|adopted N"), "audit": ("replica other", "busy N|apart N N|same MONEY N"),
}
NUMBER, MONEY = r"(?:0|[1-9]\d{0,9})", r"-?\d+\.\d\d"
CUSTOMER = f"[a-z0-9_]{{1,20}} {MONEY} {MONEY}"
SPELLED = {"call": "[-.a-z0-9_ ]+", "how": "ok|old|new", "N": NUMBER, "FEW": r"\d|1[0-6]", "MONEY": MONEY, "REPLY": "[-.a-z0-9 ]+"}
SENDS = {"send": "to", "resend": "to", "ack": "from", "answer": "from", "have": "from", "give": "state"}
COMES = {"to": "to", "from": "from", "adopt": "state"}
AT_SEQUENCER = {"ask", "append", "sync", "crash", "send", "resend", "from", "donor"}

# What a row says before its note, and which words may vary where events come again and again.
SAYS = {"ask": "ask {client} {request} {call}", "append": "append {client} {request} {call}", "crash": "crash {kept}",
        "send": "send entry {entry}", "resend": "resend {entries}", "next": "next", "ack": "ack: log's length",
        "answer": "answer {entry}", "have": "have: checkpoint's length", "take": "worker {worker}", "finish": "worker {worker}",
        "mark": "mark {how}", "donor": "for replica {replica}:", "give": "give to replica {taker}",
        "audit": "audit {replica} {other}"}
VARIES = {"ask": "request call", "append": "request call", "send": "entry", "to": "place", "from": "place", "answer": "entry"}
SYNCS = {"ask", "sync", "crash"}  # after these no ask waits for its sync
TROUBLE = {"mismatch", "log", "gap", "busy", "hand", "stranger", "store", "behind", "apart", "pending"}
LONGEST, OFTEN = 4, 4  # of events that come again, so many at most, and at least so often

WIDTH, LEFT, RIGHT, TOP, STEP = 1000, 320, 780, 212, 20
HALF, MARGIN, LETTER = 8, 58, 7  # half a column's band, where words may begin, and how wide a letter is, about
STYLE = """text{font:12px Arial,Helvetica,'Liberation Sans','DejaVu Sans',sans-serif;fill:#222;paint-order:stroke;stroke:#fff;stroke-width:3px}
.right{text-anchor:end}.middle{text-anchor:middle}.small{font-size:10px;fill:#666}.title{font-size:18px}tspan,.head{font-weight:bold}
.trouble tspan{fill:#b3261e}.nothing,.nothing tspan{fill:#777}path{fill:none}.sequencer{fill:#ececec}.life0{fill:#cfe0f3}
.life1{fill:#f6e2bd}.to{stroke:#1f5fa8}.from{stroke:#187a4d}.state{stroke:#8031a7;stroke-width:2.6px;stroke-dasharray:8 3}
.again{stroke-dasharray:2 3}.job{fill:#555}.stranger{fill:#fff;stroke:#b3261e}
.on{fill:#222;stroke:#222}.off{fill:#fff;stroke:#222}.restart{stroke:#b3261e;stroke-width:4px}.adopt{stroke:#8031a7;stroke-width:4px}
.audit{stroke:#777;stroke-dasharray:1 3;stroke-width:2px}.bracket{stroke:#999}.refused{fill:#fff;stroke:#b3261e}.ask{fill:#666}
.unsynced{fill:#fff;stroke:#bbb;stroke-dasharray:3 3}.pale{fill:#bbb}.sync{stroke:#444;stroke-width:3px}
.crash{stroke:#b3261e;stroke-width:3px}.lost,.lost tspan{fill:#888;text-decoration:line-through}"""
# How arrows end.
HEADS = {"to": 'd="M-8 -4L0 0L-8 4z" style="fill:#1f5fa8"', "from": 'd="M-8 -4L0 0L-8 4z" style="fill:#187a4d"',
         "state": 'd="M-8 -4L0 0L-8 4z" style="fill:#8031a7"', "lost": 'd="M-4 -4l8 8m0 -8l-8 8" style="stroke:#b3261e;stroke-width:2px"'}
# Signs by name, each around a middle of 0 0, with what the legend says of them.
SIGNS = {
    "to-a-replica": ('<path class="to" d="M-14 0h28" marker-end="url(#to)"/>', "frame to a replica"),
    "from-a-replica": ('<path class="from" d="M-14 0h28" marker-end="url(#from)"/>', "frame to the sequencer"),
    "a-state": ('<path class="state" d="M-14 0h28" marker-end="url(#state)"/>', "state to a replica"),
    "again": ('<path class="to again" d="M-14 0h28" marker-end="url(#to)"/>', "delivered again"),
    "undelivered": ('<path class="to" d="M-14 0H4" marker-end="url(#lost)"/>', "never delivered"),
    "lives": ('<path class="life0" d="M-14 -7h14v14h-14z"/><path class="life1" d="M0 -7h14v14h-14z"/>', "lives of a replica"),
    "restarted": ('<path class="restart" d="M-10 0h20"/>', "restart"),
    "adopted": ('<path class="adopt" d="M-10 0h20"/>', "adopted state"),
    "job": ('<path class="job" d="M-2 -7h4v14h-4z"/>', "job in a worker's hand"),
    "stranger": ('<path class="stranger" d="M-2 -7h4v14h-4z"/>', "the same, a stranger at its end"),
    "marked": ('<path class="on" d="M-4 -4h8v8h-8z"/>', "checkpoint put into the store"),
    "unmarked": ('<path class="off" d="M-4 -4h8v8h-8z"/>', "the put failed"),
    "held": ('<circle class="off" r="4"/>', "entry held until its turn"),
    "next": ('<circle class="on" r="4"/>', "turn of a held entry"),
    "refused": ('<path class="refused" d="M0 -5l5 9h-10z"/>', "refused: gap or busy"),
    "ask": ('<circle class="ask" r="3"/>', "ask, also for a donor"),
    "cut": ('<path class="off" d="M0 -6l6 6l-6 6l-6 -6z"/>', "cut"),
    "audit": ('<path class="audit" d="M-14 0h28"/>', "audit of two replicas"),
    "append": ('<circle class="pale" r="3"/>', "pale: not synced yet"),
    "synced": ('<path class="sync" d="M-10 0h20"/>', "sync"),
    "crashed": ('<path class="crash" d="M-12 0l4 -5l4 9l4 -9l4 9l4 -9l4 5"/>', "crash of the sequencer"),
    "struck": ('<text class="lost middle" y="4">ask</text>', "lost in a crash"),
}
# By a note's first word, or else by the event.
SIGN_OF = {"marked": "marked", "restarted": "restarted", "adopted": "adopted", "held": "held", "gap": "refused", "busy": "refused",
           "nothing": "", "synced": "synced", "crashed": "crashed", "ask": "ask", "append": "ask", "donor": "ask", "next": "next",
           "cut": "cut", "mark": "unmarked"}


class Fault(Exception):
    """A file with the number of a line that can't be read, and why."""


@dataclass
class Event:
    """An event with its line in the schedule, its words by name, its note, whether a crash took its ask, and where its row is drawn."""
    line: int
    text: str
    words: dict
    note: str = ""
    is_lost: bool = False
    y: int = 0

    def __post_init__(self):
        self.kind, self.replica = self.text.split(" ")[0], self.words.get("replica")

    @property
    def said(self):
        return self.note.split(" ")[0]

    @property
    def number(self):
        """The note's first number."""
        return int(re.search(r"\d+", self.note)[0])

    @property
    def sign(self):
        """The name of its sign, if it has one."""
        is_pale = self.kind == "append" and self.said == "new"
        return "append" if is_pale else SIGN_OF.get(self.said, SIGN_OF.get(self.kind))


@dataclass
class Schedule:
    """What both files say: how many replicas and workers, the events, and where each replica is at the end."""
    path: Path
    nodes: int
    workers: int
    events: list = field(default_factory=list)
    ends: list = field(default_factory=list)


@dataclass
class Flight:
    """A frame or a state: between which columns it goes, where it was sent, and where it came."""
    style: str
    columns: tuple
    sent: Event
    came: list


def read_lines(path):
    """The lines of a file."""
    return path.read_bytes().decode("latin-1").removesuffix("\n").split("\n")


def read_schedule(path):
    """A schedule, without its notes."""
    lines = read_lines(path)
    head = re.fullmatch(f"nodes ({NUMBER}) workers ({NUMBER})", lines[0])
    if not head or not all(1 <= int(it) <= 16 for it in head.groups()):
        raise Fault(f"{path}: line 1: no head of up to 16 nodes with up to 16 workers")
    if "begin" not in lines:
        raise Fault(f"{path}: line {len(lines) + 1}: no begin")
    begin = lines.index("begin") + 1
    for place, line in enumerate(lines[1 : begin - 1], 2):
        if not re.fullmatch(CUSTOMER, line):
            raise Fault(f"{path}: line {place}: no customer with savings and checking")
    events = [read_event(path, place, line) for place, line in enumerate(lines[begin:], begin + 1)]
    return Schedule(path, *map(int, head.groups()), events)


def read_event(path, place, line):
    """The event that a line spells."""
    kind = line.split(" ")[0]
    if kind not in EVENTS:
        raise Fault(f"{path}: line {place}: no such event: {line}")
    names = EVENTS[kind][0].split()
    spelled = re.fullmatch(" ".join([kind, *(f"({SPELLED.get(it, NUMBER)})" for it in names)]), line)
    if not spelled:
        raise Fault(f"{path}: line {place}: {kind} wants {', '.join(names) or 'nothing'}: {line}")
    return Event(place, line, {name: int(it) if it.isdigit() else it for name, it in zip(names, spelled.groups())})


def read_output(path, schedule):
    """Adds to a schedule the notes of its events, and where each replica is at the end."""
    lines = read_lines(path)
    for place, event in enumerate(schedule.events, 1):
        event.note = lines[place - 1] if place <= len(lines) else ""
        notes = re.sub("[A-Z]+", lambda it: f"(?:{SPELLED[it[0]]})", EVENTS[event.kind][1])
        if not re.fullmatch(f"nothing|{notes}", event.note):
            raise Fault(f"{path}: line {place}: no note of `{event.text}`: {event.note}")
    for place, line in list(enumerate(lines, 1))[len(schedule.events) :]:
        told = re.fullmatch(f"replica {NUMBER} (length {NUMBER} (?:idle|busy))|{CUSTOMER}|(total {MONEY})", line)
        if not told or not told[1] and not schedule.ends:
            raise Fault(f"{path}: line {place}: not where a replica is: {line}")
        if told[1]:
            schedule.ends.append(told[1])
        elif told[2]:
            schedule.ends[-1] += f" {line}"
    if len(schedule.ends) != schedule.nodes:
        raise Fault(f"{path}: line {len(lines)}: {len(schedule.ends)} replicas in place of {schedule.nodes}")


class Story:
    """What goes across rows: all that was sent, the jobs in hands, where each replica's lives begin, and where asks weren't synced."""

    def __init__(self, schedule):
        self.schedule, self.flights, self.jobs, self.lives, self.pales = schedule, [], [], defaultdict(list), []
        self.sent, self.hands, self.recorded, self.unsynced = defaultdict(list), {}, Counter(), []
        for event in schedule.events:
            if event.note != "nothing" and "replica" in event.words:
                self.follow(event)
            self.log(event)
        self.jobs += [(*hand, took, None) for hand, took in self.hands.items()]
        self.pales += [(event, None) for event in self.unsynced[:1]]

    def log(self, event):
        """What an event does to the log: an ask joins it, all of it is synced, or a crash takes some of its end."""
        if event.kind == "append" and event.said == "new":
            self.unsynced.append(event)
        if event.kind == "crash":
            self.recorded.clear()
            for ask in self.unsynced:
                ask.is_lost = ask.number > event.number
        if event.kind in SYNCS:
            self.pales += [(ask, event) for ask in self.unsynced[:1]]
            self.unsynced = []

    def want(self, holds, event, why):
        if not holds:
            raise Fault(f"{self.schedule.path}: line {event.line}: {why}: {event.text}")

    def follow(self, event):
        """One event that names a replica, and doesn't note `nothing`."""
        for word in {"replica", "taker", "other"} & set(event.words):
            self.want(event.words[word] < self.schedule.nodes, event, "no such replica")
        hand = event.replica, event.words.get("worker", 1)
        self.want(1 <= hand[1] <= self.schedule.workers, event, "no such worker")
        if event.kind in SENDS:
            self.send(event)
        elif event.kind in COMES:
            places, place = self.sent[COMES[event.kind], event.replica + 1], event.words["place"]
            self.want(1 <= place <= len(places), event, "nothing was sent with this place")
            places[place - 1].came.append(event)
        elif event.said == "took":
            self.hands[hand] = event
        elif event.kind == "finish":
            self.want(hand in self.hands, event, "the hand is empty")
            self.jobs.append((*hand, self.hands.pop(hand), event))
        if event.said == "recorded":
            self.recorded[event.replica] = event.number
        if event.said in ("restarted", "adopted"):
            self.lives[event.replica].append(event)

    def send(self, event):
        """Frames or a state that are sent, each with the next place."""
        style, count = SENDS[event.kind], 1
        columns = {"to": (0, event.replica + 1), "from": (event.replica + 1, 0),
                   "state": (event.replica + 1, event.words.get("taker", 0) + 1)}[style]
        places = self.sent[style, columns[1] or columns[0]]
        if event.kind == "resend":
            count, first = event.number, self.recorded[event.replica] + 1
            numbers = ["nothing", f"entry {first}", f"entries {first}–{first + count - 1}"]
            event.words["entries"] = numbers[min(count, 2)]
        else:
            self.want(event.number == len(places) + 1, event, f"its place is {len(places) + 1}")
        flights = [Flight(style, columns, event, []) for _ in range(count)]
        places += flights
        self.flights += flights


def shape(event):
    """What events have in common that come again and again."""
    varies = VARIES.get(event.kind, "").split()
    return event.kind, event.said, event.is_lost, *(value for name, value in event.words.items() if name not in varies)


def rows_of(events):
    """The events of each row; with the first row of some that came again and again, how many rows they are and how often they came."""
    shapes, at = [shape(it) for it in events], 0
    while at < len(events):
        for period in range(1, LONGEST + 1):
            times = 1
            while shapes[at : at + period] == shapes[at + times * period : at + (times + 1) * period]:
                times += 1
            if times >= OFTEN:
                break
        else:
            period, times = 1, 1
        for step in range(period):
            yield events[at + step : at + period * times : period], (period, times) if step == 0 and times > 1 else None
        at += period * times


def span(values):
    """What stands for some words: `3` where all are one, `3–9` for numbers in a row, `3 … 9` for others, and else dots."""
    words = list(dict.fromkeys(map(str, values)))
    if len(words) == 1:
        return words[0]
    if not all(map(str.isdigit, words)):
        return "…"
    first, last = int(words[0]), int(words[-1])
    return f"{first}–{last}" if words == [str(it) for it in range(first, last + 1)] else f"{first} … {last}"


def label(row):
    """What a row says, and its note, which is bold."""
    first = row[0]
    if first.note == "nothing":
        return first.text, "nothing"
    says = SAYS.get(first.kind, "").format(**{name: span(it.words[name] for it in row) for name in first.words})
    if first.kind in SENDS:
        return says, ""
    return says, first.note if len({it.note for it in row}) == 1 else f"{first.said} {span(it.number for it in row)}"


class Picture:
    """The elements of a picture, each over those before it."""

    def __init__(self, schedule):
        self.schedule, self.story, self.parts = schedule, Story(schedule), []
        self.gap = min(290, (RIGHT - LEFT) // schedule.nodes)
        self.lane = min(7, self.gap // 4 // schedule.workers or 1)
        self.rows = list(rows_of(schedule.events))
        for place, (row, _) in enumerate(self.rows):
            for event in row:
                event.y = TOP + place * STEP
        self.bottom = TOP + (len(self.rows) + schedule.nodes) * STEP

    def x(self, column):
        return LEFT + column * self.gap

    def band(self, kind, x, begin, end, width=2 * HALF):
        self.parts.append(f'<rect class="{kind}" x="{x}" y="{begin}" width="{width}" height="{end - begin}"/>')

    def path(self, kind, way, more=""):
        self.parts.append(f'<path class="{kind}" d="{way}"{more}/>')

    def text(self, kind, x, y, words):
        self.parts.append(f'<text class="{kind}" x="{x}" y="{y + 4}">{words}</text>')

    def write(self, column, y, says, note, kind="", about=""):
        """Words beside a column: left of the sequencer's, right of a replica's. What has no room is cut."""
        beside = HALF + 6 + (self.lane * self.schedule.workers if column else 0)
        x = self.x(column) + beside if column else LEFT - beside
        over = len(says) + len(note) - int((WIDTH - x if column else x - MARGIN) / LETTER)
        if over > 0 and len(says) > len(note):
            says = says[: max(len(says) - over - 1, 0)] + "…"
        elif over > 0:
            note = note[: max(len(note) - over - 1, 0)] + "…"
        words = " ".join(filter(None, [escape(says), f"<tspan>{escape(note)}</tspan>" if note else ""]))
        self.text(kind if column else f"{kind} right", x, y, f"<title>{escape(about)}</title>{words}" if about else words)

    def legend(self):
        """What the signs mean, four in a line."""
        for place, (name, (_, words)) in enumerate(SIGNS.items()):
            x, y = 30 + place % 4 * 246, 52 + place // 4 * 18
            self.parts.append(f'<use href="#{name}" x="{x}" y="{y}"/>')
            self.text("", x + 22, y, words)
        self.text("small", 16, 158, "Numbers on the left are lines of the schedule, and bold words are notes. An ask names its client, "
                  "its request and the call.")

    def columns(self):
        """The sequencer, and the lives of each replica."""
        self.text("head right", LEFT + HALF, TOP - 26, "sequencer")
        self.band("sequencer", LEFT - HALF, TOP - 14, self.bottom - 6)
        for begin, end in sorted({(ask.y, until.y if until else self.bottom - 6) for ask, until in self.story.pales}):
            if begin != end:
                self.band("unsynced", LEFT - HALF, min(begin, end), max(begin, end))
        for replica in range(self.schedule.nodes):
            x = self.x(replica + 1)
            self.text("head middle", x, TOP - 26, f"replica {replica}" if self.gap > 70 else replica)
            ends = [TOP - 14, *(it.y for it in self.story.lives[replica]), self.bottom - 6]
            for life, (begin, end) in enumerate(zip(ends, ends[1:])):
                self.band(f"life{life % 2}", x - HALF, begin, end)

    def arrow(self, kind, columns, begin, end, head):
        """An arrow from one column to another, or round to the same one; one that is lost ends on its way."""
        start, stop = map(self.x, columns)
        side = HALF if start <= stop else -HALF
        stop = start + (stop - start) // 4 if head == "lost" else stop
        way = f"L{stop - side} {end}" if start != stop else f"C{start + 60} {begin} {start + 60} {end} {stop + side} {end}"
        self.path(kind, f"M{start + side} {begin}{way}", f' marker-end="url(#{head})"')

    def flights(self):
        """All frames and states: those between the same two rows are one arrow."""
        drawn = Counter()
        for it in self.story.flights:
            if not it.came:
                drawn[it.style, it.columns, it.sent.y, it.sent.y + 14, "lost"] += 1
            for time, event in enumerate(it.came):
                drawn[f"{it.style} again" if time else it.style, it.columns, it.sent.y, event.y, it.style] += 1
        for (kind, columns, begin, end, head), times in drawn.items():
            self.arrow(kind, columns, begin, end, head)
            start, stop = map(self.x, columns)
            if times > 1 and head == "lost":
                self.text("small", start + (stop - start) // 4, end, f"{times} lost")
            elif times > 1:
                self.text("small middle", (start + stop) // 2, (begin + end) // 2, f"×{times}")

    def jobs(self):
        """Jobs in hands, from the row where they were taken to the one where they were given back."""
        drawn = {(replica, worker, took.y, back.y if back else self.bottom - 6, back is not None and back.said == "stranger")
                 for replica, worker, took, back in self.story.jobs}
        for replica, worker, begin, end, is_stranger in sorted(drawn):
            x = self.x(replica + 1) + HALF + 3 + (worker - 1) * self.lane
            self.band("stranger" if is_stranger else "job", x, min(begin, end), max(begin, end), max(self.lane - 3, 1))

    def row(self, row, block):
        """The sign and the words of a row, its line in the schedule, and a bracket where rows come again and again."""
        first, (says, note) = row[0], label(row)
        at_sequencer = first.kind in AT_SEQUENCER or first.replica >= self.schedule.nodes
        column = 0 if at_sequencer else first.replica + 1
        if first.kind == "audit" and note != "nothing":
            ends = sorted((column, first.words["other"] + 1))
            self.path("audit", f"M{self.x(ends[0]) - 12} {first.y}H{self.x(ends[1]) + 12}")
            column = ends[1]
        elif name := first.sign:
            self.parts.append(f'<use href="#{name}" x="{self.x(column)}" y="{first.y}"/>')
        about = f"line {first.line}: {first.text} | {first.note}"
        if len(row) > 1:
            about = f"{len(row)} lines from {first.line} to {row[-1].line}"
        kind = "lost" if first.is_lost else "trouble" if first.said in TROUBLE else first.said if first.said == "nothing" else ""
        self.write(column, first.y - (6 if first.said == "gave" else 0), says, note, kind, about)
        self.text("small right", 26, first.y, first.line)
        if block:
            end = first.y + (block[0] - 1) * STEP
            self.path("bracket", f"M56 {first.y - 7}h-4V{end + 7}h4")
            self.text("small right", 50, (first.y + end) // 2, f"×{block[1]}")

    def draw(self, title):
        """The whole picture, as text."""
        events, sent = len(self.schedule.events), len(self.story.flights)
        lost, asks = sum(not it.came for it in self.story.flights), sum(it.is_lost for it in self.schedule.events)
        about = (f"A sequencer, replicas: {self.schedule.nodes}, workers of each: {self.schedule.workers}, and from the top down "
                 f"{events} events with their notes. {sent} frames and states are sent, and {lost} of them are never delivered."
                 f"{f' Asks that crashes take: {asks}.' if asks else ''}")
        self.text("title", 16, 26, escape(title))
        for part in (self.legend, self.columns, self.flights, self.jobs):
            part()
        for row, block in self.rows:
            self.row(row, block)
        for replica, end in enumerate(self.schedule.ends):
            self.write(replica + 1, self.bottom + (replica - self.schedule.nodes) * STEP, "", end)
        self.text("small right", 26, self.bottom - self.schedule.nodes * STEP, "end")
        heads = [f'<marker id="{name}" viewBox="-9 -9 18 18" markerWidth="18" markerHeight="18" orient="auto" markerUnits="userSpaceOnUse">'
                 f"<path {drawn}/></marker>" for name, drawn in HEADS.items()]
        signs = [f'<g id="{name}">{drawn}</g>' for name, (drawn, _) in SIGNS.items()]
        size = f'viewBox="0 0 {WIDTH} {self.bottom}" width="{WIDTH}" height="{self.bottom}"'
        return "\n".join([f'<svg xmlns="http://www.w3.org/2000/svg" {size} role="img">', f"<title>{escape(title)}</title>",
                          f"<desc>{about}</desc>", f"<style>{STYLE}</style>", "<defs>", *heads, *signs, "</defs>",
                          '<rect width="100%" height="100%" fill="#fff"/>', *self.parts, "</svg>\n"])


def main():
    words = argparse.ArgumentParser(description="Draws a schedule with its notes, as SVG on standard output.")
    words.add_argument("schedule", type=Path)
    words.add_argument("output", type=Path, help="what `smallbank play` gives for it")
    options = words.parse_args()
    try:
        schedule = read_schedule(options.schedule)
        read_output(options.output, schedule)
        picture = Picture(schedule)
    except (Fault, OSError) as fault:
        sys.exit(f"draw: {fault}")
    write_out(picture.draw(options.schedule.stem.replace("_", " ").capitalize()).encode(errors="replace"))


def write_out(data):
    """Writes to standard output. An output that fails ends the program with status 3, and one that was closed without a word."""
    try:
        with open(1, "wb", closefd=False) as output:
            output.write(data)
    except OSError as fault:
        if not isinstance(fault, BrokenPipeError):
            print(f"draw: standard output: {fault.strerror}", file=sys.stderr)
        sys.exit(3)


if __name__ == "__main__":
    main()
