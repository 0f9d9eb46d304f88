"""What passed at a router, counted by Hops in three ways: as its neighbours count it, as its history says, and of its traffic."""
from collections import Counter

from history import config_of, own_of, steps
from rules import HEADER, PING, PUSH, QUERY, Rules

REQUESTS = (PING, PUSH, QUERY)
WAYS = ("sent", "got")
GREETING = 22


class Counts:
    """How many descriptors with which Hops its neighbours sent to a router and got from it, and how many requests it had before."""

    def __init__(self):
        self.of, self.duplicates = {way: Counter() for way in WAYS}, 0

    def add(self, other):
        for way in WAYS:
            self.of[way].update(other.of[way])
        self.duplicates += other.duplicates

    def __str__(self):
        rows = [f"{way} {hops} {count}" for way in WAYS for hops, count in sorted(self.of[way].items())]
        return "\n".join([*rows, f"duplicates {self.duplicates}", ""])

    @property
    def summary(self):
        return ", ".join([*(f"{self.of[way].total()} {way}" for way in WAYS), f"{self.duplicates} duplicates"])


def counts_in(text):
    """Those that a text says: on each line what was counted, its Hops, and how many."""
    counts = Counts()
    for line in text.splitlines():
        way, *numbers = line.split(" ")
        if way == "duplicates":
            counts.duplicates = int(numbers[0])
        else:
            counts.of[way][int(numbers[0])] = int(numbers[1])
    return counts


def of_history(lines):
    """Those of a history: what was admitted, what was taken, and what was dropped as a duplicate."""
    counts = Counts()
    for event, reply in steps(lines):
        if event[0] == "admit" and reply.startswith("admitted"):
            counts.of["sent"][int(event[2][36:38], 16)] += 1
        elif reply.startswith("taken "):
            counts.of["got"][int(reply[6:][36:38], 16)] += 1
        counts.duplicates += reply == "dropped duplicate"
    return counts


class Link:
    """A link of a capture: its bytes behind the greeting, and its connection once it is greeted."""

    def __init__(self, is_greeted):
        self.awaited, self.rest, self.connection = 0 if is_greeted else GREETING, b"", None

    def descriptors(self, piece):
        """The descriptors that are whole with these bytes."""
        passed = min(self.awaited, len(piece))
        self.awaited -= passed
        self.rest += piece[passed:]
        while len(self.rest) >= HEADER:
            end = HEADER + int.from_bytes(self.rest[HEADER - 4 : HEADER], "little")
            if len(self.rest) < end:
                return
            yield self.rest[:end]
            self.rest = self.rest[end:]


class Traffic:
    """A router's traffic as pcap_to_capture writes it down: what each link brings, and by the rules what comes of it."""

    def __init__(self, lines):
        lines = [line for line in lines if line and not line.startswith("#")]
        self.rules = Rules(config_of(lines[1], int(lines[0].split(" ")[1])), own_of(lines[2]))
        self.counts, self.links, self.admitted, self.connections = Counts(), [], [], 0
        for line in lines[3:]:
            self.take(*line.split(" "))

    def take(self, word, *fields):
        if word in ("open", "join"):
            self.links.append(Link(word == "join"))
            self.connect(self.links[-1])
        elif word == "data":
            link = self.links[int(fields[0]) - 1]
            found = list(link.descriptors(bytes.fromhex(fields[1])))
            self.connect(link)
            self.admitted += [(link.connection, it) for it in found]
            self.counts.of["sent"].update(it[18] for it in found)
        elif word == "route":
            self.route(*self.admitted[int(fields[0])])
        elif word == "close":
            self.rules.live.discard(int(fields[0]))

    def connect(self, link):
        if link.connection is None and not link.awaited:
            self.connections += 1
            link.connection = self.connections
            self.rules.live.add(link.connection)

    def route(self, connection, descriptor):
        kind, hops = descriptor[16], descriptor[18]
        self.counts.duplicates += kind in REQUESTS and (kind, descriptor[:16]) in self.rules.seen
        for to in self.rules.route(connection, descriptor):
            # the router's own Pong has none
            self.counts.of["got"][0 if kind == PING and to == connection else hops + 1] += 1


def of_traffic(lines):
    return Traffic(lines).counts
