"""What a history says of its traffic, counted in one pass, for `report`."""
from collections import Counter, defaultdict

from history import KINDS, REASONS, History, text_lines

NAMES = (*KINDS.values(), "unknown")
PLACE = {code: at for at, code in enumerate(KINDS)}
UNKNOWN = len(KINDS)
REFUSALS = ("busy", "crowded")
LOSSES = (*REASONS, *REFUSALS, "output full")
# The counters of `gn show --stats`, in its order.
COUNTERS = ("connected", "toomany", "closed", "admitted", "busy", "crowded", "routed", *REASONS, "taken", "sent")
MOST_BUCKETS = 256
# The first width of a bucket: a step, or a millisecond.
STEP, MILLISECOND = 1, 0.001
BYTE = {f"{value:02x}": value for value in range(256)}
ANSWER_TO = {0x01: 0x00, 0x81: 0x80}


class Series:
    """Counts over an axis whose length isn't known before: where there are too many buckets, two become one."""

    def __init__(self, width, numbers):
        self.width, self.numbers, self.rows = width, numbers, [[0] * numbers]

    def row(self, at):
        bucket = max(0, int(at / self.width))
        while bucket >= MOST_BUCKETS:
            pairs = zip(self.rows[::2], [*self.rows[1::2], [0] * self.numbers])
            self.rows = [[one + other for one, other in zip(*pair)] for pair in pairs]
            self.width *= 2
            bucket = int(at / self.width)
        while len(self.rows) <= bucket:
            self.rows.append([0] * self.numbers)
        return self.rows[bucket]


class Request:
    """A Ping or Query that was routed: when, how many answers went back, and when the first."""

    __slots__ = ("at", "answers", "first")

    def __init__(self, at):
        self.at, self.answers, self.first = at, 0, None


class Neighbour:
    """What one connection offered by kind, what of it was lost and why, and what it was sent."""

    def __init__(self):
        self.offered, self.losses = [0] * len(NAMES), Counter()
        self.admitted = self.sent = self.lost = self.taken = 0


class Survey:
    """All that a report says of one history. Times are seconds from its first one, or steps where it has none."""

    def __init__(self, name, history):
        self.name, self.config = name, history.config
        self.counters, self.losses, self.steps = Counter(), Counter(), 0
        self.hops, self.ttls = defaultdict(lambda: [0] * len(NAMES)), defaultdict(lambda: [0] * len(NAMES))
        self.neighbours, self.flights = defaultdict(Neighbour), {}
        self.requests = {0x00: {}, 0x80: {}}
        # of each Query that was admitted here: its least Hops
        self.reached = {}
        self.first_time, self.at, self.series = None, 0, None
        self.follow_all(history)
        self.names = {connection: history.name(connection) for connection in self.neighbours}
        del self.flights

    @property
    def has_times(self):
        return self.first_time is not None

    def follow_all(self, history):
        acts = {"admit": self.admit, "route": self.route, "take": self.take}
        for actor, event, reply, sends in history.steps():
            if self.series is None:
                self.first_time = history.time
                self.series = Series(STEP if history.time is None else MILLISECOND, len(NAMES) + 1)
            # a clock that was set back stands still until it has caught up
            self.at = self.steps if self.first_time is None else max(self.at, history.time - self.first_time)
            self.steps += 1
            word, _, rest = reply.partition(" ")
            self.counters[rest if word == "dropped" else word] += 1
            act = acts.get(event[0])
            if act:
                act(event, word, rest)
            for connection, mark, _ in sends:
                neighbour = self.neighbours[int(connection)]
                if mark == "+":
                    neighbour.sent += 1
                else:
                    neighbour.lost += 1
                    self.losses["output full"] += 1

    def admit(self, event, word, rest):
        connection, packet = int(event[1]), event[2]
        code, ttl, hops = bytes.fromhex(packet[32:38])
        place = PLACE.get(code, UNKNOWN)
        neighbour = self.neighbours[connection]
        neighbour.offered[place] += 1
        row = self.series.row(self.at)
        row[place] += 1
        self.hops[hops][place] += 1
        self.ttls[ttl][place] += 1
        if word == "admitted":
            neighbour.admitted += 1
            key = packet[:32].lower()
            self.flights[int(rest)] = neighbour, code, key
            if code == 0x80 and self.reached.get(key, 256) > hops:
                self.reached[key] = hops
        else:
            row[-1] += 1
            neighbour.losses[word] += 1
            self.losses[word] += 1

    def route(self, event, word, rest):
        neighbour, code, key = self.flights.pop(int(event[1]), (None, None, None))
        if word == "dropped":
            self.losses[rest] += 1
            self.series.row(self.at)[-1] += 1
            if neighbour:
                neighbour.losses[rest] += 1
        elif code in self.requests:
            self.requests[code].setdefault(key, Request(self.at))
        elif code in ANSWER_TO:
            request = self.requests[ANSWER_TO[code]].get(key)
            if request:
                request.answers += 1
                if request.first is None:
                    request.first = self.at

    def take(self, event, word, rest):
        self.neighbours[int(event[1])].taken += word == "taken"


def survey(path):
    """The survey of a file, which ends at its name without folders and `.history`."""
    with text_lines(path) as lines:
        return Survey(path.rpartition("/")[2].removesuffix(".history"), History(lines))
