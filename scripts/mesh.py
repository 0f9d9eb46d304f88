"""Reads the histories of several routers, and joins their connections by what one took and the other was offered."""
from collections import defaultdict
from pathlib import Path

from command import fail
from history import History, kind_of, text_lines

PING, PONG, PUSH, QUERY, QUERY_HIT = 0x00, 0x01, 0x40, 0x80, 0x81
# The kind of request that a Pong or a Query Hit answers.
ANSWERED = {PONG: PING, QUERY_HIT: QUERY}


class Packet:
    """A descriptor, by its hex."""

    __slots__ = ("text", "kind", "ttl", "hops")

    def __init__(self, text):
        self.text = text = text.lower()
        self.kind, self.ttl, self.hops = bytes.fromhex(text[32:38])

    @property
    def id(self):
        return self.text[:32]

    @property
    def payload(self):
        return self.text[46:]

    @property
    def key(self):
        return self.kind, self.id

    @property
    def name(self):
        return kind_of(self.text)

    @property
    def servent(self):
        """The servent of a Query Hit, or the one that a Push names."""
        return self.payload[-32:] if self.kind == QUERY_HIT else self.payload[:32]


class Offer:
    """A descriptor that a connection offered: at which step, what was answered, and at which step it was routed, and how."""

    __slots__ = ("connection", "packet", "step", "answer", "routed_at", "outcome", "sends")

    def __init__(self, connection, packet, step, answer):
        self.connection, self.packet, self.step, self.answer = connection, packet, step, answer
        self.routed_at = self.outcome = None
        self.sends = []

    @property
    def is_admitted(self):
        return self.answer == "admitted"


class Send:
    """A packet that a step sent to a connection: as which of all that were queued to it, or None where it had no room."""

    __slots__ = ("step", "connection", "packet", "place")

    def __init__(self, step, connection, packet, place):
        self.step, self.connection, self.packet, self.place = step, connection, packet, place


class Router:
    """A router's history: what each connection offered, what was queued to it, and what was taken from it, in order; and at which step
    each was closed."""

    def __init__(self, path):
        self.name = Path(path).name.removesuffix(".history")
        self.offers, self.queued, self.taken = defaultdict(list), defaultdict(list), defaultdict(list)
        self.originated, self.connections, self.joined, self.closes, self.flights = [], [], {}, {}, {}
        with text_lines(path) as lines:
            history = History(lines)
            self.config, self.own = history.config, history.own
            for index, (_, event, reply, sends) in enumerate(history.steps()):
                self.step(index, event, reply.split(" "), sends)

    def step(self, index, event, words, sends):
        """A step of the history: its event's words, its reply's, and what it sends."""
        if event[0] == "connect" and words[0] == "connected":
            self.connections.append(int(words[1]))
        elif event[0] == "admit":
            offer = Offer(int(event[1]), Packet(event[2]), index, words[0])
            self.offers[offer.connection].append(offer)
            if offer.is_admitted:
                self.flights[int(words[1])] = offer
        elif event[0] == "route":
            offer = self.flights.get(int(event[1]))
            if offer is None:
                fail(f"{self.name}: step {index} routes what wasn't admitted")
            self.route(offer, index, words[:2], sends)
        elif event[0] == "originate":
            self.originated.append(Offer(0, Packet(event[1]), index, "sent"))
            self.route(self.originated[-1], index, words[:1], sends)
        elif event[0] == "take" and words[0] == "taken":
            self.taken[int(event[1])].append((index, Packet(words[1])))
        elif event[0] == "close":
            self.closes[int(event[1])] = index

    def route(self, offer, index, outcome, sends):
        """What a step sent of what was offered."""
        offer.routed_at, offer.outcome = index, outcome
        for to, mark, text in sends:
            queue = self.queued[int(to)]
            offer.sends.append(Send(index, int(to), Packet(text), len(queue) if mark == "+" else None))
            if mark == "+":
                queue.append(offer.sends[-1])

    def is_expired(self, packet):
        """Whether a descriptor isn't passed on, under the limit on its life: at most one forward is left of it, or it has Hops 255."""
        life = self.config.life
        left = min(packet.ttl, max(0, life - packet.hops)) if life else packet.ttl
        return left <= 1 or packet.hops == 255

    def own_pong(self, ping):
        """The router's own Pong to a Ping, in hex."""
        payload = self.own.port.to_bytes(2, "little") + bytes(map(int, self.own.address.split(".")))
        payload += self.own.files.to_bytes(4, "little") + self.own.kilobytes.to_bytes(4, "little")
        return f"{ping.id}01{min(255, ping.hops + 1):02x}000e000000{payload.hex()}"


def carried(giver, c, taker, d):
    """How many packets went from giver's connection c to taker's d, if what d offered is a beginning of what was taken from c."""
    offered, taken = taker.offers[d], giver.taken[c]
    if len(offered) > len(taken) or any(offer.packet.text != packet.text for offer, (_, packet) in zip(offered, taken)):
        return None
    return len(offered)


def join(routers):
    """Joins the connections of different routers where each was offered a beginning of what the other took, those first that carried most."""
    found = []
    for i, first in enumerate(routers):
        for j, second in enumerate(routers[i + 1 :], i + 1):
            for c in first.connections:
                for d in second.connections:
                    both = carried(first, c, second, d), carried(second, d, first, c)
                    if None not in both and sum(both):
                        found.append((-sum(both), i, c, j, d))
    for _, i, c, j, d in sorted(found):
        first, second = routers[i], routers[j]
        if c not in first.joined and d not in second.joined:
            first.joined[c], second.joined[d] = (second, d), (first, c)


def read(paths):
    """The routers of these files, joined."""
    routers = [Router(path) for path in paths]
    if len({router.name for router in routers}) < len(routers):
        fail("two histories have one name")
    join(routers)
    return routers
