"""Follows what a router does with what it admits: to which connections a descriptor is sent, by the rules of docs/FORMATS.md."""
from collections import OrderedDict

PING, PONG, PUSH, QUERY, QUERY_HIT = 0x00, 0x01, 0x40, 0x80, 0x81
REQUEST_OF = {PONG: PING, QUERY_HIT: QUERY}
HEADER, HIT_HEAD, RESULT_HEAD, SERVENT = 23, 11, 8, 16


def is_hit_sound(payload):
    """Whether as many results as a Query Hit names stand between its head and its servent."""
    end, at = len(payload) - SERVENT, HIT_HEAD
    if end < at:
        return False
    for _ in range(payload[0]):
        for start in (at + RESULT_HEAD, None):
            zero = payload.find(b"\0", at if start is None else start, end)
            if zero < 0:
                return False
            at = zero + 1
    return True


def is_sound(kind, payload):
    if kind == QUERY:
        return b"\0" in payload[2:]
    return kind != QUERY_HIT or is_hit_sound(payload)


class Rules:
    """A router's tables: which connections are live, which keys it remembers and whence, and the way to each servent."""

    def __init__(self, config, own):
        self.config, self.own = config, bytes.fromhex(own.servent)
        self.live, self.seen, self.servents = set(), OrderedDict(), OrderedDict()

    def keep(self, table, most, key, connection):
        table.pop(key, None)
        table[key] = connection
        if len(table) > most:
            table.popitem(last=False)

    def is_expired(self, ttl, hops):
        left = min(ttl, max(self.config.life - hops, 0)) if self.config.life else ttl
        return left <= 1 or hops == 255

    def route(self, connection, descriptor):
        """The connections that this descriptor of a connection is sent to; a Ping's own Pong is one of them."""
        kind, ttl, hops = descriptor[16:19]
        identifier, payload = descriptor[:16], descriptor[HEADER:]
        if not is_sound(kind, payload):
            return []
        if kind in (PING, QUERY):
            return self.spread(connection, (kind, identifier), self.is_expired(ttl, hops))
        if kind == PUSH:
            way = self.way_of_push(connection, (kind, identifier), payload[:SERVENT])
        else:
            way = self.seen.get((REQUEST_OF.get(kind), identifier))
        # 0 is the local servent, whose own request was answered
        if way != 0 and (way not in self.live or way == connection or self.is_expired(ttl, hops)):
            return []
        if kind == QUERY_HIT:
            self.keep(self.servents, self.config.servents, payload[-SERVENT:], connection)
        return [way] if way else []

    def spread(self, connection, key, is_expired):
        if key in self.seen:
            return []
        self.keep(self.seen, self.config.seen, key, connection)
        answered = [connection] if key[0] == PING and connection in self.live else []
        return answered + ([] if is_expired else sorted(self.live - {connection}))

    def way_of_push(self, connection, key, servent):
        if key in self.seen:
            return None
        self.keep(self.seen, self.config.seen, key, connection)
        return None if servent == self.own else self.servents.get(servent)
