"""Reads the text of a history line by line, for the scripts that show or follow one.

It takes and refuses what docs/FORMATS.md says; `scripts/check_scripts` compares its forms with the tables there. Memory stays flat:
a step is handed on as it is read. Comments of two forms are read too: `# t SECONDS.MICROS` is the time of the steps behind it, and
`# link N ADDRESS:PORT called` or `accepted` names the neighbour of the link whose reader is actor N.
"""
import re
import sys
from collections import namedtuple

from command import fail

EVENTS = ("connect", "close CONN", "admit CONN HEX", "route TICKET", "take CONN", "originate HEX")
# Behind the last three the sends stand, one or more or none.
REPLIES = (
    "connected CONN",
    "toomany",
    "closed COUNT",
    "admitted TICKET",
    "busy",
    "crowded",
    "dropped REASON",
    "taken HEX",
    "routed local",
    "routed away",
    "sent",
)
REASONS = ("unknownkind", "malformed", "duplicate", "noroute", "routegone", "backtosender", "expired")
KINDS = {0x00: "Ping", 0x01: "Pong", 0x40: "Push", 0x80: "Query", 0x81: "Query Hit"}
# The length of a kind whose payload has just one, by the kind in hex.
FIXED = {"00": 0, "01": 14, "40": 26}
LONGEST = 65_536
HEADER = 46
# What the numbers of `config` are called and bound by, in their order; the last two stand in later versions.
LIMITS = {
    "neighbours": (1, 256),
    "seen": (1, 65_536),
    "servents": (1, 65_536),
    "stage": (1, 4_096),
    "out": (1, 4_096),
    "steps": (1, 4_294_967_295),
    "life": (0, 255),
    "crowd": (0, 4_096),
}
Config = namedtuple("Config", LIMITS)
Own = namedtuple("Own", "servent address port files kilobytes")
Neighbour = namedtuple("Neighbour", "address way")

NUMBER = (
    "(?:[0-9]{1,9}|[0-3][0-9]{9}|4[01][0-9]{8}|42[0-8][0-9]{7}|429[0-3][0-9]{6}|4294[0-8][0-9]{5}|42949[0-5][0-9]{4}"
    "|429496[0-6][0-9]{3}|4294967[01][0-9]{2}|42949672[0-8][0-9]|429496729[0-5])"
)
HEX = "[0-9a-fA-F]{46,}"
FIELDS = {"CONN": NUMBER, "COUNT": NUMBER, "TICKET": NUMBER, "HEX": HEX, "REASON": f"(?:{'|'.join(REASONS)})"}


def pattern(form):
    return " ".join(FIELDS.get(word, word) for word in form.split(" "))


# The events that have a packet, as their last word.
PACKET_EVENTS = ("admit", "originate")
EVENT = "|".join(map(pattern, EVENTS))
REPLY = "|".join(map(pattern, REPLIES[:-3]))
SENDING = f"(?:{'|'.join(REPLIES[-3:])})(?: {NUMBER}[+-]{HEX})*"
STEP = re.compile(f"({NUMBER}) ({EVENT}) = ({REPLY}|{SENDING})")
# The sends of a reply: connection, + where the packet was queued, - where it wasn't, and the packet's hex.
SENDS = re.compile(r" ([0-9]+)([+-])([0-9a-fA-F]+)")
TIME = re.compile(r"# t ((?:0|[1-9][0-9]{0,11})\.[0-9]{6})\n?")
LINK = re.compile(r"# link ([0-9]{1,10}) (\S+) (called|accepted)\n?")
ID = re.compile("[0-9a-fA-F]{32}")


class Sizes(dict):
    """The digits of a whole descriptor, by those of its kind and of its length; 0 where the length isn't valid."""

    def __missing__(self, digits):
        length = int.from_bytes(bytes.fromhex(digits[2:]), "little")
        if length > LONGEST or length != FIXED.get(digits[:2], length):
            return 0
        return self.setdefault(digits, HEADER + 2 * length)


SIZES = Sizes()


def is_descriptor(packet):
    """Whether hex of at least a header is one whole descriptor of a valid length."""
    return len(packet) == SIZES[packet[32:34] + packet[38:46]]


def kind_of(packet):
    """The name of a descriptor's kind."""
    return KINDS.get(int(packet[32:34], 16), "unknown")


def number_of(field, least=0, most=2**32 - 1):
    """A number of a text, None where it can't be read."""
    return int(field) if re.fullmatch("[0-9]{1,10}", field) and least <= int(field) <= most else None


def config_of(line, version):
    """The numbers of a `config` line, None where it can't be read; those that a version doesn't have are 0."""
    word, *fields = line.split(" ")
    limits = list(LIMITS.values())[: 5 + version]
    if word != "config" or len(fields) != len(limits):
        return None
    numbers = [number_of(field, *limit) for field, limit in zip(fields, limits)]
    return None if None in numbers else Config(*numbers, *[0] * (3 - version))


def own_of(line):
    """The router's own servent, None where the line can't be read."""
    fields = line.split(" ")
    if len(fields) != 6 or fields[0] != "own" or not ID.fullmatch(fields[1]):
        return None
    parts = [number_of(part, 0, 255) for part in fields[2].split(".")]
    numbers = [number_of(fields[3], 0, 65_535), number_of(fields[4]), number_of(fields[5])]
    if len(parts) != 4 or None in parts or None in numbers:
        return None
    return Own(fields[1].lower(), ".".join(map(str, parts)), *numbers)


def text_lines(file=0):
    """The lines of a file, standard input by default, each byte a character and none but a line feed an end."""
    return open(file, encoding="latin-1", newline="\n")


class History:
    """A history as far as it is read: `config` and `own` from the start; with the steps their `time` in seconds (None without a
    clock), the `number` of the line, and the `neighbours` that are known, by their connection."""

    def __init__(self, lines):
        self.lines, self.number, self.time, self.links, self.neighbours = iter(lines), 0, None, {}, {}
        title = self.head("header", re.compile("gnutella-history ([123])").fullmatch)
        self.version = int(title[1])
        self.config = self.head("config", lambda line: config_of(line, self.version))
        self.own = self.head("own", own_of)

    def fault(self, cause):
        fail(f"line {self.number}: {cause}")

    def kept(self):
        """The lines that say something, without their ends; comments are read on the way."""
        for line in self.lines:
            self.number += 1
            if line[0] == "#":
                self.remark(line)
            elif line != "\n":
                yield line[:-1] if line[-1] == "\n" else line
        self.number += 1

    def remark(self, line):
        found = TIME.fullmatch(line)
        if found:
            self.time = float(found[1])
            return
        found = LINK.fullmatch(line)
        if found:
            self.links[int(found[1])] = Neighbour(found[2], found[3])

    def head(self, cause, read):
        line = next(self.kept(), None)
        found = read(line) if line is not None else None
        if found is None:
            self.fault(cause)
        return found

    def steps(self):
        """The actor, the event's words, the reply's text, and its sends of each step, in order. A send is the connection, + or -,
        and the packet's hex."""
        lines, read = self.kept(), STEP.fullmatch
        for line in lines:
            found = read(line)
            if not found:
                if line != "end":
                    self.fault("field")
                if next(lines, None) is not None:
                    self.fault("end")
                return
            actor, event, reply = found.groups()
            actor, event, begins, sends = int(actor), event.split(" "), reply[0], ()
            # by the first letter, as most lines of a long history are of few forms
            if begins in "rs":
                sends = SENDS.findall(reply)
                for _, _, packet in sends:
                    if len(packet) != SIZES[packet[32:34] + packet[38:46]]:
                        self.fault("field")
            elif begins == "t" and reply[1] == "a" and not is_descriptor(reply[6:]):
                self.fault("field")
            elif actor in self.links and reply[:9] == "connected":
                # a link has one connection at most
                self.neighbours[int(reply[10:])] = self.links.pop(actor)
            if event[0] in PACKET_EVENTS and not is_descriptor(event[-1]):
                self.fault("field")
            yield actor, event, reply, sends
        self.fault("end")

    def name(self, connection):
        """What a connection is called: its neighbour's address where that is known."""
        neighbour = self.neighbours.get(connection)
        return f"{connection}, {neighbour.address} {neighbour.way}" if neighbour else f"connection {connection}"


def steps(lines):
    """The words of each step's event, and its reply's text, in order."""
    for _, event, reply, _ in History(lines).steps():
        yield event, reply
