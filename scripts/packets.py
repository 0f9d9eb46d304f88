"""Reads TCP streams out of a capture file, pcap or pcapng, for the scripts that study real traffic. It needs no other program.

Segments are put together as TCP says: what comes twice counts once, and what comes too early waits. Link layers: Ethernet with VLAN
tags, Linux' own two, loopback, and bare IP; IPv4 and IPv6. Fragments of IP are left out, and counted.
"""
import struct
from collections import namedtuple
from ipaddress import ip_address

from command import fail

# Byte order and units a second, by the first four bytes of a pcap file.
PCAP = {
    b"\xd4\xc3\xb2\xa1": ("<", 10**6),
    b"\xa1\xb2\xc3\xd4": (">", 10**6),
    b"\x4d\x3c\xb2\xa1": ("<", 10**9),
    b"\xa1\xb2\x3c\x4d": (">", 10**9),
}
SECTION = b"\x0a\x0d\x0d\x0a"
INTERFACE, SIMPLE = 1, 3
# Blocks of packets with their time, those of older files too: the interface, the time's halves, the lengths that are there and were.
TIMED = {2: "HxxIIII", 6: "IIIII"}
RESOLUTION, OFFSET = 9, 14
# What a frame has before its IP packet, by the link layer's number: the length, and where the protocol stands, -1 where nowhere.
LAYERS = {1: (14, 12), 113: (16, 14), 276: (20, 0), 0: (4, -1), 108: (4, -1), 12: (0, -1), 14: (0, -1), 101: (0, -1), 228: (0, -1), 229: (0, -1)}
VLANS = (b"\x81\x00", b"\x88\xa8")
INTERNET = (b"\x08\x00", b"\x86\xdd")
FIN, SYN, RST, ACK = 1, 2, 4, 16
TCP = 6
# The headers of IPv6 that may stand before that of TCP: options, routing, and destination's.
EXTENSIONS = (0, 43, 60)
FRAGMENT = 44
# The least bytes of an IP packet's header, by its version.
LEAST = {4: 20, 6: 40}
# A length of 0 stands where the card cut the packet up only later: such a packet is as long as its frame.
UNSAID = 2**32

Frame = namedtuple("Frame", "micros layer data is_whole")
Segment = namedtuple("Segment", "micros source to number confirmed flags data")


class Source:
    """A file that is read from its start to its end, maybe a pipe."""

    def __init__(self, file, name):
        self.file, self.name = file, name

    def read(self, size):
        data = self.file.read(size)
        if len(data) != size:
            fail(f"{self.name}: the file is cut short")
        return data

    def read_or_end(self, size):
        """So many bytes, or nothing at the end of the file."""
        data = self.file.read(size)
        if data and len(data) != size:
            fail(f"{self.name}: the file is cut short")
        return data


def frames(source):
    """The frames of a file, in its order."""
    magic = source.read_or_end(4)
    if magic in PCAP:
        yield from frames_of_pcap(source, *PCAP[magic])
    elif magic == SECTION:
        try:
            yield from frames_of_pcapng(source)
        except (IndexError, ValueError, struct.error):
            # a block that is too short for what it has to say, or of an interface that isn't there
            fail(f"{source.name}: a block of the file can't be read")
    else:
        fail(f"{source.name}: it is no pcap and no pcapng file")


def frames_of_pcap(source, order, units):
    layer = struct.unpack(order + "HHiIII", source.read(20))[-1] & 0xFFFF
    head = struct.Struct(order + "IIII")
    while record := source.read_or_end(16):
        seconds, parts, size, whole = head.unpack(record)
        yield Frame(seconds * 10**6 + parts * 10**6 // units, layer, source.read(size), size == whole)


def blocks(source):
    """The blocks of a pcapng file behind the first four bytes: byte order, number, and what stands in each."""
    number, order = SECTION, "<"
    while number:
        if number == SECTION:
            sizes = source.read(8)
            order = "<" if sizes[4:] == b"\x4d\x3c\x2b\x1a" else ">"
            size = struct.unpack(order + "I", sizes[:4])[0]
            yield order, SECTION, sizes[4:] + source.read(size - 16)
        else:
            size = struct.unpack(order + "I", source.read(4))[0]
            yield order, struct.unpack(order + "I", number)[0], source.read(size - 12)
        source.read(4)
        number = source.read_or_end(4)


def clock_of(order, options):
    """The units a second of an interface's clock, and when it began, in seconds since 1970, by its options."""
    units, began = 10**6, 0
    while len(options) >= 4:
        code, size = struct.unpack(order + "HH", options[:4])
        if code == RESOLUTION and size == 1:
            units = 2 ** (options[4] & 0x7F) if options[4] & 0x80 else 10 ** options[4]
        elif code == OFFSET and size == 8:
            began = struct.unpack(order + "q", options[4:12])[0]
        options = options[4 + size + -size % 4 :]
    return units, began


def frames_of_pcapng(source):
    interfaces, latest = [], None
    for order, number, body in blocks(source):
        if number == SECTION:
            interfaces = []
        elif number == INTERFACE:
            layer, _, most = struct.unpack(order + "HHI", body[:8])
            interfaces.append((layer, most, *clock_of(order, body[8:])))
        elif number in TIMED:
            at, high, low, size, whole = struct.unpack(order + TIMED[number], body[:20])
            layer, _, units, began = interfaces[at]
            latest = began * 10**6 + (high << 32 | low) * 10**6 // units
            data = body[20 : 20 + size]
            yield Frame(latest, layer, data, len(data) == whole)
        elif number == SIMPLE:
            # it has no time of its own
            whole = struct.unpack(order + "I", body[:4])[0]
            layer, most, _, _ = interfaces[0]
            data = body[4 : 4 + min(whole, most or whole)]
            yield Frame(latest, layer, data, len(data) == whole)


def packet_of(frame):
    """The IP packet of a frame, None where it has none."""
    if frame.layer not in LAYERS:
        fail(f"frames of link layer {frame.layer} can't be read")
    size, at = LAYERS[frame.layer]
    data = frame.data
    # a tag stands where the protocol ends the header: of Ethernet, and of Linux' first one
    while at + 2 == size and data[at : at + 2] in VLANS:
        size, at = size + 4, at + 4
    if at >= 0 and data[at : at + 2] not in INTERNET:
        return None
    return data[size:]


def refuse_cut(frame):
    """Ends the program where a frame that isn't there whole is a frame that was cut."""
    if not frame.is_whole:
        fail("the packets were cut when they were captured; tcpdump -s 0 keeps them whole")


def internet_of(packet):
    """What the header of an IP packet says: the protocol, where its data begins, where it ends, whence and whither it goes, and
    whether it is a fragment."""
    if packet[0] >> 4 == 4:
        length = int.from_bytes(packet[2:4], "big") or UNSAID
        is_fragment = int.from_bytes(packet[6:8], "big") & 0x3FFF != 0
        return packet[9], (packet[0] & 15) * 4, length, packet[12:16], packet[16:20], is_fragment
    protocol, size = packet[6], 40
    length = 40 + int.from_bytes(packet[4:6], "big") if packet[4:6] != b"\0\0" else UNSAID
    while protocol in EXTENSIONS and size + 2 <= len(packet):
        protocol, size = packet[size], size + 8 + packet[size + 1] * 8
    return protocol, size, length, packet[8:24], packet[24:40], protocol == FRAGMENT


def segment_of(frame):
    """The TCP segment of a frame, None where it has none, and whether it is a fragment of one."""
    packet = packet_of(frame)
    least = LEAST.get(packet[0] >> 4) if packet else None
    if least is None:
        return None, False
    if len(packet) < least:
        refuse_cut(frame)
        return None, False
    protocol, size, length, source, to, is_fragment = internet_of(packet)
    if protocol != TCP or is_fragment:
        return None, is_fragment
    if len(packet) < length:
        refuse_cut(frame)
    head = packet[size : size + 20]
    if len(head) < 20:
        return None, False
    source_port, to_port, number, confirmed, offset, flags = struct.unpack("!HHIIBB", head[:14])
    data = packet[size + (offset >> 4) * 4 : length]
    return Segment(frame.micros, (source, source_port), (to, to_port), number, confirmed, flags, data), False


def after(number, other):
    """How far a sequence number lies after another; less than 0 where before it."""
    return (number - other + 2**31) % 2**32 - 2**31


class Direction:
    """What one end of a stream sends: the number of the byte that is due, what came before its turn, and where it ends, if it does."""

    def __init__(self):
        self.due, self.early, self.end, self.missing = None, {}, None, 0

    @property
    def gap(self):
        """How many bytes are missing before whatever came early, be it the end."""
        ahead = [after(it, self.due) for it in (*self.early, *([] if self.end is None else [self.end]))]
        return self.missing or max(0, min(ahead, default=0))

    @property
    def is_over(self):
        """Whether nothing comes any more: the end is there, and all before it that ever comes."""
        return self.end is not None and (self.missing > 0 or after(self.end, self.due) <= 0)

    def finish(self, number):
        """It ends before this number."""
        if self.due is None:
            self.due = number
        self.end = number

    def take(self, number, data):
        """The bytes that are in order now."""
        if self.due is None:
            self.due = number
        if self.missing:
            return b""
        if after(number, self.due) > 0:
            if len(data) > len(self.early.get(number, b"")):
                self.early[number] = data
            return b""
        parts = [data[-after(number, self.due) :] if number != self.due else data]
        self.due = (self.due + len(parts[0])) % 2**32
        while self.early:
            ready = [it for it in self.early if after(it, self.due) <= 0]
            if not ready:
                break
            for it in ready:
                part = self.early.pop(it)[-after(it, self.due) or None :] if it != self.due else self.early.pop(it)
                parts.append(part)
                self.due = (self.due + len(part)) % 2**32
        return b"".join(parts)

    def confirm(self, number):
        """The other end has all before this number: what the file lacks of it never comes."""
        if (self.early or self.end is not None) and after(number, self.due) > 0:
            self.missing = self.gap
            self.early = {}


class Stream:
    """A TCP stream: who called (None where the file begins later), who sent what, and how it ended."""

    def __init__(self, one, other):
        self.ends, self.caller, self.first_number = (one, other), None, None
        self.directions = {one: Direction(), other: Direction()}
        self.finished = set()
        self.is_reset = False
        self.begins = {one: b"", other: b""}

    def other(self, end):
        return self.ends[1] if end == self.ends[0] else self.ends[0]


# The longest beginning of a stream that is looked at to know what it is.
BEGINNING = 64
Event = namedtuple("Event", "micros stream what sender data")


def beginnings(streams, ends, segment):
    """What it is that a segment begins a stream, if it does: the first one of its ends, or a further call between these."""
    former, is_call = streams.get(ends), segment.flags & (SYN | ACK) == SYN
    is_known = former is not None and (former.first_number is not None or former.finished)
    if former is None or (is_call and is_known and former.first_number != segment.number):
        stream = streams[ends] = Stream(*ends)
        if former and not former.finished:
            # who calls anew has nothing more to say in the stream before
            yield Event(segment.micros, former, "closed", segment.source, b"")
        if not is_call:
            yield Event(segment.micros, stream, "found", None, b"")


def closings(stream, segment):
    """The ends of a stream that send no more with this segment: by a reset at once, else once all before the end is there."""
    for end in stream.ends:
        is_reset = end == segment.source and segment.flags & RST
        if (is_reset or stream.directions[end].is_over) and end not in stream.finished and not stream.is_reset:
            stream.finished.add(end)
            stream.is_reset = bool(is_reset)
            yield Event(segment.micros, stream, "closed", end, b"")


def events(source):
    """What happens in the streams of a file, in its order: `opened`, `data` of a sender, `closed` where either end sends no more."""
    streams, fragments = {}, 0
    for frame in frames(source):
        segment, is_fragment = segment_of(frame)
        fragments += is_fragment
        if segment is None:
            continue
        micros, sender, to, number, confirmed, flags, data = segment
        ends = (sender, to) if sender < to else (to, sender)
        yield from beginnings(streams, ends, segment)
        stream = streams[ends]
        direction = stream.directions[sender]
        if flags & SYN:
            if not flags & ACK and stream.caller is None:
                stream.caller, stream.first_number = sender, number
                yield Event(micros, stream, "opened", sender, b"")
            number = (number + 1) % 2**32
            if direction.due is None:
                direction.due = number
        if flags & ACK:
            stream.directions[to].confirm(confirmed)
        ready = direction.take(number, data) if data else b""
        if ready:
            stream.begins[sender] += ready[:BEGINNING] if len(stream.begins[sender]) < BEGINNING else b""
            yield Event(micros, stream, "data", sender, ready)
        if flags & FIN:
            direction.finish((number + len(data)) % 2**32)
        yield from closings(stream, segment)
    if fragments:
        yield Event(0, None, "fragments", None, fragments)


def name_of(end):
    """ADDRESS:PORT of one end of a stream."""
    address = ip_address(end[0])
    return f"[{address}]:{end[1]}" if address.version == 6 else f"{address}:{end[1]}"


def end_of(text):
    """ADDRESS and PORT, None where it isn't given, of such a text; None where it can't be read."""
    host, colon, port = text.rpartition(":")
    is_bare = not colon or ("[" not in text and text.count(":") > 1) or text.endswith("]")
    try:
        address = ip_address((text if is_bare else host).strip("[]")).packed
        return address, None if is_bare else int(port)
    except ValueError:
        return None
