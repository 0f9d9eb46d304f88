"""Pcap files for the checks of scripts: an example with its segments in another order."""
import struct

# The two segments of examples/three_servents.pcap that hold one Push.
HALVES = (43, 45)


def shuffled(path):
    """The example with the second half of its Push before the first, and the first twice."""
    data = path.read_bytes()
    head, records, at = data[:24], [], 24
    while at < len(data):
        end = at + 16 + struct.unpack("<I", data[at + 8 : at + 12])[0]
        records.append(data[at:end])
        at = end
    first, second = (number - 1 for number in HALVES)
    # both before the acknowledgement of the first, behind which nothing that is missing comes any more
    records[first:first] = [records.pop(second), records[first]]
    return head + b"".join(records)
