#!/usr/bin/env python3
"""Writes what the program unwrap must write, and ends as it must: the tunnel's reader once more, in Python, from A/324 and document 02 alone.

    python3 tests/tunnel.py < OUTER_PACKETS > STORED_PACKETS

It also has a reader of stored packets, and a small sender for tests/unwrap_samples.py.
"""
import bisect
import itertools
import struct
import sys
from typing import NamedTuple

SHORTEST, LONGEST = 28, 1500    # an inner packet
HEADER, OUTER = 12, 1500        # an outer packet's header, and the longest outer packet
OUTPUT, MOST = 4096, 3203       # the least output that a call takes, and the most that it stores there
STLTP = 97                      # the payload type, Table 6.2
INNER_MARK, OUTER_MARK = b"IP", b"OP"


class Answer(NamedTuple):
    """The number of a refusal, a repeat, the packets stored, the outer packets that a gap left out, and the bytes thrown away."""
    number: int = 0
    repeat: bool = False
    packets: tuple = ()
    gap: int = 0
    lost: int = 0

    def stored(self):
        return b"".join(record(INNER_MARK, packet) for packet in self.packets)

    def says(self):
        """What a report says of it: nothing, if all went well."""
        words = (self.number, self.number), (self.repeat, "repeat"), (self.gap, f"gap {self.gap}"), (self.lost, f"lost {self.lost}")
        return " ".join(str(word) for applies, word in words if applies)


class Tunnel:
    """The reader's state, fresh until it has begun. Any may be set up; a part that can't become a packet isn't held."""

    def __init__(self, begun=False, last=0, part=b""):
        self.begun, self.last, self.part = begun, last, part

    def held(self):
        return self.part if begins_packet(self.part) and goes_on(self.part) else b""

    def read(self, outer, output=OUTPUT):
        """The answer to an outer packet, with so many bytes of output lent."""
        if output < OUTPUT:
            return Answer(1)
        if not HEADER <= len(outer) <= OUTER or outer[0] != 0x80 or outer[1] & 127 != STLTP:
            return Answer(16)
        sequence, offset = struct.unpack(">2xH6xH", outer[:HEADER])
        if self.begun and sequence == self.last:
            return Answer(repeat=True)
        gap = (sequence - self.last - 1) % 65536 if self.begun else 0
        marker, payload, before = outer[1] >> 7, outer[HEADER:], self.held()
        running = b"" if gap else before
        number, packets, part, lost = taken_apart(running, marker, offset, payload)
        answer = Answer(number, False, packets, gap, lost + len(before) - len(running))
        assert len(before) + len(payload) == sum(map(len, packets)) + len(part) + answer.lost
        assert all(begins_packet(packet) and total(packet) == len(packet) for packet in packets) and len(answer.stored()) <= MOST
        self.begun, self.last, self.part = True, sequence, part
        return answer


def total(data):
    """The total length that an IPv4 packet says; it has to have four bytes."""
    return int.from_bytes(data[2:4], "big")


def begins_packet(data):
    """Is there a byte, and nothing in these bytes against a packet that begins with them?"""
    return len(data) > 0 and data[0] >> 4 == 4 and (len(data) < 4 or SHORTEST <= total(data) <= LONGEST)


def goes_on(data):
    """Does the packet that begins here need more bytes than these?"""
    return len(data) < 4 or total(data) > len(data)


def taken_apart(running, marker, offset, payload):
    """Number, packets, the part that is left, and the bytes lost, for a payload that comes behind a running packet, or behind none."""
    if not marker:
        return 0, *run_on(running, payload)
    if offset >= len(payload):
        return 17, (), b"", len(running) + len(payload)
    packets, part, lost = run_on(running, payload[:offset])
    more, rest, thrown = walk(payload[offset:])
    return 0, packets + more, rest, len(part) + lost + thrown


def run_on(running, data):
    """The running packet with all that comes before a marked start, or all that comes: it has to end with that, or to need more."""
    whole = running + data
    if not running or not begins_packet(whole):
        return (), b"", len(whole)
    if goes_on(whole):
        return (), whole, 0
    return ((whole,), b"", 0) if total(whole) == len(whole) else ((), b"", len(whole))


def walk(data):
    """From a marked start on: packet follows packet, until one goes on or can't be one."""
    packets = ()
    while begins_packet(data) and not goes_on(data):
        packets += (data[:total(data)],)
        data = data[total(data):]
    return (packets, data, 0) if begins_packet(data) else (packets, b"", len(data))


def record(mark, content):
    return struct.pack(">2sH", mark, len(content)) + content


def contents(mark, data):
    """What the records hold, in order, and 0; up to an unknown mark or a cut record, and 15."""
    found, at = [], 0
    while at < len(data):
        end = at + 4 + int.from_bytes(data[at + 2:at + 4], "big")
        if data[at:at + 2] != mark or end > len(data):
            return found, 15
        found.append(data[at + 4:end])
        at = end
    return found, 0


def stored_packets(store):
    """The packets of a store, in order, and 0; up to a record that is refused, and 15."""
    packets, number = contents(INNER_MARK, store)
    good = list(itertools.takewhile(lambda packet: SHORTEST <= len(packet) <= LONGEST, packets))
    return good, number if good == packets else 15


def unwrap(data):
    """What the program writes on standard output and on standard error, and its exit status."""
    tunnel, out, report = Tunnel(), [], ""
    outers, status = contents(OUTER_MARK, data)
    for number, outer in enumerate(outers, 1):
        answer = tunnel.read(outer)
        out.append(answer.stored())
        report += f"OP {number} {answer.says()}\n" if answer.says() else ""
    report += f"held {len(tunnel.held())}\n" if tunnel.held() else ""
    return b"".join(out), f"{report}END {status}\n".encode(), status


def outer_packet(sequence, payload, offset=None, first=0x80, kind=STLTP, timestamp=0, others=0x4000, idle=0):
    """It's marked if it has an offset; idle is the offset field if it has none. The two bytes before that field are the others."""
    second, offset = (kind, idle) if offset is None else (128 | kind, offset)
    return struct.pack(">BBHIHH", first, second, sequence % 65536, timestamp, others, offset) + payload


def send(packets, sizes, first=0, **fields):
    """Outer packets, numbered from the first on, with payloads of these sizes, cut from the packets laid end to end."""
    data, outers, at = b"".join(packets), [], 0
    *starts, _ = itertools.accumulate(map(len, packets), initial=0)
    for sequence, size in enumerate(sizes, first):
        start = bisect.bisect_left(starts, at)
        marked = start < len(starts) and starts[start] < at + size
        outers.append(outer_packet(sequence, data[at:at + size], starts[start] - at if marked else None, **fields))
        at += size
    return outers


if __name__ == "__main__":
    packets, report, status = unwrap(sys.stdin.buffer.read())
    sys.stdout.buffer.write(packets)
    sys.stderr.buffer.write(report)
    sys.exit(status)
