"""What the stored inputs of tests/unwrap_samples.py are made of: inner packets, and cases, from A/324 and document 02. The packets serve
tests/wrap_pieces.py too."""
import struct

from tunnel import INNER_MARK, OUTER_MARK, outer_packet, record


class Case:
    """Records, the packets that they give, and the lines that they bring; outer packets are numbered on from the first."""

    def __init__(self, first=0):
        self.next, self.records, self.packets, self.lines = first, [], [], []

    def record(self, outer, *packets, says=""):
        self.records.append(record(OUTER_MARK, outer))
        self.packets += packets
        self.lines += [f"OP {len(self.records)} {says}"] if says else []

    def op(self, payload, offset=None, *packets, says="", skip=0, **fields):
        """The next outer packet, or one that comes after so many have been left out."""
        self.record(outer_packet(self.next + skip, payload, offset, **fields), *packets, says=says)
        self.next += skip + 1

    def again(self):
        self.record(self.records[-1][4:], says="repeat")

    def end(self, held=0, tail=b""):
        """All that comes, and the two things that the program must write."""
        self.lines += [f"held {held}"] if held else []
        report = self.lines + ["END 15" if tail else "END 0", ""]
        return b"".join(self.records) + tail, b"".join(record(INNER_MARK, packet) for packet in self.packets), "\n".join(report).encode()


def inner(size, first=0x45, says=None):
    """So many bytes that begin like an IPv4 packet, and say their length, or another."""
    return struct.pack(">BBH", first, 0, size if says is None else says) + bytes((7 * i + size) % 256 for i in range(4, size))


A, B, C, LONG = inner(28), inner(40), inner(100), inner(1500)


def notice(text):
    """A UDP packet to the address and port of a physical layer pipe (A/324, 9.2), with its IPv4 header's checksum."""
    head = struct.pack(">BBHHHBB", 0x45, 0, 28 + len(text), 0, 0, 16, 17)
    ends = bytes([192, 0, 2, 7, 239, 0, 51, 48])
    check = 65535 - sum(struct.unpack(">9H", head + ends)) % 65535
    return head + struct.pack(">H", check) + ends + struct.pack(">HHHH", 30000, 30000, 8 + len(text), 0) + text


NOTICES = [notice(text) for text in (
    b"High water 04:12, 3.9 m", b"Wind west 6, gusts 9", b"Low water 10:31, 0.7 m", b"Swell 1.2 m, falling", b"Fog bank, pier 4 shut",
    b"High water 16:40, 3.8 m", b"Crew boat sails 17:00", b"Low water 22:55, 0.8 m", b"Wind north 4, calm", b"Pier 4 open from 18:00",
    b"High water 05:03, 4.0 m")]
