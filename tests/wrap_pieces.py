"""What the stored inputs of tests/wrap_samples.py are made of, from A/324 and document 02: cases, and the one whose outer packets
tests/unwrap_samples.py reads back."""
from outer_pieces import inner
from tunnel import HEADER, INNER_MARK, OUTER_MARK, outer_packet, record
from wrap import TIME_MARK

ONES = 0xFFFFFFFF


class Case:
    """Records, the outer packets that they give at one payload size, and the lines that they bring; outer packets are numbered on from 0."""

    def __init__(self, size):
        self.size, self.records, self.outers, self.lines = size, [], [], []

    def ti(self, timestamp):
        self.records.append(TIME_MARK + timestamp.to_bytes(4, "big"))

    def ip(self, *packets, says=""):
        for packet in packets:
            self.records.append(record(INNER_MARK, packet))
            self.lines += [f"IP {len(self.records)} {says}"] if says else []

    def op(self, payload, offset=None, timestamp=0):
        """The next outer packet that is written."""
        self.outers.append(outer_packet(len(self.outers), payload, offset, timestamp=timestamp))

    def end(self, tail=b""):
        """All that comes, and the two things that the program must write. What is sent by a close alone is shorter."""
        assert all(len(outer) == HEADER + self.size for outer in self.outers[:-1])
        report = self.lines + ["END 15" if tail else "END 0", ""]
        return b"".join(self.records) + tail, b"".join(record(OUTER_MARK, outer) for outer in self.outers), "\n".join(report).encode()


SPLIT = [inner(size) for size in (100, 150, 28, 400, 90, 40, 32, 300, 60, 28, 500, 29)]


def split():
    """At 200 bytes: the fourth packet is in four outer packets, and the tenth begins with one."""
    case, (a, b, c, d, e, f, g, h, i, j, k, l) = Case(200), SPLIT
    case.ip(a, b, c)
    case.op(a + b[:100], 0)
    case.ti(1)
    case.ip(d)
    case.op(b[100:] + c + d[:122], 50)
    case.op(d[122:322], None, 1)
    case.ti(2)
    case.ip(e, f, g)
    case.op(d[322:] + e + f[:32], 78, 1)
    case.ip(h)
    case.op(f[32:] + g + h[:160], 8, 2)
    case.ti(3)
    case.ip(i)
    case.op(h[160:] + i, 140, 2)
    case.ti(4)
    case.ip(j, k)
    case.op(j + k[:172], 0, 4)
    case.op(k[172:372], None, 4)
    case.ti(5)
    case.ip(l)
    case.op(k[372:] + l, 128, 4)
    return case.end()
