#!/usr/bin/env python3
"""Writes what the program wrap must write, and ends as it must: the tunnel's writer once more, in Python, from A/324 and document 02 alone.

    python3 tests/wrap.py [SIZE] < TIMESTAMPS_AND_STORED_PACKETS > OUTER_PACKETS
"""
import itertools
import re
import sys
from typing import NamedTuple

sys.dont_write_bytecode = True

from tunnel import HEADER, INNER_MARK, LONGEST, OUTER_MARK, SHORTEST, outer_packet, record, total

LEAST, MOST = 64, 1400  # a payload
TIME_MARK = b"TI"
REFUSED = "wrap: refused with 18\n"


class Piece(NamedTuple):
    """Bytes of one packet: whether they begin with its first one, and the timestamp that it came with."""
    data: bytes
    first: bool
    timestamp: int

    def cut(self, at):
        """The bytes before a place and those behind it, each as a piece, if there are any."""
        parts = Piece(self.data[:at], self.first, self.timestamp), Piece(self.data[at:], self.first and at == 0, self.timestamp)
        return [[part] if part.data else [] for part in parts]


class Wrapper:
    """The writer's state: pieces wait, in order. A call answers with the number of a refusal, which changes nothing, and what it wrote."""

    def __init__(self, size, first=0):
        self.size, self.next, self.pieces = size, first, []

    def left(self):
        return size_of(self.pieces)

    def write(self, packet, timestamp, output):
        """With so many bytes of output lent."""
        if not LEAST <= self.size <= MOST:
            return 18, b""
        if not may_be_carried(packet):
            return 19, b""
        return self.send([*self.pieces, Piece(packet, True, timestamp)], output, self.size)

    def close(self, output):
        if not LEAST <= self.size <= MOST:
            return 18, b""
        return self.send(self.pieces, output, 1)

    def send(self, pieces, output, least):
        """Full payloads; and one with what is left, if that is not less than the least."""
        outers = []
        while size_of(pieces) >= least:
            payload, pieces = split(pieces, self.size)
            outers.append(outer(self.next + len(outers), payload))
        written = b"".join(outers)
        if output < len(written):
            return 1, b""
        self.next, self.pieces = (self.next + len(outers)) % 65536, pieces
        return 0, written


def size_of(pieces):
    return sum(len(piece.data) for piece in pieces)


def may_be_carried(packet):
    return len(packet) >= 4 and packet[0] >> 4 == 4 and SHORTEST <= total(packet) <= LONGEST and total(packet) == len(packet)


def split(pieces, size):
    """The first so many bytes of the pieces, and the others."""
    before, behind = [], []
    for piece in pieces:
        taken, rest = piece.cut(size - size_of(before))
        before, behind = before + taken, behind + rest
    return before, behind


def outer(sequence, pieces):
    """The outer packet for a payload of these pieces."""
    places = itertools.accumulate((len(piece.data) for piece in pieces), initial=0)
    offset = next((place for place, piece in zip(places, pieces) if piece.first), None)
    return outer_packet(sequence, b"".join(piece.data for piece in pieces), offset, timestamp=pieces[0].timestamp)


def records(data):
    """Mark and content of each record, in order; None in place of one that is refused or cut short, which is the last."""
    at = 0
    while at < len(data):
        mark, size = data[at:at + 2], int.from_bytes(data[at + 2:at + 4], "big")
        if mark == TIME_MARK:
            start, end = at + 2, at + 6
        else:
            start, end = at + 4, at + 4 + size
        if end > len(data) or mark != TIME_MARK and not (mark == INNER_MARK and SHORTEST <= size <= LONGEST):
            yield None
            return
        yield mark, data[start:end]
        at = end


def wrap(data, size=MOST):
    """What the program writes on standard output and on standard error, and its exit status."""
    wrapper, timestamp, out, report, status = Wrapper(size), 0, [], "", 0
    for number, found in enumerate(records(data), 1):
        if found is None:
            status = 15
        elif found[0] == TIME_MARK:
            timestamp = int.from_bytes(found[1], "big")
        else:
            refusal, written = wrapper.write(found[1], timestamp, 1 << 16)
            out += [record(OUTER_MARK, written[at:at + HEADER + size]) for at in range(0, len(written), HEADER + size)]
            report += f"IP {number} {refusal}\n" if refusal else ""
    _, written = wrapper.close(1 << 16)
    out += [record(OUTER_MARK, written)] if written else []
    return b"".join(out), f"{report}END {status}\n".encode(), status


def size_said(word):
    """The payload size that a word says, or None if it is refused."""
    if not re.fullmatch("[0-9]+", word) or len(word.lstrip("0")) > 4:
        return None
    size = int(word[-4:])
    return size if LEAST <= size <= MOST else None


def words():
    """Words, and the payload size that each says, or None."""
    taken = {"64": 64, "0064": 64, "65": 65, "1399": 1399, "1400": 1400, "00000000000000000000001400": 1400, 1000 * "0" + "64": 64}
    # some are taken modulo 65,536, 2^32 or 2^64; the last ones have digits, but others
    refused = ["", "0", "63", "1401", "0063", "01401", "9999", "65600", "4294967360", "18446744073709551680", 1000 * "9", 5000 * "9", 1000 * "0",
               "6 4", " 64", "64 ", "64\n", "\n64", "+64", "-64", "--64", "64x", "x64", "0x64", "64.", "64.0", "1e2", "1_00", "1,400", "-h",
               "\uFF16\uFF14", "\u0666\u0664"]
    return taken | dict.fromkeys(refused)


def check_words():
    for word, size in words().items():
        assert size_said(word) == size, word


def main(given):
    if len(given) > 1:
        sys.stderr.write("wrap: takes one word at most, a payload size\n")
        return 2
    size = size_said(given[0]) if given else MOST
    if size is None:
        sys.stderr.write(REFUSED)
        return 18
    outers, report, status = wrap(sys.stdin.buffer.read(), size)
    sys.stdout.buffer.write(outers)
    sys.stderr.buffer.write(report)
    return status


if __name__ == "__main__":
    sys.exit(main(sys.argv[1:]))
