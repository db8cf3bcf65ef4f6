#!/usr/bin/env python3
"""Prints what the log program must write: the desk and log of documents 01 and 02 once more, in Python, from the documents alone.

    python3 tests/log.py < LOG
"""
import sys

sys.dont_write_bytecode = True

from reader import LONGEST, read


class Slot:
    """Empty when it holds nothing and isn't spoiled; only a slot that holds something has a last number."""

    def __init__(self):
        self.spoiled, self.last, self.held = False, None, {}

    def clashes(self, number, last, payload):
        if self.spoiled:
            return True
        if not self.held:
            return False
        return last != self.last or self.held.get(number, payload) != payload

    def spoil(self):
        self.spoiled, self.last, self.held = True, None, {}


class Desk:
    def __init__(self):
        self.listing = {"this": b"", "next": b""}
        self.gathering()

    def gathering(self):
        self.slot = {"this": Slot(), "next": Slot()}

    def frame(self):
        self.gathering()
        self.listing = {"this": self.listing["next"], "next": b""}

    def segment(self, segment):
        """The answer: its number, which is 0 if the segment is accepted, and what the log says behind that."""
        if len(segment) != 37:
            return 2, ""
        head, payload = int.from_bytes(segment[:2], "big"), segment[2:]
        kind, number, last = "this" if head >> 9 & 1 else "next", head >> 4 & 15, head & 15
        if head >> 14:
            return 3, ""
        if head >> 8 & 1:
            return 4, ""
        if head >> 10 & 3:
            return 5, ""
        if number > last:
            return 6, ""
        slot = self.slot[kind]
        if slot.clashes(number, last, payload):
            slot.spoil()
            return 7, ""
        repeat = number in slot.held
        slot.last = last
        slot.held[number] = payload
        missing = last + 1 - len(slot.held)
        if repeat or missing:
            return 0, f"missing {missing}"
        refusal, chunk_kind, _, listing, at = read(b"".join(slot.held[i] for i in range(last + 1)), LONGEST)
        if refusal:
            return refusal, f"at {at}" if refusal == 9 else ""
        if chunk_kind != kind:
            return 10, ""
        self.listing[kind] = listing
        return 0, f"list {kind} {shown(listing)}"


def shown(listing):
    return f"{len(listing)}\n{listing.hex()}"


def transcript(log):
    """What the log program writes for a log."""
    desk, lines, at = Desk(), [], 0
    while at < len(log):
        mark, segment = log[at:at + 2], log[at + 2:at + 39]
        if mark == b"GA":
            desk.gathering()
            lines.append("GA")
            at += 2
        elif mark == b"FR":
            desk.frame()
            lines.append(f"FR {shown(desk.listing['this'])}" if desk.listing["this"] else "FR none")
            at += 2
        elif mark == b"SG" and len(segment) == 37:
            number, text = desk.segment(segment)
            lines.append(f"SG {number} {text}".rstrip())
            at += 39
        else:
            return "\n".join(lines + ["END 15", ""])
    return "\n".join(lines + ["END 0", ""])


if __name__ == "__main__":
    sys.stdout.write(transcript(sys.stdin.buffer.read()))
