#!/usr/bin/env python3
"""Writes what the program explain must print: which field is at fault in a segment or a chunk that is refused, once more, in Python, from
Tables 6.5, 6.6 and 6.9 of A/153 Part 3 and documents 01 and 02 alone.

    python3 tests/explain.py < LOG_WITH_CHUNKS
"""
import sys
from typing import NamedTuple, Optional

sys.dont_write_bytecode = True

from log import Desk, shown
from reader import LONGEST, read

CHUNK_MARK = b"CH"
SIZES = {b"FR": 0, b"GA": 0, b"SG": 37}     # of what stands behind the other marks
SEGMENT, PAYLOAD, PLACES = 37, 35, 16       # bytes of a segment and of its payload, and places of a slot
CHUNK = PLACES * PAYLOAD                    # bytes that a chunk has at most
MAJOR, NUMBER, LAST = "FIC_chunk_major_protocol_version", "FIC_segment_num", "FIC_last_segment_num"

# the tables' rows, with their widths in bits
CHUNK_HEADER = [
    (MAJOR, 2), ("FIC_chunk_minor_protocol_version", 3), ("FIC_chunk_header_extension_length", 3),
    ("ensemble_loop_header_extension_length", 3), ("MH_service_loop_extension_length", 3), ("reserved", 1), ("current_next_indicator", 1),
    ("transport_stream_id", 16), ("header_extension_byte", 8), ("num_ensembles", 8)]
ENSEMBLE = [
    ("ensemble_id", 8), ("reserved", 3), ("ensemble_protocol_version", 5), ("SLT_ensemble_indicator", 1), ("GAT_ensemble_indicator", 1),
    ("EAT_ensemble_indicator", 1), ("MH_service_signaling_channel_version", 5), ("ensemble_loop_header_extension_byte", 8),
    ("num_MH_services", 8)]
SERVICE = [
    ("MH_service_id", 16), ("reserved", 3), ("multi_ensemble_service", 2), ("MH_service_status", 2), ("SP_indicator", 1),
    ("MH_service_loop_extension_byte", 8)]
SEGMENT_HEADER = [
    ("FIC_segment_type", 2), ("reserved", 1), ("wake_up_indicator", 1), (MAJOR, 2), ("current_next_indicator", 1), ("error_indicator", 1),
    (NUMBER, 4), (LAST, 4)]
# the rows that stand in a loop of their own, and the field that says how often: all of them together are one field
RUNS = {"header_extension_byte": "FIC_chunk_header_extension_length",
        "ensemble_loop_header_extension_byte": "ensemble_loop_header_extension_length",
        "MH_service_loop_extension_byte": "MH_service_loop_extension_length"}


class Fault(NamedTuple):
    """The number of a refusal, the field at fault, its bit offset and the value found; where the slot was spoiled, the first two."""
    number: int
    field: str
    offset: Optional[int] = None
    value: Optional[int] = None

    def says(self):
        return f"  {self.field}" if self.offset is None else f"  {self.field} at bit {self.offset} is {self.value}"


SPOILED = Fault(7, "slot spoiled")


class NotWhole(Exception):
    """A field's bits run past the end: its name, and its bit offset."""


class Walk:
    """Goes through bytes field by field. It keeps where each began and what it was; of those that came more than once, the latest."""

    def __init__(self, data):
        self.data, self.at, self.offset, self.value = data, 0, {}, {}

    def through(self, rows):
        """The fields of a table's rows."""
        for name, width in rows:
            width *= self.value[RUNS[name]] if name in RUNS else 1
            behind = 8 * len(self.data) - self.at - width
            if behind < 0:
                raise NotWhole(name, self.at)
            self.offset[name], self.value[name] = self.at, int.from_bytes(self.data, "big") >> behind & (1 << width) - 1
            self.at += width
        return self

    def fault(self, number, name):
        return Fault(number, name, self.offset[name], self.value[name])


def explain_chunk(chunk):
    """Why the reader refuses a chunk, or nothing."""
    if len(chunk) > CHUNK:
        return Fault(8, "length", 0, len(chunk))
    if len(chunk) >= 2:
        head = Walk(chunk).through(CHUNK_HEADER[:1])
        if head.value[MAJOR] != 0:
            return head.fault(5, MAJOR)
    return ran_out(chunk)


def ran_out(chunk):
    """The first field that isn't whole, or nothing."""
    walk = Walk(chunk)
    try:
        for _ in range(walk.through(CHUNK_HEADER).value["num_ensembles"]):
            for _ in range(walk.through(ENSEMBLE).value["num_MH_services"]):
                walk.through(SERVICE)
    except NotWhole as cut:
        return Fault(9, *cut.args, len(chunk))
    return None


def explain_segment(segment):
    """Why a segment is refused for its own length or header, or nothing."""
    if len(segment) != SEGMENT:
        return Fault(2, "length", 0, len(segment))
    head = Walk(segment).through(SEGMENT_HEADER)
    for number, name, most in (3, "FIC_segment_type", 0), (4, "error_indicator", 0), (5, MAJOR, 0), (6, NUMBER, head.value[LAST]):
        if head.value[name] > most:
            return head.fault(number, name)
    return None


def explain_gathered(segment, held, last, spoiled, places):
    """Why a segment is refused for itself or by the slot of its kind, or nothing. Held is a number, whose bit of value 1 << n says that
    place n is held. Places are the slot's bytes, place after place, of any number: one that isn't there differs from any."""
    own = explain_segment(segment)
    if own or spoiled:
        return own or SPOILED
    head = Walk(segment).through(SEGMENT_HEADER)
    number, start = head.value[NUMBER], head.at // 8
    if held and head.value[LAST] != last:
        return head.fault(7, LAST)
    if held >> number & 1:
        place = places[PAYLOAD * number:PAYLOAD * (number + 1)]
        for i, byte in enumerate(segment[start:]):
            if place[i:i + 1] != bytes([byte]):
                return Fault(7, "payload", 8 * (start + i), byte)
    return None


def records(data):
    """Marks and what stands behind them, in order, and 0; up to an unknown mark or a cut record, and 15."""
    found, at = [], 0
    while at < len(data):
        mark, start = data[at:at + 2], at + 2
        if mark == CHUNK_MARK:
            size, start = int.from_bytes(data[start:start + 2], "big"), start + 2
        else:
            size = SIZES.get(mark, len(data))
        at = start + size
        if at > len(data):
            return found, 15
        found.append((mark, data[start:at]))
    return found, 0


def segment_said(desk, segment):
    """The desk's answer to a segment: its number, what log says behind that, and what is at fault."""
    current = Walk(segment).through(SEGMENT_HEADER).value["current_next_indicator"]
    slot = desk.slot["this" if current else "next"]
    places = b"".join(slot.held.get(number, bytes(PAYLOAD)) for number in range(PLACES))
    fault = explain_gathered(segment, sum(1 << number for number in slot.held), slot.last, slot.spoiled, places)
    answer, text = desk.segment(segment)
    if not fault and answer in (5, 9):
        fault = explain_chunk(b"".join(slot.held[number] for number in range(slot.last + 1)))
    return answer, text, fault


def chunk_said(chunk):
    """The same of a chunk by itself."""
    number, _, _, _, at = read(chunk, LONGEST)
    return number, f"at {at}" if number == 9 else "", explain_chunk(chunk)


def said(desk, mark, content):
    """What is printed for a record."""
    if mark == b"GA":
        desk.gathering()
        return "GA"
    if mark == b"FR":
        desk.frame()
        return f"FR {shown(desk.listing['this'])}" if desk.listing["this"] else "FR none"
    number, text, fault = chunk_said(content) if mark == CHUNK_MARK else segment_said(desk, content)
    # it speaks exactly of what is refused, and of the same number; 10 isn't explained
    assert (fault.number if fault else 0) == (0 if number == 10 else number)
    line = f"{mark.decode()} {number} {text}".rstrip()
    return f"{line}\n{fault.says()}" if fault else line


def explain(data):
    """What the program prints, and its exit status."""
    desk = Desk()
    found, status = records(data)
    lines = [said(desk, mark, content) for mark, content in found]
    return "\n".join(lines + [f"END {status}", ""]).encode(), status


if __name__ == "__main__":
    printed, status = explain(sys.stdin.buffer.read())
    sys.stdout.buffer.write(printed)
    sys.exit(status)
