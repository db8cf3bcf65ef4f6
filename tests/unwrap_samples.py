#!/usr/bin/env python3
"""Makes the stored inputs of the program unwrap and what it must write for them, by tests/tunnel.py, and prints how often each report occurs.

    python3 tests/unwrap_samples.py

It writes crates/unwrap_samples/data, crates/unwrap_samples/args, crates/unwrap_samples/stdout, crates/unwrap/stdin and crates/unwrap/stdout.
A case is made of steps, each a record with the packets and the words that document 02 demands, said here without the reader of
tests/tunnel.py; both must agree. Only long_run has no such answers. The outer packets of wrapped and wrapped_gap are those of tests/wrap.py.
"""
import collections
import pathlib
import re
import sys

sys.dont_write_bytecode = True

from outer_pieces import A, B, C, LONG, NOTICES, Case, inner
from outer_run import long_run
from tunnel import OUTER_MARK, contents, outer_packet, record, send, stored_packets, unwrap
from wrap import wrap
from wrap_pieces import SPLIT, split

CRATES = pathlib.Path(__file__).resolve().parent.parent / "crates"
BLOCKS = 65539, 131072
SHAPES = ["OP n 16", "OP n 17", "OP n 17 lost n", "OP n 17 gap n", "OP n 17 gap n lost n", "OP n repeat", "OP n gap n", "OP n gap n lost n",
          "OP n lost n", "held n", "END 0", "END 15"]


def worked():
    # docs/TUNNEL.md takes it apart: of six outer packets, with 90 bytes each, the first came too early, and the fourth is left out
    _, joined, second, _, later, last = send(NOTICES, 6 * [90], 65533)
    case = Case()
    case.record(joined, NOTICES[2], says="lost 9")
    case.record(second, NOTICES[3], NOTICES[4])
    case.again()
    case.record(outer_packet(0, later[12:], kind=96), says="16")
    case.record(later, NOTICES[8], says="gap 1 lost 60")
    case.record(last, NOTICES[9])
    return case.end(held=48)


def refused():
    # nothing changes, before the first outer packet and with a part held, whether the number is the next, the last or another
    case, whole = Case(700), outer_packet(700, bytes(65535), 0)
    foreign = [whole[:size] for size in (0, 11, 1501, 3000, 65535)]
    foreign += [outer_packet(699 + first % 3, A, 28 * (first % 2), first=first) for first in range(256) if first != 0x80]
    foreign += [outer_packet(699 + kind % 3, A, offset, kind=kind) for kind in range(128) if kind != 97 for offset in (None, 0, 28)]
    for outer in foreign:
        case.record(outer, says="16")
    case.op(B[:17], 0)
    for outer in foreign:
        case.record(outer, says="16")
    case.op(B[17:], None, B)
    return case.end()


def empty_payloads():
    case = Case(65533)
    case.op(b"")
    case.op(b"", 0, says="17")
    case.op(b"", 65535, says="17")
    case.op(b"", 0, says="17 gap 3", skip=3)
    case.op(b"", says="gap 65534", skip=65534)
    # in a running packet: without a marker nothing happens
    case.op(B[:10], 0)
    case.op(b"")
    case.op(b"", idle=1)
    case.op(B[10:], None, B)
    case.op(b"")
    # with a marker, after a gap, or both, the part is dropped
    case.op(B[:10], 0)
    case.op(b"", 0, says="17 lost 10")
    case.op(B[10:], says="lost 30")
    case.op(B[:10], 0)
    case.op(b"", says="gap 1 lost 10", skip=1)
    case.op(B[10:], says="lost 30")
    case.op(B[:10], 0)
    case.op(b"", 0, says="17 gap 2 lost 10", skip=2)
    case.again()
    return case.end()


def offsets():
    case = Case()
    for offset in 28, 29, 256, 65535:
        case.op(A, offset, says="17 lost 28")
    case.again()
    # one before the payload's end, and both bytes of the field
    case.op(bytes(27) + B[:1], 27, says="lost 27")
    case.op(B[1:], None, B)
    case.op(bytes(1) + A, 1, A, says="lost 1")
    case.op(bytes(256) + A, 256, A, says="lost 256")
    case.op(bytes(1487) + B[:1], 1487, says="lost 1487")
    case.op(B[1:], None, B)
    # with a part, also where the running packet would end so; then with a gap
    for offset in 10, 11, 40:
        case.op(B[:30], 0)
        case.op(B[30:], offset, says="17 lost 40")
        case.op(B[30:], says="lost 10")
    case.op(B[:30], 0)
    case.op(B[30:], 10, says="17 gap 3 lost 40", skip=3)
    case.op(A, 28, says="17 gap 65534 lost 28", skip=65534)
    case.again()
    # the most that one call can lose
    case.op(LONG[:1488], 0)
    case.op(LONG[1488:1499])
    case.op(LONG[:1488], 1488, says="17 lost 2987")
    return case.end()


def numbers():
    # over the wrap; a repeat is one by its number alone
    case = Case(65534)
    case.op(B[:10], 0)
    case.again()
    case.op(B[10:20])
    case.again()
    case.op(B[20:], None, B)
    case.again()
    case.record(outer_packet(0, A, 0), says="repeat")
    case.record(outer_packet(0, A, 28), says="repeat")
    case.op(A, 28, says="17 lost 28")
    case.again()
    case.record(outer_packet(1, A, 0), says="repeat")
    # gaps, with a part that the next bytes would complete
    case.op(A, 0, A, says="gap 1", skip=1)
    for skip in 1, 2, 255, 256, 32767, 32768, 65533, 65534:
        case.op(B[:20], 0)
        case.op(B[20:] + A, 20, A, says=f"gap {skip} lost 40", skip=skip)
        case.again()
        case.op(B[:20], 0)
        case.op(B[20:], says=f"gap {skip} lost 40", skip=skip)
    # two that change places: after the third comes the second, then the fourth
    case.op(C[:30], 0)
    case.op(C[60:] + B[:10], 40, says="gap 1 lost 70", skip=1)
    case.op(C[30:60], says="gap 65534 lost 40", skip=65534)
    case.op(B[10:] + A, 30, A, says="gap 1 lost 30", skip=1)
    case.op(B, 0, B)
    return case.end()


def running():
    # the numbers go over 255; the last 28 bytes of the nest are a packet themselves
    case, nest = Case(250), inner(60)[:32] + A
    case.op(nest[:20], 0)
    case.op(nest[20:] + A, 40, nest, A)
    case.op(nest[:20], 0)
    case.op(nest[20:30])
    case.op(nest[30:], None, nest)
    case.op(nest[:20], 0)
    for byte in nest[20:59]:
        case.op(bytes([byte]))
    case.op(nest[59:] + B, 1, nest, B)
    # the marker before its end, in its first bytes too, and behind it
    for offset, payload in (0, A), (10, nest[20:30] + A), (39, nest[20:59] + A), (12, nest[20:]), (41, nest[20:] + b"E" + A):
        case.op(nest[:20], 0)
        case.op(payload, offset, A, says=f"lost {20 + offset}")
    # complete, but bytes without a marker follow
    for more in b"E", A, A + B:
        case.op(nest[:20], 0)
        case.op(nest[20:] + more, says=f"lost {60 + len(more)}")
        case.op(nest[20:], says="lost 40")
    # the longest, in many pieces
    for size in 1, 2, 3, 100, 1488:
        case.op(LONG[:size], 0)
        for at in range(size, 1499, 499):
            case.op(LONG[at:min(at + 499, 1499)])
        case.op(LONG[1499:], None, LONG)
    case.op(LONG[:1488], 0)
    case.op(LONG[1488:1499])
    return case.end(held=1499)


def late_lengths():
    # the fourth byte comes with the second outer packet, or with the third
    case = Case(40000)
    for held in 1, 2, 3:
        for packet in A, B, inner(1480):
            case.op(packet[:held], 0)
            case.op(packet[held:], None, packet)
            case.op(packet[:held], 0)
            case.op(packet[held:3])
            case.op(packet[3:20])
            case.op(packet[20:] + A, len(packet) - 20, packet, A)
        # a marker before it, and right behind it
        for end in range(held, 5):
            case.op(B[:held], 0)
            case.op(B[held:end] + A, end - held, A, says=f"lost {end}")
        # a length outside the limits, also where the marker agrees with it
        for says in 0, 3, 4, 27, 1501, 65535:
            bad = inner(40, says=says)
            for end in 4, 27, 40:
                case.op(bad[:held], 0)
                case.op(bad[held:end], says=f"lost {end}")
                case.op(bad[end:] + A, 40 - end, A, says=f"lost {40 - end}" if end < 40 else "")
                case.op(bad[:held], 0)
                case.op(bad[held:end] + A, end - held, A, says=f"lost {end}")
    case.op(B[:1], 0)
    for byte in B[1:39]:
        case.op(bytes([byte]))
    case.op(B[39:] + B[:3], 1, B)
    return case.end(held=3)


def starts():
    case = Case(1)
    other = [inner(40, half << 4 | 5) for half in range(16) if half != 4]
    for bad in other + [inner(40, says=says) for says in (0, 1, 3, 4, 27, 1501, 1536, 65535)]:
        case.op(bad, 0, says="lost 40")
        case.op(bad + A, 0, says="lost 68")
        case.op(A + B + bad, 0, A, B, says="lost 40")
        case.op(b"E" + A + bad[:4], 1, A, says="lost 5")
    for bad in other:
        case.op(A + bad[:1], 0, A, says="lost 1")
        case.op(bytes(1487) + bad[:1], 1487, says="lost 1488")
    # what begins at the last bytes; what doesn't fit whole; what ends with the payload
    for held in 1, 2, 3, 4, 39:
        case.op(A + B[:held], 0, A)
        case.op(B[held:] + C, 40 - held, B, C)
        case.op(A + inner(40, says=1501)[:held], 0, A, says=f"lost {held}" if held > 3 else "")
        case.op(C + A, 0, C, A, says=f"lost {held}" if held < 4 else "")
    # the limits, and every second half byte
    for first in range(0x40, 0x50):
        case.op(inner(28, first), 0, inner(28, first))
        case.op(inner(1488, first), 0, inner(1488, first))
        case.op(LONG[:1488], 0)
        case.op(LONG[1488:] + inner(29, first), 12, LONG, inner(29, first))
    case.op(inner(1488, says=1501), 0, says="lost 1488")
    return case.end()


def faults():
    case = Case(65520)
    for bad in inner(28, 0x65), inner(28, says=27):
        # behind the marked start, which has been used: the next one is waited for
        case.op(A + bad + B, 0, A, says="lost 68")
        case.op(B, says="lost 40")
        case.op(b"")
        case.op(bytes(5) + B, 5, B, says="lost 5")
        # in the running packet, and the marked start is tried; there too; there only; and behind it
        case.op(C[:20], 0)
        case.op(C[20:30] + A + B[:9], 10, A, says="lost 30")
        case.op(B[9:] + C[:20], 31, B)
        case.op(C[20:30] + bad + A, 10, says="lost 86")
        case.op(C[30:] + C[:20], 70, says="lost 70")
        case.op(C[20:] + bad + A, 80, C, says="lost 56")
        case.op(C[:20], 0)
        case.op(C[20:] + A + bad + A, 80, C, A, says="lost 56")
        # after a fault there is no part that a gap could drop
        case.op(B, says="gap 4 lost 40", skip=4)
    return case.end()


def no_start():
    # a fresh reader waits, whatever the bytes look like and the offset says
    case = Case(32768)
    for payload in A, A + B, B[:10], B[10:], LONG[:1488]:
        case.op(payload, says=f"lost {len(payload)}")
    for idle in 0, 10, 28, 65535:
        case.op(A, says="lost 28", idle=idle)
    case.op(B[17:] + A + B[:17], 23, A, says="lost 23")
    for idle in 0, 5, 23, 24, 65535:
        case.op(B[17:], None, B, idle=idle)
        case.op(B[:17], 0)
        case.op(b"", idle=idle)
    return case.end(held=17)


def other_fields():
    case = Case(12345)
    for timestamp, others in [(0, 0), (0xFFFFFFFF, 0xFFFF)] + [(1 << bit, 1 << bit % 16) for bit in range(32)]:
        case.op(B[:17], 0, timestamp=timestamp, others=others)
        case.op(B[17:20], timestamp=timestamp, others=others, idle=0xFFFF)
        case.op(B[20:] + A, 20, B, A, timestamp=timestamp, others=others)
    return case.end()


def fullest():
    # the most that one call stores; then the most that comes of so many bytes of input, over both blocks' lengths
    case = Case(65535)
    many = [inner(28, 0x40 + i % 16) for i in range(53)]
    last = [*many[:52], inner(31)]
    case.op(LONG[:1488], 0)
    case.op(LONG[1488:1499])
    case.op(LONG[1499:] + b"".join(last), 1, LONG, *last)
    assert sum(4 + len(packet) for packet in case.packets) == 3203
    for _ in range(90):
        case.op(b"".join(many), 0, *many)
    return case.end()


def tiny_records():
    # the report is much longer than the input
    case = Case()
    for _ in range(20500):
        case.record(b"", says="16")
    return case.end()


def broken():
    """By name, inputs that end with an unknown mark or a cut record; nothing is read behind that."""
    whole = record(OUTER_MARK, outer_packet(8, A, 0))
    tails = {"mark_unknown": b"IP" + whole[2:] + whole, "mark_half": b"OQ" + whole[2:], "mark_swapped": b"PO" + whole[2:], "mark_cut": b"O",
             "length_none": b"OP", "length_cut": whole[:3], "content_none": whole[:4], "content_cut": whole[:-1],
             "content_long": b"OP" + 65536 * b"\xFF"}
    for name, tail in tails.items():
        for part in 0, 17:
            case = Case(7)
            case.op(A + B[:part], 0, A)
            yield name + "_held" * (part > 0), case.end(part, tail)


def wrapped():
    # what the program wrap gives: all packets come out that went in
    case = Case()
    for outer in wrapped_outers():
        case.record(outer)
    case.packets += SPLIT
    return case.end()


def wrapped_gap():
    # a run of three is left out, with bytes 400 to 999 of the packets: the fourth begins at 278, before it, and the eighth ends at 1,140
    case, (first, second, _, _, _, later, *last) = Case(), wrapped_outers()
    case.record(first)
    case.record(second)
    case.record(later, says="gap 3 lost 262")
    for outer in last:
        case.record(outer)
    case.packets += SPLIT[:3] + SPLIT[8:]
    return case.end()


def wrapped_outers():
    """What wrap gives for its case split, by tests/wrap.py."""
    data, *_ = split()
    return contents(OUTER_MARK, wrap(data, 200)[0])[0]


def shown(name, packets, report, status, blocks=BLOCKS):
    """What is printed for a case, read in blocks of both lengths."""
    text = b""
    for size in blocks:
        head = f"{name}, blocks of {size}: ".encode()
        text += head + b"packets\n" + packets + b"\n" + head + b"report\n" + report + f"status {status}\n".encode()
    return text


def main():
    cases = {make.__name__: make() for make in (worked, refused, empty_payloads, offsets, numbers, running, late_lengths, starts, faults,
                                                no_start, other_fields, fullest, tiny_records)}
    cases |= broken()
    cases |= {"empty": Case().end(), "long_run": (b"".join(record(OUTER_MARK, outer) for outer in long_run()), None, None)}
    cases |= {"wrapped": wrapped(), "wrapped_gap": wrapped_gap()}
    (CRATES / "unwrap_samples/data").mkdir(parents=True, exist_ok=True)
    (CRATES / "unwrap").mkdir(exist_ok=True)
    counts, output = collections.Counter(), b""
    for name, (data, *expected) in cases.items():
        packets, report, status = unwrap(data)
        assert expected == [packets, report] or name == "long_run", name
        stored, number = stored_packets(packets)
        assert number == 0, name
        (CRATES / "unwrap_samples/data" / name).write_bytes(data)
        output += shown(name, packets, report, status)
        counts.update(re.sub(r"(OP|gap|lost|held) \d+", r"\1 n", line) for line in report.decode().splitlines())
        print(f"{name:20} {len(data):6} bytes, {len(stored):4} packets, reports {len(report):6}")
        if name == "worked":
            (CRATES / "unwrap/stdin").write_bytes(data)
            (CRATES / "unwrap/stdout").write_bytes(packets)
    # a folder can't be read: nothing is written, not even the last line, and the status is 1
    output += shown(".", b"", b"", 1)
    (CRATES / "unwrap_samples/args").write_text("\n".join([*cases, "."]) + "\n")
    (CRATES / "unwrap_samples/stdout").write_bytes(output)
    assert set(counts) == set(SHAPES), set(counts) ^ set(SHAPES)
    for shape in SHAPES:
        print(f"{shape:20} {counts[shape]:6}")


if __name__ == "__main__":
    main()
