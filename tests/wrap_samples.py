#!/usr/bin/env python3
"""Makes the stored inputs of the program wrap and what it must write for them, by tests/wrap.py, and prints how often each report occurs.

    python3 tests/wrap_samples.py

It writes crates/wrap_samples/data, crates/wrap_samples/args, crates/wrap_samples/stdout, crates/wrap/stdin and crates/wrap/stdout.
A case is made of records and of the outer packets and the words that document 02 demands, said here without the writer of tests/wrap.py;
both must agree, and the reader of tests/tunnel.py must give back the packets. Only long_run has no such answers.
"""
import collections
import pathlib
import re
import sys

sys.dont_write_bytecode = True

from outer_pieces import A, B, C, LONG, NOTICES, inner, notice
from tunnel import HEADER, INNER_MARK, OUTER_MARK, contents, record, send, unwrap
from unwrap_samples import shown
from wrap import TIME_MARK, check_words, records, size_said, wrap
from wrap_pieces import ONES, Case, split
from wrap_run import long_run

CRATES = pathlib.Path(__file__).resolve().parent.parent / "crates"
BLOCKS = 1504, 131072
SHAPES = ["IP n 19", "END 0", "END 15"]
TABLE = b"Pilots' table:" + b",".join(b" %02d May %02d:%02d %d.%d m" % (1 + day, 4 + 12 * half, 12 + 2 * day, 3, 9 - day % 7)
                                      for day in range(22) for half in (0, 1))


def time(seconds, thousandths):
    """A timestamp as Table 9.2 has it."""
    return seconds << 10 | thousandths


def notices():
    # the sixth record is refused, since its packet has a byte more than it says; of the table, 13 bytes go on in the second outer packet
    case, early, late, table = Case(1400), time(15120, 250), time(15121, 500), notice(TABLE)
    case.ti(early)
    case.ip(*NOTICES[:4])
    case.ip(notice(b"Test of the line") + b"\n", says="19")
    case.ip(*NOTICES[4:10])
    case.ti(late)
    case.ip(table, NOTICES[10])
    case.op(b"".join(NOTICES[:10]) + table[:-13], 0, early)
    case.op(table[-13:] + NOTICES[10], 13, late)
    return case.end()


def evenly_cut(packets, size):
    """The payloads' sizes: all but the last are full."""
    full, rest = divmod(sum(map(len, packets)), size)
    return full * [size] + [rest] * (rest > 0)


def evenly(size, *packets):
    """Packets alone, said by the sender of tests/tunnel.py."""
    case = Case(size)
    case.ip(*packets)
    case.outers = send(packets, evenly_cut(packets, size))
    return case.end()


def lengths(size):
    return evenly(size, A, inner(29), inner(1499), B, LONG, LONG, inner(1399), A, C, inner(1400), A)


def exact():
    # packets that end with a payload, each in another way; at the end nothing is left
    case, small, large, two = Case(64), inner(36), inner(64), inner(128)
    case.ip(A, small)
    case.op(A + small, 0)
    case.ip(large)
    case.op(large, 0)
    case.ip(two)
    case.op(two[:64], 0)
    case.op(two[64:])
    case.ip(B, inner(88))
    case.op(B + inner(88)[:24], 0)
    case.op(inner(88)[24:])
    case.ip(inner(63), inner(65))
    case.op(inner(63) + inner(65)[:1], 0)
    case.op(inner(65)[1:])
    return case.end()


def starts():
    # packets that begin with a payload, and one that begins with its last byte; what is left is a whole packet
    case, rest = Case(64), inner(100)
    case.ip(rest, A)
    case.op(rest[:64], 0)
    case.op(rest[64:] + A, 36)
    case.ip(A, A, A)
    case.op(A + A + A[:8], 0)
    case.ip(inner(43), inner(65))
    case.op(A[8:] + inner(43) + inner(65)[:1], 20)
    case.op(inner(65)[1:])
    case.ip(B)
    case.op(B, 0)
    return case.end()


def many():
    # fifty packets fill a payload; then the rest of one, and fifty
    case = Case(1400)
    for timestamp in range(50):
        case.ti(timestamp)
        case.ip(A)
    case.op(50 * A, 0)
    case.ti(100)
    case.ip(inner(1420))
    case.op(inner(1420)[:1400], 0, 100)
    for timestamp in range(101, 151):
        case.ti(timestamp)
        case.ip(A)
    case.op(inner(1420)[1400:] + 49 * A + A[:8], 20, 100)
    case.op(A[8:], None, 150)
    return case.end()


def over_many():
    # a packet over as many payloads as can be: two bytes in the first, 26 in the last
    case, before, behind = Case(64), inner(62), inner(57)
    case.ti(1)
    case.ip(before)
    case.ti(2)
    case.ip(LONG)
    case.op(before + LONG[:2], 0, 1)
    for at in range(2, 1474, 64):
        case.op(LONG[at:at + 64], None, 2)
    case.ti(3)
    case.ip(behind, A)
    case.op(LONG[1474:] + behind[:38], 26, 2)
    case.op(behind[38:] + A, 19, 3)
    return case.end()


def one_byte():
    # a packet's last byte alone is left, and goes without a marker
    case = Case(65)
    case.ti(9)
    case.ip(inner(66))
    case.op(inner(66)[:65], 0, 9)
    case.ti(10)
    case.op(inner(66)[65:], None, 9)
    return case.end()


def times():
    case, tall = Case(90), inner(150)
    case.ip(B)  # before the first one
    case.ti(7)
    case.ip(B)  # in the same payload
    case.ti(8)
    case.ti(9)
    case.ip(B)
    case.op(B + B + B[:10], 0, 0)
    case.ti(10)
    case.ip(inner(60))
    case.op(B[10:] + inner(60), 30, 9)
    # between payloads, with nothing left; the edges, and each byte
    for timestamp in 0, ONES, 1, 0x100, 0x10000, 0x1000000, 0x01020304, 0x80000000, 0x7FFFFFFF, 0:
        case.ti(timestamp)
        case.ip(inner(90))
        case.op(inner(90), 0, timestamp)
    # the payload that a packet goes on with has that packet's
    case.ti(20)
    case.ip(B)
    case.ti(ONES)
    case.ip(tall)
    case.op(B + tall[:50], 0, 20)
    case.op(tall[50:140], None, ONES)
    case.ti(30)
    case.ip(A)
    case.ti(31)
    case.op(tall[140:] + A, 10, ONES)
    return case.end()


def may_not_be_carried(size):
    """Packets that are refused, each in a record of 28 to 1,500 bytes."""
    wrong = [inner(40, half << 4 | 5) for half in range(16) if half != 4]
    wrong += [inner(40, says=says) for says in (0, 4, 27, 28, 39, 41, 0x2800, 1500, 1501, 65535)]
    wrong += [inner(28, says=27), inner(28, says=29), inner(28, says=0), inner(28, 0x65), inner(28, 0x05)]
    wrong += [inner(1500, says=1499), inner(1500, says=1501), inner(1500, says=28), inner(1500, 0x65), inner(size, says=size + 1)]
    wrong += [inner(1501)[:1500], B + b"E", B[:-1], inner(27) + b"E", b"\x28\x00\x45\x45" + B[4:], B[4:] + B[:4]]
    return wrong


def refused():
    # with nothing left and with something, and the record numbers go on; neither the payload nor the sequence number moves
    case = Case(200)
    case.ip(*may_not_be_carried(200), says="19")
    case.ti(5)
    case.ip(C)
    case.ti(6)
    case.ip(*may_not_be_carried(200), says="19")
    case.ti(7)
    case.ip(LONG)
    case.op(C + LONG[:100], 0, 5)
    for at in range(100, 1500, 200):
        case.op(LONG[at:at + 200], None, 7)
    case.ip(inner(40, 0x65), says="19")
    for first in range(0x40, 0x50):  # the second half byte may be any
        case.ip(inner(100, first))
    for first in range(0x40, 0x50, 2):
        case.op(inner(100, first) + inner(100, first + 1), 0, 7)
    case.ip(A)
    case.ip(inner(40, 0x35), says="19")
    case.op(A, 0, 7)
    return case.end()


def all_refused():
    case = Case(64)
    case.ip(*may_not_be_carried(64), says="19")
    return case.end()


def refused_many():
    # nothing but lines, over both blocks' lengths
    case = Case(1399)
    case.ip(*4100 * [inner(28, says=29)], says="19")
    return case.end()


def cuts():
    # a block of 1,504 bytes ends at each place of a TI record, and at each of a stored packet's mark and length and of its first bytes
    case, packets, at = Case(1400), [], 0
    for before in range(9):
        for timed in False, True:
            gap = (1504 - before - at) % 1504
            fill = [inner(gap - 4)] if gap > 32 else [inner(600), inner(gap + 1504 - 608)]
            case.ip(*fill)
            if timed:
                case.ti(0)
            case.ip(B)
            packets += [*fill, B]
            at = len(b"".join(case.records))
    case.outers = send(packets, evenly_cut(packets, 1400))
    return case.end()


def only_times():
    case = Case(1400)
    for timestamp in 0, ONES, 5:
        case.ti(timestamp)
    return case.end()


def times_many():
    # over both blocks' lengths; the last one counts
    case = Case(64)
    for timestamp in range(21900):
        case.ti(timestamp * 65537)
    case.ip(A)
    case.op(A, 0, 21899 * 65537)
    return case.end()


def broken():
    """Inputs that end with a record that is refused or cut; nothing is read behind that. Something is left to close, or nothing."""
    whole, long = record(INNER_MARK, A), record(INNER_MARK, LONG)
    tails = {"mark_unknown": b"OP" + whole[2:] + whole, "mark_half": b"IQ" + whole[2:] + whole, "mark_half_time": b"TP" + bytes(4) + whole,
             "mark_swapped": b"PI" + whole[2:] + whole, "mark_swapped_time": b"IT" + bytes(4) + whole, "mark_small": b"ip" + whole[2:] + whole,
             "mark_later": b"IJ" + long[2:] + whole, "mark_cut": b"I", "mark_cut_time": b"T", "mark_cut_other": b"X",
             "time_none": TIME_MARK, "time_cut": TIME_MARK + bytes(3), "length_none": INNER_MARK, "length_cut": whole[:3],
             "content_none": whole[:4], "content_cut": whole[:-1], "content_cut_long": long[:-1]}
    tails |= {f"length_{size}": record(INNER_MARK, inner(size)[:size]) + whole for size in (0, 27, 1501, 65535)}
    for name, tail in tails.items():
        for left in b"", B:
            case, fill = Case(65), inner(65 - 28)
            case.ti(1)
            case.ip(A, fill, *[left] * (left > b""))
            case.op(A + fill, 0, 1)
            if left:
                case.op(left, 0, 1)
            yield name + "_left" * (left > b""), "65", case.end(tail)


def carried(data, report):
    """The stored packets in a file but those that its report says were refused."""
    refused = {int(number) for number in re.findall(r"^IP (\d+) 19$", report.decode(), re.MULTILINE)}
    found = enumerate((found for found in records(data) if found), 1)
    return b"".join(record(INNER_MARK, content) for number, (mark, content) in found if mark == INNER_MARK and number not in refused)


def check_long_run(outers, size):
    """Of the one case without answers: the outer packets are numbered from 0, and all but the last are full."""
    found, _ = contents(OUTER_MARK, outers)
    assert all(len(outer) == HEADER + size for outer in found[:-1])
    assert all(outer[2:4] == number.to_bytes(2, "big") for number, outer in enumerate(found))


def made():
    """Name, word, what comes and what must be written."""
    run = long_run()
    cases = [("notices", "1400", notices()), ("split", "200", split()), ("exact", "64", exact()), ("starts", "0064", starts()),
             ("many", "000000000001400", many()), ("over_many", "64", over_many()), ("one_byte", "65", one_byte()), ("times", "90", times()),
             ("refused", "200", refused()), ("all_refused", "64", all_refused()), ("refused_many", "1399", refused_many()),
             ("only_times", "1400", only_times()), ("times_many", "64", times_many()), ("empty", "1400", Case(1400).end()),
             ("cuts", "1400", cuts())]
    cases += [("lengths", str(size), lengths(size)) for size in (64, 65, 90, 200, 1399, 1400)]
    cases += [("blocks", "1400", evenly(1400, *88 * [LONG]))]
    cases += broken()
    return cases + [("long_run", word, (run, None, None)) for word in ("64", "733")]


def main():
    check_words()
    (CRATES / "wrap_samples/data").mkdir(parents=True, exist_ok=True)
    (CRATES / "wrap").mkdir(exist_ok=True)
    counts, output, args = collections.Counter(), b"", []
    for name, word, (data, *expected) in made():
        size = size_said(word)
        outers, report, status = wrap(data, size)
        assert expected == [outers, report] or name == "long_run", name
        assert unwrap(outers) == (carried(data, report), b"END 0\n", 0), name
        (CRATES / "wrap_samples/data" / name).write_bytes(data)
        output += shown(f"size {word}, {name}", outers, report, status, BLOCKS)
        args += [word, name]
        counts.update(re.sub(r"IP \d+", "IP n", line) for line in report.decode().splitlines())
        print(f"{name:24} {word:>5} {len(data):6} bytes, {len(outers):6} of outer packets, reports {len(report):6}")
        if name == "notices":
            (CRATES / "wrap/stdin").write_bytes(data)
            (CRATES / "wrap/stdout").write_bytes(outers)
        if name == "long_run":
            check_long_run(outers, size)
    # a folder can't be read: nothing is written, not even the last line, and the status is 1
    output += shown("size 1400, .", b"", b"", 1, BLOCKS)
    (CRATES / "wrap_samples/args").write_text("\n".join([*args, "1400", "."]) + "\n")
    (CRATES / "wrap_samples/stdout").write_bytes(output)
    assert set(counts) == set(SHAPES), set(counts) ^ set(SHAPES)
    for shape in SHAPES:
        print(f"{shape:20} {counts[shape]:6}")
    print(f"{len(output)} bytes in all")


if __name__ == "__main__":
    main()
