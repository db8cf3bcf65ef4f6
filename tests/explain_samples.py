#!/usr/bin/env python3
"""Makes the stored inputs of the program explain and what it must print for them, by tests/explain.py, and prints how often each line and
each field at fault occurs.

    python3 tests/explain_samples.py

It writes crates/explain_samples/data, crates/explain_samples/args, crates/explain_samples/stdout, crates/explain/stdin and
crates/explain/stdout. A case is made of steps, each a record with the lines that documents 01 and 02 demand, said here without
tests/explain.py; both must agree. Only long_run has no such answers.
"""
import collections
import itertools
import pathlib
import re
import struct
import sys

sys.dont_write_bytecode = True

from explain import CHUNK_MARK, explain, explain_chunk, explain_gathered, explain_segment, records
from explain_random import OTHER, long_run
from log import transcript
from log_samples import GA, LONG, NONE, NOTICES, ONE, TWO
from pieces import Dice, bent, chunk, cut, fr, gives, miss, no, ones, plain, sent, turned, wait, zeros
from reader import FIRST
from tunnel import record

CRATES = pathlib.Path(__file__).resolve().parent.parent / "crates"
BLOCKS = 65539, 131072
SHAPES = ["GA", "FR none", "FR n", "SG 0 missing n", "SG 0 missing 0", "SG 0 list this n", "SG 0 list next n", "SG 10", "CH 0", "END 0",
          "END 15"]
MAJOR, NUMBER, LAST = "FIC_chunk_major_protocol_version", "FIC_segment_num", "FIC_last_segment_num"
# Under which line which field can be at fault. For 3 to 6, for 8 and for 5 of a chunk the rule names one field; for 7 there are three ways.
# For 9 it's the first field that isn't whole. A chunk ends between two bytes, and in all three tables a field that begins inside a byte
# ends in that byte: it's there if the field before it is. So only a field that begins a byte can be the first that isn't whole: of the
# header these are the five of HEAD, of an ensemble or a service the eight of BODY. It's never one of the minor version, the extension
# lengths of header and services, the header's reserved and current_next_indicator, ensemble_protocol_version, GAT, EAT, the channel
# version, multi, status and SP. A completed chunk has at least 35 bytes and a header at most 12, so under SG 9 it's none of HEAD. Two
# fields are called reserved: here they are told apart by the thing that they are in. 2 can't come, since an SG record has 37 bytes, and 8
# not under SG, since a completed chunk has at most 560.
BODY = ["ensemble_id", "reserved of an ensemble", "SLT_ensemble_indicator", "ensemble_loop_header_extension_byte", "num_MH_services",
        "MH_service_id", "reserved of a service", "MH_service_loop_extension_byte"]
HEAD = [MAJOR, "ensemble_loop_header_extension_length", "transport_stream_id", "header_extension_byte", "num_ensembles"]
FAULTS = {"SG 3": ["FIC_segment_type"], "SG 4": ["error_indicator"], "SG 5": [f"{MAJOR} at bit 4", f"{MAJOR} at bit 0"],
          "SG 6": [NUMBER], "SG 7": ["slot spoiled", LAST, "payload"], "SG 9 at n": BODY,
          "CH 5": [f"{MAJOR} at bit 0"], "CH 8": ["length"], "CH 9 at n": HEAD + BODY}
SPOILED = "7\n  slot spoiled"
PIECES = {kind: cut(chunk(TWO, kind), kind) for kind in OTHER}      # two of each
SINGLE = {kind: cut(chunk(ONE, kind), kind)[0] for kind in OTHER}   # ONE has a single piece


def told(number, field, bit, value):
    """What is said of a refusal; the number 9 has its offset behind it."""
    return f"{number}\n  {field} at bit {bit} is {value}"


def ch(says, *chunks):
    return [(record(CHUNK_MARK, data), f"CH {says}") for data in chunks]


def sg(kind, number, last, payload=bytes(35), type=0, reserved=1, wake=1, major=0, error=0):
    """The SG record with these fields of Table 6.9."""
    head = type << 14 | reserved << 13 | wake << 12 | major << 10 | (kind == "this") << 9 | error << 8 | number << 4 | last
    return struct.pack(">2sH35s", b"SG", head, payload)


def runs(what, h, e, s):
    """The bytes of a list's chunk: where the header, ensemble or service begins, a field that begins a byte, where that is, and how many
    bytes there are up to the next such field."""
    header = [*zip(HEAD, (1, 1, 2, h, 1))]
    ensemble = [("ensemble_id", 1), ("reserved", 1), ("SLT_ensemble_indicator", 1), ("ensemble_loop_header_extension_byte", e),
                ("num_MH_services", 1)]
    service = [("MH_service_id", 2), ("reserved", 1), ("MH_service_loop_extension_byte", s)]
    things = [header, *itertools.chain.from_iterable([ensemble] + len(services) * [service] for _, _, _, services, *_ in what[1])]
    at = 0
    for thing in things:
        begin = at
        for field, size in thing:
            yield begin, field, at, size
            at += size


def ends(size, what, h=0, e=0, s=0):
    """What is said of a list's chunk of which there are only so many bytes."""
    begin, field, at = next((begin, field, at) for begin, field, at, more in runs(what, h, e, s) if at <= size < at + more)
    return told(f"9 at {begin}", field, 8 * at, size)


def worked():
    first, second = cut(chunk(NOTICES, "this"), "this")
    other, _ = cut(chunk(NOTICES, "next"), "next")
    # a NULL segment, one with an error, and one whose number was damaged, among two good ones
    steps = NONE + no(told(3, "FIC_segment_type", 0, 3), sg("this", 0, 0, 35 * b"\xFF", type=3)) + miss(1, first)
    steps += no(told(4, "error_indicator", 7, 1), bent(second, 0x0100)) + no(told(6, NUMBER, 8, 3), bent(second, 0x0020))
    steps += gives(NOTICES, "this", second)
    # a clash: 0A 02 has become 0A 12. From then on the slot is spoiled
    steps += GA + miss(1, first) + no(told(7, "payload", 120, 0x12), turned(first, 17, 0x10)) + no(SPOILED, first, second)
    # a clash: the first of two, then one that says that it's the only one; that one by itself, which is too short for its list
    alone = bent(first, 0x0001)
    steps += GA + miss(1, first) + no(told(7, LAST, 12, 0), alone) + GA + no(told("9 at 34", "MH_service_id", 272, 35), alone)
    # a list for the next frame in a segment for this frame: it has no line of its own
    mixed, = cut(chunk(ONE, "next"), "this")
    steps += GA + no(10, mixed) + miss(0, mixed)
    # document 01's first chunk, cut to 11 bytes, and of another major version
    steps += ch(0, FIRST) + ch(told("9 at 9", "reserved", 88, 11), FIRST[:11]) + ch(told(5, MAJOR, 0, 1), turned(FIRST, 0, 0x40))
    return steps + miss(1, other) + NONE


def first_byte():
    # every first byte of a header, with the numbers 1 and 3, the last one being 2. The first field at fault is told, and the slot is asked
    # only if there is none: one that holds the segment, or one that is spoiled. Reserved and wake-up don't count
    bits = [range(1 << width) for width in (2, 1, 1, 2, 1)]
    steps = []
    for spoiled in False, True:
        steps += GA + [step for kind in OTHER for step in miss(2, sg(kind, 1, 2))]
        if spoiled:
            steps += [step for kind in OTHER for step in no(told(7, LAST, 12, 3), sg(kind, 1, 3))]
        for kind, number, (type, reserved, wake, major, error) in itertools.product(OTHER, (1, 3), itertools.product(*bits)):
            segment = sg(kind, number, 2, bytes(35), type, reserved, wake, major, error)
            faults = [(type, told(3, "FIC_segment_type", 0, type)), (error, told(4, "error_indicator", 7, 1)),
                      (major, told(5, MAJOR, 4, major)), (number == 3, told(6, NUMBER, 8, 3)), (spoiled, SPOILED)]
            says = [says for applies, says in faults if applies]
            steps += no(says[0], segment) if says else miss(2, segment)
    return steps


def second_byte():
    # every pair of numbers
    steps = []
    for kind, number, last in itertools.product(OTHER, range(16), range(16)):
        segment = sg(kind, number, last, SINGLE[kind][4:])
        if number > last:
            steps += no(told(6, NUMBER, 8, number), segment)
        else:
            steps += GA + (miss(last, segment) if last else gives(ONE, kind, segment))
    # every pair of different last numbers, the one held and the other
    for held, last in itertools.permutations(range(16), 2):
        kind = ("this", "next")[(held + last) % 2]
        steps += GA + (miss(held, sg(kind, held, held)) if held else gives(ONE, kind, SINGLE[kind]))
        steps += no(told(7, LAST, 12, last), sg(kind, last // 2, last))
    return steps


def payloads():
    # every byte, one bit or all of it: the segment's value is told. Reserved and wake-up aren't compared
    steps = []
    for kind, (first, second) in PIECES.items():
        for i in range(35):
            for mask, head in (1 << i % 8, 0), (255, 0x1000 * (1 + i % 3)):
                other = turned(first, 4 + i, mask)
                steps += GA + miss(1, first, bent(first, head)) + no(told(7, "payload", 16 + 8 * i, first[4 + i] ^ mask), bent(other, head))
                steps += no(SPOILED, second)
        # the first of several
        for several in (0, 34), (0, 1, 2), (17, 18), (3, 30), (33, 34), range(35), range(20, 35):
            other = first
            for i in several:
                other = turned(other, 4 + i, 0x5A)
            steps += GA + miss(1, first) + no(told(7, "payload", 16 + 8 * several[0], first[4 + several[0]] ^ 0x5A), other)
        # zeros held and zeros that come; a place that isn't held has nothing to differ from
        bare, full = sg(kind, 3, 9), sg(kind, 3, 9, bytes(20) + 15 * b"\xA7")
        steps += GA + miss(9, bare) + no(told(7, "payload", 176, 0xA7), full) + GA + miss(9, full) + no(told(7, "payload", 176, 0), bare)
        steps += GA + miss(9, full) + miss(8, sg(kind, 4, 9)) + miss(7, sg(kind, 2, 9, 35 * b"\xFF"))
        steps += no(told(7, "payload", 16, 255), sg(kind, 4, 9, 35 * b"\xFF"))
    return steps


def places():
    # all 16 places, a list being there: the first, the last or one between them
    steps = []
    for kind, number in itertools.product(OTHER, (0, 7, 8, 14, 15)):
        all16 = cut(chunk(LONG, kind), kind)
        for i in 0, 20, 34:
            other = turned(all16[number], 4 + i, 1)
            steps += GA + miss(15, all16[number]) + no(told(7, "payload", 16 + 8 * i, other[4 + i]), other) + no(SPOILED, all16[number])
        steps += GA + sent(LONG, kind) + miss(0, *all16) + no(told(7, "payload", 288, other[38]), other) + no(SPOILED, all16[15 - number])
        steps += (fr(LONG) if kind == "next" else NONE) + miss(15, all16[number])
    return steps


def ways():
    # spoiled before last number before payload, of one kind and the other; the other kind's slot has no part in it
    steps = []
    for kind, (first, second) in PIECES.items():
        only, (there, _) = SINGLE[kind], PIECES[OTHER[kind]]
        byte, other_last = told(7, "payload", 288, first[38] ^ 1), told(7, LAST, 12, 3)
        clashes = [(byte, bent(first, 0, 1)), (other_last, bent(first, 2)), (other_last, bent(first, 2, 1)), (other_last, bent(second, 2)),
                   (told(7, LAST, 12, 0), only)]
        for (says, clash), (before, after) in itertools.product(clashes, [([], []), (miss(1, there), miss(1, there)),
                                                                         (sent(ONE, OTHER[kind]), miss(0, SINGLE[OTHER[kind]]))]):
            steps += GA + before + miss(1, first) + no(says, clash) + no(SPOILED, clash, first, second, only) + after
        # a segment's own fault comes before the slot's, and leaves the slot as it is
        faults = [(0x8000, told(3, "FIC_segment_type", 0, 2)), (0x0100, told(4, "error_indicator", 7, 1)), (0x0C00, told(5, MAJOR, 4, 3)),
                  (0x00E0, told(6, NUMBER, 8, 14))]
        steps += GA + miss(1, first)
        for some in itertools.chain.from_iterable(itertools.combinations(faults, size) for size in range(1, 5)):
            steps += no(some[0][1], bent(first, sum(head for head, _ in some) | 2, 1)) + miss(1, first)
        # with a list, too
        steps += gives(TWO, kind, second) + miss(0, first) + no(told(7, LAST, 12, 0), only)
    return steps


def clearing():
    # a frame or a gathering empties the slots, held or spoiled; a chunk by itself doesn't
    steps = []
    for kind, (first, second) in PIECES.items():
        clash, says = bent(first, 0, 0x80), told(7, "payload", 288, first[38] ^ 0x80)
        for clear in GA, NONE:
            steps += GA + miss(1, first) + clear + miss(1, clash) + clear + miss(1, first) + no(says, clash) + ch(0, FIRST)
            steps += no(SPOILED, first, second) + clear + miss(1, first) + gives(TWO, kind, second) + no(says, clash)
            steps += (fr(TWO) if kind == "next" else NONE) + miss(1, second) + no(told(7, LAST, 12, 15), bent(second, 14)) + NONE
    return steps


def cuts():
    # every cut of chunks with every extension length, in one of the three places or in all; the second ensemble is unknown
    what = 0x0123, [(5, 4, 3, [(0x0A01, 0, 3, 0), (0x0A02, 1, 2, 1)]), (6, 7, 31, [(0x0B01, 2, 0, 0)], 9)]
    dresses = dict.fromkeys(itertools.chain.from_iterable([(n, 0, 0), (0, n, 0), (0, 0, n), (n, n, n)] for n in range(8)))
    dice, steps = Dice(9), []
    for n, (h, e, s) in enumerate([*dresses, (3, 1, 2), (1, 7, 5)]):
        whole = chunk(what, ("this", "next")[n % 2], n % 8, h, e, s, (zeros, ones, dice)[n % 3])
        for size in range(len(whole)):
            steps += ch(ends(size, what, h, e, s), whole[:size])
        steps += ch(0, whole, whole + b"\0", whole + 35 * b"\xFF")
    return steps


def counts():
    # nothing of the next thing is there: too many ensembles or services are said, or all that is there is whole
    steps = []
    for count in 1, 2, 127, 128, 255:
        steps += ch(told("9 at 5", "ensemble_id", 40, 5), bytes([0, 3, 1, 0x23, count]))
        steps += ch(told("9 at 9", "MH_service_id", 72, 9), bytes([0, 3, 1, 0x23, 1, 5, 0xE0 + count % 2, 0x83, count]))
    # stuffing is taken for more of them
    for size, field, bit in (558, "MH_service_id", 4464), (559, "MH_service_id", 4464), (560, "reserved", 4480):
        steps += ch(told("9 at 558", field, bit, size), turned(chunk(LONG, "this"), 8, 183 ^ 184).ljust(size, b"\xFF"))
    # ensembles without services; 560 bytes, with no more behind them
    empty = [(i, 0, 0, []) for i in range(138)]
    for ensembles in empty, [(*ensemble, 1 + i % 31) for i, ensemble in enumerate(empty)]:
        data = chunk((1, ensembles), "this")
        steps += ch(0, data, data + b"\0\0\0") + ch(told("9 at 557", "ensemble_id", 4456, 557), turned(data, 4, 138 ^ 139))
        steps += ch(told("9 at 557", "num_MH_services", 4480, 560), turned(data, 4, 138 ^ 139) + b"\0\0\0")
    full = chunk((1, plain(61)[1] + plain(0)[1] + plain(120)[1]), "this")
    assert len(full) == 560
    return steps + ch(0, full) + ch(told("9 at 560", "ensemble_id", 4480, 560), turned(full, 4, 3 ^ 4))


def lengths():
    # zeros say that there is no ensemble; ones are of major version 3
    header_short = told("9 at 0", "transport_stream_id", 16, 2)
    steps = ch(told("9 at 0", MAJOR, 0, 0), b"")
    for byte in range(256):
        steps += ch(told("9 at 0", "ensemble_loop_header_extension_length", 8, 1), bytes([byte]))
        steps += ch(told(5, MAJOR, 0, byte >> 6) if byte >> 6 else header_short, bytes([byte, 255 - byte]))
    steps += ch(told("9 at 0", "transport_stream_id", 16, 3), bytes(3)) + ch(told("9 at 0", "num_ensembles", 32, 4), bytes(4))
    for size in 5, 6, 12, 34, 35, 36, 255, 256, 257, 511, 512, 559, 560:
        steps += ch(0, bytes(size)) + ch(told(5, MAJOR, 0, 3), size * b"\xFF")
    for size in 561, 562, 595, 1120, 65535:
        steps += ch(told(8, "length", 0, size), FIRST.ljust(size, b"\xFF"))
    steps += ch(told(8, "length", 0, 561), bytes(561), 561 * b"\xFF")
    return steps + ch(0, FIRST, FIRST.ljust(560, b"\xFF"))


def orders():
    # several faults in one chunk, by itself or completed: 8, 9 if there are under two bytes, 5, 9, and 10 at last
    steps = []
    for major in 1, 2, 3:
        first, says = bytes([major << 6 | 7]), told(5, MAJOR, 0, major)
        steps += ch(told("9 at 0", "ensemble_loop_header_extension_length", 8, 1), first)
        steps += ch(told(8, "length", 0, 561), first + 560 * b"\xFF")
        steps += ch(says, *(first + size * b"\xFF" for size in (1, 2, 3, 4, 11, 559)))
        for kind, of in itertools.product(OTHER, repeat=2):
            segment, = cut(bytes([major << 6, of == "this", 1, 0x23, 255]), kind)
            steps += GA + no(says, segment) + miss(0, segment) + no(told(7, "payload", 288, 0xFE), bent(segment, 0, 1))
    for kind, of in itertools.product(OTHER, repeat=2):
        # 255 ensembles, of which the first has 255 services
        segment, = cut(bytes([0, of == "this", 1, 0x23, 255, 5, 0xE0, 0, 255]), kind)
        steps += GA + no(told("9 at 33", "reserved", 280, 35), segment) + miss(0, segment)
    for kind in OTHER:
        segment, = cut(chunk(ONE, OTHER[kind]), kind)
        steps += GA + no(10, segment) + miss(0, segment, segment) + no(told(7, "payload", 16, 8), turned(segment, 4, 8))
        steps += no(SPOILED, segment)
    return steps


def completed():
    # the list is longer than its segments: every field that can be at fault, some times, in one piece, in two and in 16, in any order
    dice, steps, taken = Dice(10), [], collections.Counter()
    what = 0x0123, [(i, i % 8, i % 32, plain(i % 5)[1][0][3], *[1 + i % 31] * (i % 3 == 0)) for i in range(64)]
    for count, kind, dress in itertools.product((1, 2, 16), OTHER, itertools.product(range(8), (0, 2, 7), (0, 1, 7))):
        says = ends(35 * count, what, *dress)
        case = count, kind, field_of(*f"SG {says}".split("\n"))
        taken[case] += 1
        if taken[case] <= (1 if count == 16 else 5):
            data = chunk(what, kind if dice(3) else OTHER[kind], dice(8), *dress, dice)[:35 * count]
            *before, last = dice.shuffled(cut(data, kind, dice))
            steps += GA + wait(*before) + no(says, last) + miss(0, *before[:1], last)
    assert len(taken) == 3 * 2 * len(BODY)
    return steps


def other_major():
    # a completed chunk of another major version than its segments say, whichever piece comes last; the list from before stays
    steps = []
    for kind, major in itertools.product(OTHER, (1, 2, 3)):
        for what in ONE, TWO, plain(24):
            for order in 1, -1:
                *before, last = cut(turned(chunk(what, kind), 0, major << 6), kind)[::order]
                steps += sent(ONE, "next") + GA + wait(*before) + no(told(5, MAJOR, 0, major), last) + miss(0, last, *before)
                steps += no(told(5, MAJOR, 4, major), bent(last, major << 10)) + fr(ONE)
    return steps


def between():
    # chunks by themselves change nothing on the desk: pieces, lists, and a spoiled slot stay
    chunks = ch(0, FIRST, chunk(TWO, "next")) + ch(told(5, MAJOR, 0, 2), b"\x80\x03") + ch(told(8, "length", 0, 561), bytes(561))
    chunks += ch(told("9 at 0", MAJOR, 0, 0), b"") + ch(told("9 at 9", "reserved", 88, 11), FIRST[:11])
    what, steps = plain(24), list(chunks)
    for kind in OTHER:
        for step in sent(what, kind):
            steps += [step] + chunks
        piece, _ = step
        steps += miss(0, piece) + chunks + no(told(7, "payload", 288, piece[38] ^ 1), bent(piece, 0, 1)) + chunks + no(SPOILED, piece)
    return steps + chunks + fr(what) + chunks + NONE + chunks


def fullest():
    # the most that comes of so many bytes of input
    return ch(told("9 at 0", MAJOR, 0, 0), b"") * 5000


def tiny_records():
    # as many records as there can be, over a block's length
    return GA * 33000


def broken():
    """By name, inputs that end with an unknown mark or a cut record; nothing is read behind that."""
    whole, segment = record(CHUNK_MARK, FIRST), SINGLE["this"]
    tails = {"mark_cut_c": b"C", "mark_cut_f": b"F", "mark_cut_g": b"G", "mark_cut_s": b"S", "mark_cut_other": b"H",
             "mark_unknown": b"SE" + whole[2:] + whole, "mark_half": b"CG" + whole[2:], "mark_half_other": b"SH" + segment[2:],
             "mark_swapped": b"HC" + whole[2:], "mark_lower": b"ch" + whole[2:], "length_none": b"CH", "length_cut": whole[:3],
             "content_none": whole[:4], "content_cut": whole[:-1], "segment_none": b"SG", "segment_cut": segment[:-1]}
    for name, tail in tails.items():
        yield name + "_alone", [(tail, "END 15")]
        yield name, miss(1, PIECES["next"][0]) + ch(told("9 at 0", "num_ensembles", 32, 4), FIRST[:4]) + [(tail, "END 15")]
    yield "content_long", ch(0, FIRST) + [(b"CH" + 65536 * b"\xFF", "END 15")]


def by_hand():
    """What the program can't be asked: segments of any length, and slots that aren't as a desk keeps them."""
    first, _ = (piece[2:] for piece in PIECES["this"])
    held, rest = first[2:], bytes(525)
    assert [explain_segment(bytes(size)) for size in (0, 36, 38)] == [(2, "length", 0, 0), (2, "length", 0, 36), (2, "length", 0, 38)]
    assert explain_gathered(first + b"\0", 0, None, True, b"") == (2, "length", 0, 38)
    assert explain_segment(first) is explain_chunk(FIRST) is explain_gathered(first, 0, 9, False, b"") is None
    assert explain_gathered(first, 1, 1, False, held + rest) is explain_gathered(first, 0x8001, 1, False, held) is None
    for args, fault in [((1, 1, False, b""), ("payload", 16, 0)), ((1, 1, False, held[:34]), ("payload", 288, held[34])),
                        ((1, 1, False, held[:3] + rest), ("payload", 40, held[3])), ((1, 17, False, b""), (LAST, 12, 1)),
                        ((2, 0, False, b""), (LAST, 12, 1)), ((1, 0, True, rest), ("slot spoiled", None, None))]:
        assert explain_gathered(first, *args) == (7, *fault), args
    assert explain_gathered(first, 0xFFFE, 1, False, bytes(560)) is None


def shown(name, text, status):
    """What is printed for a case, read in blocks of both lengths."""
    return b"".join(f"{name}, blocks of {size}\n".encode() + text + f"status {status}\n".encode() for size in BLOCKS)


def shape_of(line):
    return re.sub(r"(FR|missing|list \w+|at) \d+$", lambda found: found[0] if found[0] == "missing 0" else f"{found[1]} n", line)


def field_of(line, under):
    """The line, and the field at fault that stands under it: that of 5 with its offset, and a reserved one with the thing that it's in."""
    field, bit = re.fullmatch(r"  (.*?)(?: at bit (\d+) is \d+)?", under).groups()
    if field == MAJOR and line[3] == "5":
        field += f" at bit {bit}"
    if line[3] == "9":
        # a thing has at most 12 bytes
        into = int(bit) - 8 * int(line.split()[-1])
        assert 0 <= into < 8 * 12
        field += {8: " of an ensemble", 16: " of a service"}[into] if field == "reserved" else ""
    return shape_of(line), field


def counted(text):
    """How often each line occurs that has no other under it, and each field at fault under its line."""
    lines = [line for line in text.decode().splitlines() if line[:4] != "5453"]
    pairs = [(line, under) for line, under in zip(lines, [*lines[1:], ""]) if line[0] != " "]
    return collections.Counter(field_of(line, under) if under[:1] == " " else shape_of(line) for line, under in pairs)


def as_log(data, text):
    """Are the lines those of log, if chunks and what is at fault are left out?"""
    logged = transcript(b"".join(mark + content for mark, content in records(data)[0] if mark != CHUNK_MARK)).splitlines()
    return logged[:-1] == [line for line in text.decode().splitlines() if line[:2] not in ("  ", "CH")][:-1]


def main():
    by_hand()
    cases = {make.__name__: make() for make in (worked, first_byte, second_byte, payloads, places, ways, clearing, cuts, counts, lengths,
                                                orders, completed, other_major, between, fullest, tiny_records)}
    cases |= {"empty": []} | dict(broken()) | {"long_run": [(long_run(), None)]}
    (CRATES / "explain_samples/data").mkdir(parents=True, exist_ok=True)
    (CRATES / "explain").mkdir(exist_ok=True)
    total, output = collections.Counter(), b""
    for name, steps in cases.items():
        data, answers = b"".join(record for record, _ in steps), [answer for _, answer in steps]
        text, status = explain(data)
        assert name == "long_run" or text == "\n".join(answers + ([""] if "END 15" in answers else ["END 0", ""])).encode(), name
        assert as_log(data, text), name
        (CRATES / "explain_samples/data" / name).write_bytes(data)
        output += shown(name, text, status)
        total += counted(text)
        print(f"{name:24} {len(data):6} bytes, prints {len(text):6}")
        if name == "worked":
            (CRATES / "explain/stdin").write_bytes(data)
            (CRATES / "explain/stdout").write_bytes(text)
    # a folder can't be read: nothing is printed, not even the last line, and the status is 1
    output += shown(".", b"", 1)
    (CRATES / "explain_samples/args").write_text("\n".join([*cases, "."]) + "\n")
    (CRATES / "explain_samples/stdout").write_bytes(output)
    every = SHAPES + [(line, field) for line, fields in FAULTS.items() for field in fields]
    assert set(total) == set(every), set(total) ^ set(every)
    for what in every:
        print(f"{what if what in SHAPES else ', '.join(what):58} {total[what]:6}")


if __name__ == "__main__":
    main()
