#!/usr/bin/env python3
"""Writes what the program guide must print: GAT-MH sections once more, in Python, from Table 7.4 and document 02 alone.

    python3 tests/guide.py < SECTIONS
"""
import sys
from typing import NamedTuple

sys.dont_write_bytecode = True

from tunnel import contents

SECTION_MARK, TABLE = b"SE", 0xDC
SHORTEST, LENGTH = 9, 4093  # the bytes up to the first count and with it, and the largest section_length
LOOPS = 8                   # where that count is


class Answer(NamedTuple):
    """What is said of a section that changes nothing; of any other, whether it's a repeat, and how many sections are missing."""
    refusal: str = ""
    repeat: bool = False
    missing: int = 0

    def says(self):
        return self.refusal or f"0 {'repeat ' * self.repeat}missing {self.missing}"


class Gathering:
    """The section numbers noted, all of one version_number and last_section_number. A fresh one is empty, and has neither."""

    def __init__(self):
        self.table, self.noted = None, set()

    def read(self, section):
        """The answer to a section."""
        refusal, _ = looked_at(section)
        if refusal:
            return Answer(refusal)
        version, number, last = section[5] >> 1 & 31, section[6], section[7]
        if self.table != (version, last):
            self.table, self.noted = (version, last), set()
        repeat = number in self.noted
        self.noted.add(number)
        return Answer(repeat=repeat, missing=last + 1 - len(self.noted))


def looked_at(section):
    """Why the section changes nothing, in words, or no words; and the names of its providers, if it's in order."""
    if not section:
        return "20", []
    if section[0] != TABLE:
        return "not ours", []
    length = int.from_bytes(section[1:3], "big") & 0xFFF
    if len(section) < SHORTEST or length > LENGTH or length + 3 != len(section):
        return "20", []
    if section[3] != 0:
        return "21", []
    if section[5] & 1 == 0:
        return "not yet", []
    if section[6] > section[7]:
        return "22", []
    try:
        return "", Walk(section).names()
    except Misfit as misfit:
        return f"23 at {misfit}", []


def names(section):
    """The names of its providers, in order; there are none if the section is refused, not ours or not yet in force."""
    return looked_at(section)[1]


class Misfit(Exception):
    """Something runs past the section's end, or is left over: the offset where it begins."""


class Walk:
    """Goes through a section's loops, from count to name to descriptor."""

    def __init__(self, section):
        self.section, self.at = section, LOOPS

    def step(self, head, more):
        """The next thing's bytes: so many, and if there is more to it, then as many more as the last of them says."""
        size = head
        if more and self.at + head <= len(self.section):
            size += self.section[self.at + head - 1]
        if self.at + size > len(self.section):
            raise Misfit(self.at)
        self.at += size
        return self.section[self.at - size:self.at]

    def count(self):
        return self.step(1, False)[0]

    def descriptors(self):
        for _ in range(self.count()):
            self.step(2, True)

    def names(self):
        """All of the section, which gives the names."""
        found = []
        for _ in range(self.count()):
            found.append(self.step(1, True)[1:])
            self.descriptors()
        self.descriptors()
        if self.at < len(self.section):
            raise Misfit(self.at)
        return found


def shown(name):
    """As it is printed: nothing in it can steer a terminal."""
    return "".join("\\\\" if byte == 0x5C else chr(byte) if 0x20 <= byte <= 0x7E else f"\\x{byte:02x}" for byte in name)


def guide(data):
    """What the program prints, and its exit status."""
    gathering, lines = Gathering(), []
    sections, status = contents(SECTION_MARK, data)
    for section in sections:
        answer = gathering.read(section)
        lines.append(f"SE {answer.says()}")
        if not answer.repeat:
            lines += [f"name {n} {shown(name)}" if name else f"name {n}" for n, name in enumerate(names(section))]
    return "\n".join(lines + [f"END {status}", ""]).encode(), status


if __name__ == "__main__":
    printed, status = guide(sys.stdin.buffer.read())
    sys.stdout.buffer.write(printed)
    sys.exit(status)
