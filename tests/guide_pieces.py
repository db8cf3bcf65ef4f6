"""What the stored inputs of tests/guide_samples.py are made of: sections as Table 7.4 lays them out, and cases, from document 02.

A provider is a tuple: its name, then its descriptors. A descriptor is all of its bytes, with tag and length.
"""
import string
import struct

from guide import SECTION_MARK
from tunnel import record

# what is printed as it is
PLAIN = set((string.ascii_letters + string.digits + string.punctuation + " ").encode()) - set(b"\\")


def descriptor(tag, data=b""):
    return bytes([tag, len(data)]) + data


TIDE = b"Tide Tables Ltd", descriptor(0x80, b"high and low"), descriptor(0x81)
WEATHER = "Météo du Port".encode(), descriptor(0x80, b"wind")
GALE = b"Gale Watch",


def parts(providers, additional=()):
    """What the loops are made of, in order, each with all of its bytes: counts, names with their lengths, and descriptors."""
    found = [bytes([len(providers)])]
    for name, *descriptors in providers:
        found += [bytes([len(name)]) + name, bytes([len(descriptors)]), *descriptors]
    return found + [bytes([len(additional)]), *additional]


def section(providers=(), number=0, last=0, version=0, additional=(), loops=None, table=0xDC, syntax=0, private=1, two=3, length=None,
            protocol=0, eight=255, pair=3, current=1):
    """Any field may be given; loops are those of the providers, and the length is right, unless they are given too. Two, eight and pair are
    the reserved bits, from front to back."""
    loops = b"".join(parts(providers, additional)) if loops is None else loops
    length = 5 + len(loops) if length is None else length
    bits, flags = syntax << 15 | private << 14 | two << 12 | length, pair << 6 | version << 1 | current
    return struct.pack(">BHBBBBB", table, bits, protocol, eight, flags, number, last) + loops


def mended(data):
    """The section with its section_length put right, if all of that field is there."""
    return data[:1] + struct.pack(">H", data[1] << 8 & 0xF000 | len(data) - 3) + data[3:] if len(data) > 2 else data


def printed(name):
    return "".join(chr(byte) if byte in PLAIN else "\\\\" if byte == ord("\\") else f"\\x{byte:02x}" for byte in name)


class Case:
    """Records, and the lines that they bring."""

    def __init__(self):
        self.records, self.lines = [], []

    def se(self, data, says, *texts):
        """A section, what is said of it, and its names as they are printed."""
        self.records.append(record(SECTION_MARK, data))
        self.lines += [f"SE {says}"] + [f"name {n} {text}" if text else f"name {n}" for n, text in enumerate(texts)]

    def noted(self, missing, *providers, **fields):
        self.se(section(providers, **fields), f"0 missing {missing}", *(printed(name) for name, *_ in providers))

    def repeat(self, missing, *providers, **fields):
        self.se(section(providers, **fields), f"0 repeat missing {missing}")

    def end(self, tail=b""):
        """All that comes, and what the program must print."""
        return b"".join(self.records) + tail, "\n".join(self.lines + ["END 15" if tail else "END 0", ""]).encode()
