#!/usr/bin/env python3
"""Writes the case files here, and beside each the lines that document 01 says it prints.

The records and their answers are typed from document 01 ('Worked records', 'Case file' and the
refusals' order); nothing here runs the port or the Rust.
"""
import struct
from pathlib import Path


def record(r_type, section, offset, flags, kind, *, executable=1, address=0, addend=-4, mark="5258", length=None):
    """A record's bytes: mark, type, flags, output kind, executable, offset, length, address, addend, section."""
    section = bytes.fromhex(section)
    length = len(section) if length is None else length
    head = struct.pack("<BBBBHHQq", r_type, flags, kind, executable, offset, length, address, addend)
    return bytes.fromhex(mark) + head + section


def write(name, records, lines):
    here = Path(__file__).parent
    (here / f"{name}.case").write_bytes(b"".join(records))
    (here / f"{name}.lines").write_text("".join(f"{n} {line}\n" for n, line in enumerate(lines, 1)))


def worked():
    """Document 01's worked records of relaxing, in its order; "mandatory" is as 'Choosing' has it."""
    rows = [
        (record(42, "48 8B 2D", 3, 1, 1), "0 0 3 -4 2 0 1 488d2d"),
        (record(42, "48 8B 2D", 3, 3, 1), "2 3 3 0 11 0 1 48c7c5"),
        (record(42, "48 8B 2D", 3, 3, 1, addend=-3), "none 488b2d"),
        (record(43, "D5 48 8B 2D", 4, 3, 1), "2 4 4 0 11 0 1 d518c7c5"),
        (record(43, "90 48 8B 2D", 4, 3, 1), "2 4 4 0 11 0 1 9018c7c5"),
        (record(42, "48 8B 2D", 3, 3, 1, address=2147483647), "2 3 3 0 11 0 1 48c7c5"),
        (record(42, "48 8B 2D", 3, 3, 1, address=2147483648), "none 488b2d"),
        (record(41, "8B 2D", 2, 3, 1, address=4294967295), "1 0 2 0 10 0 1 c7c5"),
        (record(41, "8B 2D", 2, 3, 1, address=4294967296), "none 8b2d"),
        (record(41, "FF 25 00 00 00 00", 2, 1, 1), "8 0 1 -4 2 0 1 e90000000090"),
        (record(41, "FF 25 00 00 00", 2, 1, 1), "refused 6 ff25000000"),
        (record(35, "FF 10", 0, 0, 3), "18 0 0 -4 0 0 0 6690"),
        (record(35, "FF", 0, 0, 3), "refused 6 ff"),
        (record(22, "4C 03 25", 3, 1, 2), "3 3 3 0 23 0 0 4981c4"),
        (record(50, "62 74 FC 10 03 25", 6, 1, 0), "3 6 6 0 23 0 1 62d4fc1081c4"),
    ]
    write("worked", *zip(*rows))


def plants():
    """The README's example: the same load into %rbp and into %r13."""
    rows = [
        (record(42, "48 8B 2D 00 00 00 00", 3, 1, 0, address=0x401000), "2 3 3 0 11 0 0 48c7c500000000"),
        (record(42, "4C 8B 2D 00 00 00 00", 3, 1, 0, address=0x401000), "2 3 3 0 11 0 0 49c7c500000000"),
    ]
    write("plants", *zip(*rows))


def refusals():
    """2, 3, 4 leave the section as it was, and reading goes on; 2 comes before 3, and 3 before 4."""
    rows = [
        (record(42, "48 8B 2D", 4, 16, 6), "refused 2 488b2d"),
        (record(42, "48 8B 2D", 3, 16, 6), "refused 3 488b2d"),
        (record(42, "48 8B 2D", 3, 1, 6), "refused 4 488b2d"),
        (record(42, "", 0, 1, 6), "refused 4 -"),
        (record(1, "", 0, 0, 0), "none -"),
    ]
    write("refusals", *zip(*rows))


def addends():
    """A type that keeps the addend, at its ends: the least has no magnitude among the signed numbers."""
    ends = [-(2**63), -(2**63) + 1, -(10**18), -(10**18) + 1, -10, -9, -1, 0, 1, 9, 10, 2**31, 2**63 - 1]
    write("addends", [record(4, "", 0, 1, 0, addend=a) for a in ends], [f"9 0 0 {a} 2 0 1 -" for a in ends])


def longest():
    """A section of 4,096 bytes isn't refused, and one of 4,097 is though all its bytes are there."""
    zeros = "00" * 4094
    rows = [
        (record(1, zeros + "0000", 4096, 0, 0), f"none {zeros}0000"),
        (record(35, zeros + "FF10", 4094, 0, 3), f"18 0 4094 -4 0 0 0 {zeros}6690"),
        (record(1, zeros + "000000", 0, 0, 0), "refused 13 -"),
    ]
    write("longest", *zip(*rows))


def stops():
    """10 to 13 stop reading: what follows isn't read. Each file's fault hides those that come after it."""
    good = record(1, "00", 0, 0, 0)
    late = record(1, "00", 0, 0, 0, mark="5259", executable=2, length=4097)
    write("mark", [good, late, good], ["none 00", "refused 10 -"])
    write("executable", [good, record(1, "00", 0, 0, 0, executable=2, length=4097), good], ["none 00", "refused 12 -"])
    write("length", [good, record(1, "00", 0, 0, 0, length=4097)], ["none 00", "refused 13 -"])
    write("head", [good, late[:25]], ["none 00", "refused 11 -"])
    write("section", [good, record(1, "00", 0, 0, 0, length=2)], ["none 00", "refused 11 -"])
    write("empty", [], [])


if __name__ == "__main__":
    worked()
    plants()
    refusals()
    addends()
    longest()
    stops()
