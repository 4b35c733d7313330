#!/usr/bin/env python3
"""Writes lines for crates/replay_machine of bytes that are no instruction of document 01's machine ("Other bytes: no step").

The layout is that of cpu_vectors.c, with 128 added to the length. No field of the state is 0, so that whatever a step
that stops tells is seen. Typed from document 01 and Intel's manuals; nothing here runs the port.
"""
import random
import struct

FIELD = "11223344"
REX = range(0x40, 0x50)
SLOTS = [0x8B, 0x03, 0x2B, 0x3B, 0x8D]
OPCODES = [*SLOTS, 0xC7, 0x81, 0xFF, 0xE8, 0xE9]


def codes():
    for b in range(256):
        if b not in REX and b not in (*OPCODES, 0xD5, 0x67):
            yield f"{b:02x}05{FIELD}"
            yield f"48{b:02x}05{FIELD}"
            yield f"d508{b:02x}05{FIELD}"
    for o in SLOTS:  # not RIP-relative: no base, a short and a long displacement, a register
        for modrm in ("00", "04", "45", "85", "c5"):
            yield f"48{o:02x}{modrm}{FIELD}"
    for o, digits in ((0xC7, (0,)), (0x81, (0, 5, 7))):
        for n in range(8):
            if n not in digits:
                yield f"48{o:02x}{0xC0 + 8 * n:02x}{FIELD}"
        for mod in (0x05, 0x45, 0x85):
            yield f"48{o:02x}{mod + 8 * digits[-1]:02x}{FIELD}"
    for n in range(8):
        if n not in (2, 4):
            yield f"ff{0x05 + 8 * n:02x}{FIELD}"
    for modrm in ("10", "20", "55", "65", "95", "a5", "d0", "e0"):
        yield f"ff{modrm}{FIELD}"
    yield from (f"67{code}{FIELD}" for code in ("8b05", "e9", "48e8", "ff15", "67e8", "d508e8"))
    yield from (f"4848{code}{FIELD}" for code in ("8b05", "e8", "ff15"))
    # the payload's top bit names another map, and REX2 takes no opcode of the row E0
    yield from (f"d5{code}{FIELD}" for code in ("808b05", "c88b05", "ff81c0", "08e8", "08e9", "00e8", "0840", "08d5"))


def main():
    seeded = random.Random(1)
    word = lambda: seeded.randrange(1, 2**64)
    for code in map(bytes.fromhex, codes()):
        registers = struct.pack("<16Q", *(word() for _ in range(16)))
        state = registers + bytes([seeded.randrange(1, 64)])
        head = bytes([128 + len(code)]) + code.ljust(12, b"\0")
        print((head + struct.pack("<QQQ", word(), 0, word()) + state + state + bytes(8) + b"\xa5" * 8).hex())


if __name__ == "__main__":
    main()
