#!/usr/bin/env python3
"""Prints llvm-mc's encodings, then document 01's worked records, as lines for replay_relax.

Usage: make_encodings.py >list     (LLVM_MC names another llvm-mc, 20 or newer)

A line is 140 bytes in lower-case hex, numbers low byte first:
  0 function (4 llvm-mc, 5 document 01), 1 type (4), 5 flags, 6 output kind, 7 executable,
  8 offset (8), 16 address (8), 24 addend (8), 32 section length, 33 section before (40),
  73 refusal, 74 whether a kind was chosen, 75 kind, 76 instruction offset, 77 new type (4),
  81 mandatory, 82 skip, 83 needs_got_fallback, 84 new offset (8), 92 new addend (8),
  100 section after (40).
"""
import os
import struct
import subprocess
import sys
import tempfile
from collections import Counter
from itertools import product
from pathlib import Path
from typing import NamedTuple

HERE = Path(__file__).resolve().parent
LLVM_MC = os.environ.get("LLVM_MC", "llvm-mc-22")
OPTIONS = ["-triple=x86_64", "-mattr=+egpr,+ndd,+nf,+fast-15bytenop"]
LOW = ["ax", "cx", "dx", "bx", "sp", "bp", "si", "di"]
SECTION = 40

# Kinds, by their place in RelaxationKind.
LEA, ABSOLUTE, REX_MOV, REX_ADD, REX_SUB, REX_CMP, CALL, JMP, NO_OP = 0, 1, 2, 3, 5, 6, 7, 8, 9
GD_LE, GD_LE_LARGE, LD_LE, LD_LE_NO_PLT, LD_LE_64, GD_IE = range(10, 16)
DESC_LE, DESC_IE, DESC_CALL = range(16, 19)
SKIPS = range(GD_LE, GD_IE + 1)

# New types of llvm-mc's that document 01 names otherwise: (llvm-mc's, 01's). README.md says why.
NAMED_OTHERWISE = {(4, 2), (44, 22), (11, 10)}


class Case(NamedTuple):
    kind: int
    inst_offset: int
    old_type: int
    new_type: int
    old: str
    new: str
    choices: list
    # Where the new code has no relocation: how far 01's offset moves.
    moves: int = 0
    addresses: tuple = (0, 0x401000, 0xFFFFFFFFFFFFFFFF, 0x123456789ABCDEF0)


def choices(flags, outputs, mandatory=(), executable=(1,)):
    """Flags, output kinds and executable for which 01 chooses the kind, with its mandatory."""
    return [(f, o, x, int(o in mandatory)) for f, o, x in product(flags, outputs, executable)]


ALL, FIXED, STATIC, RUNS = range(6), (0, 2), (0, 1), range(4)
N, NOT_N = (1, 3, 5, 7), (0, 2, 4, 6)
# Absolute or at a known address; neither.
KNOWN = choices((3,), ALL, STATIC) + choices((1,), FIXED)
KNOWN_32 = choices((3,), ALL, STATIC) + choices((1,), FIXED, STATIC)
UNKNOWN = choices((1,), (1, 3, 4, 5), STATIC) + choices((5, 7), ALL, STATIC)


def quad(number):
    return "%r" + (LOW[number] if number < 8 else str(number))


def double(number):
    return "%e" + LOW[number] if number < 8 else f"%r{number}d"


def got():
    """mov, sub and cmp through the GOT: all 32 registers, types 42 and 43; 9; 41 without REX."""
    for number in range(32):
        r, rex2 = quad(number), int(number > 15)
        for name, kind in (("movq", REX_MOV), ("subq", REX_SUB), ("cmpq", REX_CMP)):
            yield Case(kind, 3 + rex2, 42 + rex2, 11, f"{name} foo@GOTPCREL(%rip), {r}", f"{name} $foo, {r}",
                       KNOWN, addresses=(0, 0x401000, 0x7FFFFFFF, 0xFFFFFFFF80000000))
        yield Case(LEA, 0, 42 + rex2, 2, f"movq foo@GOTPCREL(%rip), {r}", f"leaq foo(%rip), {r}", UNKNOWN)
        yield Case(LEA, 0, 9, 2, f"movq foo@GOTPCREL_NORELAX(%rip), {r}", f"leaq foo(%rip), {r}",
                   choices((1,), ALL) + choices((3, 5, 7), FIXED))
    for number in range(8):
        old = f"movl foo@GOTPCREL(%rip), {double(number)}"
        yield Case(LEA, 0, 41, 2, old, f"leal foo(%rip), {double(number)}", UNKNOWN)
        yield Case(ABSOLUTE, 0, 41, 10, old, f"movq $foo, {quad(number)}", KNOWN_32,
                   addresses=(0, 0x401000, 0x7FFFFFFF, 0xFFFFFFFF))
    for choice in choices(N, ALL, (1,)):
        yield Case(CALL, 0, 41, 2, "call *foo@GOTPCREL(%rip)", "addr32 call foo", [choice])
        yield Case(JMP, 0, 41, 2, "jmp *foo@GOTPCREL(%rip)", "jmp foo\nnop", [choice])


def initial_exec():
    """mov and add of a thread-local offset: types 22 and 44, and 50 with EVEX."""
    for number in range(32):
        r, rex2 = quad(number), int(number > 15)
        for name, kind, mandatory in (("movq", REX_MOV, STATIC), ("addq", REX_ADD, ())):
            yield Case(kind, 3 + rex2, 44 if rex2 else 22, 23, f"{name} var@GOTTPOFF(%rip), {r}",
                       f"{name} $var@TPOFF, {r}", choices(N, RUNS, mandatory))
        to = quad((number * 5 + 7) % 32)
        for prefix in ("", "{nf} "):
            new = f"{prefix}addq $var@TPOFF, {r}, {to}"
            for operands in (f"{r}, var@GOTTPOFF(%rip)", f"var@GOTTPOFF(%rip), {r}"):
                yield evex(f"{prefix}addq {operands}, {to}", new)
        yield evex(f"{{nf}} addq var@GOTTPOFF(%rip), {r}", f"{{nf}} addq $var@TPOFF, {r}")


def evex(old, new):
    return Case(REX_ADD, 6, 50, 23, old, new, choices(N, RUNS, STATIC))


def descriptors():
    """TLS descriptors: type 34, 45 with REX2 for all 32 registers, and the call."""
    for number in range(48):
        rex2 = int(number > 15)
        prefix = "{rex2} " if 15 < number < 32 else ""
        r = quad(number % 16 if number < 32 else number - 16)
        old = f"{prefix}leaq var@TLSDESC(%rip), {r}"
        old_type = 45 if rex2 else 34
        yield Case(DESC_LE, 3 + rex2, old_type, 23, old, f"{prefix}movq $var@TPOFF, {r}",
                   choices(N, RUNS, STATIC))
        yield Case(DESC_IE, 0, old_type, 22, old, f"{prefix}movq var@GOTTPOFF(%rip), {r}",
                   choices(NOT_N, RUNS, STATIC))
    for choice in choices(range(8), RUNS, STATIC):
        yield Case(DESC_CALL, 0, 35, 0, "call *var@TLSCALL(%rax)", "xchg %ax, %ax", [choice])


THREAD = "movq %fs:0, %rax\n"
GD = "data16\nleaq var@TLSGD(%rip), %rdi\n"
GD_CALLS = ("data16\ndata16\nrex64\ncall __tls_get_addr@PLT",
            "data16\nrex64\ncall *__tls_get_addr@GOTPCREL(%rip)")
LARGE_CALL = "movabsq $__tls_get_addr@PLTOFF, %rax\naddq %rbx, %rax\ncall *%rax"


def general_dynamic():
    for choice in choices(N, RUNS, STATIC):
        for call in GD_CALLS:
            yield Case(GD_LE, 0, 19, 23, GD + call, THREAD + "leaq var@TPOFF(%rax), %rax", [choice])
        yield Case(GD_LE_LARGE, 0, 19, 23, "leaq var@TLSGD(%rip), %rdi\n" + LARGE_CALL,
                   THREAD + "leaq var@TPOFF(%rax), %rax\n.nops 6", [choice])
    for choice in choices(NOT_N, RUNS):
        for call in GD_CALLS:
            yield Case(GD_IE, 0, 19, 22, GD + call, THREAD + "addq var@GOTTPOFF(%rip), %rax", [choice])


def local_dynamic():
    old = "leaq var@TLSLD(%rip), %rdi\n"
    for kind, call, new, moves, mandatory in (
        (LD_LE, "call __tls_get_addr@PLT", "data16\n" * 3 + THREAD, 5, STATIC),
        (LD_LE_NO_PLT, "call *__tls_get_addr@GOTPCREL(%rip)", "data16\n" * 4 + THREAD, 5, STATIC),
        (LD_LE_64, LARGE_CALL, ".nops 13\n" + THREAD, 15, ()),
    ):
        for choice in choices(range(8), RUNS, mandatory):
            yield Case(kind, 0, 20, 0, old + call, new, [choice], moves)


def no_ops():
    """Another type for the same bytes: 4 to 2, 31 to 25, and 2 to 4 for an ifunc."""
    for choice in choices(N, ALL, STATIC):
        for name in ("call", "jmp", "je"):
            yield Case(NO_OP, 0, 4, 2, f"{name} foo@PLT", f"{name} foo", [choice])
        yield Case(NO_OP, 0, 4, 2, ".long foo@PLT - .", ".long foo - .", [choice])
    for number in range(32):
        r = quad(number)
        yield Case(NO_OP, 0, 31, 25, f"movabsq $foo@PLTOFF, {r}", f"movabsq $foo@GOTOFF, {r}",
                   choices(N, ALL, STATIC))
        yield Case(NO_OP, 0, 2, 4, f"leaq foo(%rip), {r}", f"leaq foo@PLT(%rip), {r}",
                   choices(range(8, 16), ALL, ALL, (0, 1)))


def fail(text):
    sys.exit(f"make_encodings.py: {text}")


def numbered(cases):
    """The cases, each with its number among those of its kind and type."""
    turns = Counter()
    for case in cases:
        turns[case.kind, case.old_type] += 1
        yield turns[case.kind, case.old_type] - 1, case


def padded(text, turn):
    """The code between nops, so that it stands at several offsets."""
    return "nop\n" * ((turn + turn // 5) % 5) + text + "\n" + "nop\n" * (turn % 3)


def assemble(cases):
    """An object with the sections .old.N and .new.N for each case, and .type.N."""
    source = ""
    for index, (turn, case) in enumerate(cases):
        for name, text in (("old", case.old), ("new", case.new)):
            source += f'.section .{name}.{index},"ax",@progbits\n{padded(text, turn)}'
        if case.kind == ABSOLUTE:
            source += f'.section .type.{index},"ax",@progbits\n{case.old.replace("foo@GOTPCREL(%rip)", "$foo")}\n'
    with tempfile.TemporaryDirectory() as folder:
        out = Path(folder, "code.o")
        subprocess.run([LLVM_MC, *OPTIONS, "-filetype=obj", "-o", out, "-"], input=source.encode(), check=True)
        return out.read_bytes()


def text_at(table, at):
    return table[at:table.index(b"\0", at)].decode()


def sections(elf):
    """Each section's bytes and its relocations (offset, type, addend, symbol), by name."""
    at, = struct.unpack_from("<Q", elf, 40)
    size, count, names = struct.unpack_from("<HHH", elf, 58)
    headers = [struct.unpack_from("<IIQQQQIIQQ", elf, at + size * i) for i in range(count)]
    data = [b"" if h[1] == 8 else elf[h[4]:h[4] + h[5]] for h in headers]
    found = {text_at(data[names], h[0]): (data[i], []) for i, h in enumerate(headers)}
    for i, h in enumerate(headers):
        if h[1] != 4:
            continue
        strings = data[headers[h[6]][6]]
        target = found[text_at(data[names], headers[h[7]][0])][1]
        for offset, info, addend in struct.iter_unpack("<QQq", data[i]):
            name, = struct.unpack_from("<I", data[h[6]], 24 * (info >> 32))
            target.append((offset, info & 0xFFFFFFFF, addend, text_at(strings, name)))
    return found


def subject(relocations):
    """The relocation of foo or var: at most one, beside that of __tls_get_addr."""
    own = [r for r in relocations if r[3] in ("foo", "var")]
    if len(own) > 1 or any(r[3] not in ("foo", "var", "__tls_get_addr") for r in relocations):
        fail(f"relocations {relocations}")
    return own[0] if own else None


def without_rex(code, relocation):
    """C7 /0 on a 32-bit register: llvm-mc's 64-bit form less its prefix 48."""
    offset, kind, addend, symbol = relocation
    if code[offset - 3:offset - 1] != b"\x48\xc7":
        fail(f"no 48 C7 in {code.hex()}")
    return code[:offset - 3] + code[offset - 2:], (offset - 1, kind, addend, symbol)


def read_back(code, number):
    """llvm-mc must read the cut form as a 32-bit mov."""
    text = " ".join(f"0x{b:02x}" for b in code)
    out = subprocess.run([LLVM_MC, *OPTIONS, "--disassemble"], input=text.encode(), check=True, capture_output=True)
    if out.stdout.decode().split("\n")[-2].split() != ["movl", "$0,", double(number)]:
        fail(f"{code.hex()} reads back as {out.stdout.decode()}")


def answer(case, index, found, old):
    """The new code, type, offset and addend, out of llvm-mc's object."""
    code, relocations = found[f".new.{index}"]
    new = subject(relocations)
    if new is None:
        if case.new_type:
            fail(f"no relocation in {case.new!r}")
        return code, 0, old[0] + case.moves, old[2]
    said = new[1]
    if case.kind == ABSOLUTE:
        code, new = without_rex(code, new)
        read_back(code[new[0] - 2:new[0] + 4], code[new[0] - 1] % 8)
        if subject(found[f".type.{index}"][1])[1] != case.new_type:
            fail(f"another type for {case.old!r}")
    if said != case.new_type and (said, case.new_type) not in NAMED_OTHERWISE:
        fail(f"type {said} for {case.new!r}")
    return code, case.new_type, new[0], new[2]


def line(function, record, section, refusal, chosen, after):
    """One line. record: type .. addend; chosen: kind .. new addend, or nothing."""
    if not len(section) == len(after) <= SECTION:
        fail(f"lengths of {section.hex()} and {after.hex()}")
    head = struct.pack("<BIBBBQQqB", function, *record, len(section)) + section.ljust(SECTION, b"\0")
    tail = struct.pack("<BBIBBBQq", *chosen) if chosen else bytes(25)
    return (head + bytes([refusal, int(chosen is not None)]) + tail + after.ljust(SECTION, b"\0")).hex()


def encodings():
    cases = [*numbered((*got(), *initial_exec(), *descriptors(), *general_dynamic(), *local_dynamic(), *no_ops()))]
    found = sections(assemble(cases))
    for index, (turn, case) in enumerate(cases):
        section, relocations = found[f".old.{index}"]
        old = subject(relocations)
        if old is None or old[1] != case.old_type:
            fail(f"relocation {old} for {case.old!r}, not of type {case.old_type}")
        flags, output, executable, mandatory = case.choices[turn % len(case.choices)]
        address = case.addresses[(turn + turn // 4) % len(case.addresses)]
        after, new_type, offset, addend = answer(case, index, found, old)
        chosen = (case.kind, case.inst_offset, new_type, mandatory, int(case.kind in SKIPS),
                  int(new_type in (10, 11)), offset, addend)
        yield line(4, (old[1], flags, output, executable, old[0], address, old[2]), section, 0, chosen, after)


def section_of(text):
    return b"" if text == "-" else bytes.fromhex(text)


def document():
    """The records of document_01.txt, whose head says what stands where."""
    for text in (HERE / "document_01.txt").read_text().splitlines():
        if not text or text.startswith("#"):
            continue
        given, expected = (part.split() for part in text.split("->"))
        record, section = tuple(map(int, given[:7])), section_of(given[7])
        after, refusal, chosen = section_of(expected[-1]), 0, None
        if expected[0] == "refused":
            refusal = int(expected[1])
        elif expected[0] != "none":
            kind, inst_offset, offset, addend, new_type, skip, mandatory = map(int, expected[:-1])
            chosen = (kind, inst_offset, new_type, mandatory, skip, int(new_type in (10, 11)), offset, addend)
        yield line(5, record, section, refusal, chosen, after)


def main():
    lines = [list(encodings()), list(document())]
    for part in lines:
        print("\n".join(part))
    print(*(f"{len(part)} lines" for part in lines), sep=", ", file=sys.stderr)


if __name__ == "__main__":
    main()
