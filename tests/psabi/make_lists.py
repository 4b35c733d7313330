#!/usr/bin/env python3
"""Writes the lists here from other people's sources: make_lists.py BINUTILS ELF_H LLVM_DEF (README.md says where from).

binutils.txt: number, name, bytes of the field, pc or -, overflow check; of `RELOC_NUMBER` in include/elf/x86-64.h and
of the table of `HOWTO`s in bfd/elf64-x86-64.c. glibc.txt, llvm.txt: number, name.
"""
import re
import sys
from pathlib import Path

PLACE = Path(__file__).parent
NAME = r"(R_X86_64_[A-Z0-9_]+)"


def write(name, rows):
    (PLACE / name).write_text("".join(" ".join(map(str, row)) + "\n" for row in sorted(rows)))


def numbered(pattern, text):
    return [(int(number), name) for name, number in re.findall(pattern, text)]


def binutils(folder):
    header = (folder / "include/elf/x86-64.h").read_text()
    numbers = {name: n for n, name in numbered(rf"RELOC_NUMBER \({NAME},\s*(\d+)\)", header)}
    source = (folder / "bfd/elf64-x86-64.c").read_text()
    table = source.split("x86_64_elf_howto_table[] =", 1)[1].split("#define R_X86_64_standard", 1)[0]
    howto = rf"HOWTO\({NAME}, 0, (\d+), \d+, (true|false), 0,\s*complain_overflow_([a-z]+)"
    rows = [
        (numbers[name], name, size, "pc" if pc == "true" else "-", overflow)
        for name, size, pc, overflow in re.findall(howto, table)
    ]
    assert len(rows) == table.count("HOWTO("), "a HOWTO isn't read"
    write("binutils.txt", rows)


if __name__ == "__main__":
    source, elf_h, llvm_def = map(Path, sys.argv[1:])
    binutils(source)
    found = numbered(rf"#define\s+{NAME}\s+(\d+)", elf_h.read_text())
    write("glibc.txt", [row for row in found if row[1] != "R_X86_64_NUM"])
    write("llvm.txt", numbered(rf"ELF_RELOC\({NAME},\s*(\d+)\)", llvm_def.read_text()))
