"""Reads 64-bit little-endian ELF: sections, symbols, relocations, the TLS segment."""
import struct
from typing import NamedTuple

PT_LOAD, PT_TLS = 1, 7
SHT_SYMTAB, SHT_RELA, SHT_NOBITS = 2, 4, 8
SHF_ALLOC, SHF_EXECINSTR = 2, 4
STT_TLS = 6
SHN_ABS = 0xFFF1


class Section(NamedTuple):
    name: str
    type: int
    flags: int
    address: int
    offset: int
    size: int
    link: int


class Symbol(NamedTuple):
    name: str
    type: int
    section: int
    value: int


class Rela(NamedTuple):
    offset: int
    type: int
    symbol: Symbol
    addend: int


class Elf:
    def __init__(self, path):
        self.data = open(path, "rb").read()
        header = struct.unpack_from("<16sHHIQQQIHHHHHH", self.data)
        self.segments = [struct.unpack_from("<IIQQQQQQ", self.data, header[5] + 56 * i) for i in range(header[10])]
        self.sections = self._sections(header[6], header[12], header[13])

    def _sections(self, start, count, names):
        rows = [struct.unpack_from("<IIQQQQII", self.data, start + 64 * i) for i in range(count)]
        base = rows[names][4]
        return [Section(self._string(base + row[0]), *row[1:7]) for row in rows]

    def _string(self, at):
        return self.data[at : self.data.index(b"\0", at)].decode()

    def _rows(self, section, layout):
        size = struct.calcsize(layout)
        starts = range(section.offset, section.offset + section.size, size)
        return [struct.unpack_from(layout, self.data, at) for at in starts]

    def symbols(self, table):
        """The symbols of a symbol table section, by their index."""
        names = self.sections[table.link].offset
        rows = self._rows(table, "<IBBHQQ")
        return [Symbol(self._string(names + r[0]), r[1] & 15, r[3], r[4]) for r in rows]

    def defined(self, name):
        """The symbol of that name that the symbol table defines, or None."""
        for table in (s for s in self.sections if s.type == SHT_SYMTAB):
            for symbol in self.symbols(table):
                if symbol.name == name and symbol.section != 0:
                    return symbol
        return None

    def relas(self, suffix=""):
        """The relocations of the sections whose names end so."""
        found = []
        for section in self.sections:
            if section.type == SHT_RELA and section.name.endswith(suffix):
                symbols = self.symbols(self.sections[section.link]) if section.link else []
                for offset, info, addend in self._rows(section, "<QQq"):
                    symbol = symbols[info >> 32] if info >> 32 else Symbol("", 0, 0, 0)
                    found.append(Rela(offset, info & 0xFFFFFFFF, symbol, addend))
        return found

    def section(self, name):
        return next(s for s in self.sections if s.name == name)

    def contents(self, section):
        return self.data[section.offset : section.offset + section.size]

    def section_at(self, address):
        """The loaded section that an address lies in, or None."""
        loaded = (s for s in self.sections if s.flags & SHF_ALLOC and s.type != SHT_NOBITS)
        return next((s for s in loaded if s.address <= address < s.address + s.size), None)

    def read(self, address, length):
        """The bytes at an address, or None where the file has none."""
        for kind, _, offset, start, _, size, _, _ in self.segments:
            if kind == PT_LOAD and start <= address and address + length <= start + size:
                at = offset + address - start
                return self.data[at : at + length]
        return None

    def tls(self):
        """The TLS segment's address and the thread pointer's distance from it, or (0, 0)."""
        for kind, _, _, start, _, _, size, align in self.segments:
            if kind == PT_TLS:
                return start, -(-size // align) * align
        return 0, 0
