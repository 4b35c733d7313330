#!/usr/bin/env python3
"""Links the inputs of inputs.py with each peer and prints what came out, a line for each case.

Usage: make_peers.py >raw     (then `replay --record raw >list` adds the verdicts)

A line has eleven fields, numbers in hexadecimal with their sign, `-` where there is none:
  name         type of the first record, input, sort of symbol
  group        book, or odd: not by the book
  kind         output kind (document 01's numbering)
  executable   whether the section is: 0 or 1
  records      joined by `/`, each type:offset:addend:flags:address:tp:slot
  before       the section's bytes in the object file
  place        the section's address in the output
  got          the address of _GLOBAL_OFFSET_TABLE_, where the code needs it
  peers        those that gave this line, joined by `,`
  verdict      `?`, until recorded
  after        the section's bytes in the output, or `-` where the peer refuses
`tp` is the symbol's offset from the thread pointer. `slot` is where the peer's code leads if that
is an entry for the symbol, which is looked up: a GOT entry that holds its address or offset or
that a dynamic relocation fills with it, or a PLT entry.
"""
import re
import subprocess
import sys
import tempfile
from concurrent.futures import ThreadPoolExecutor
from pathlib import Path
from typing import NamedTuple, Optional

sys.dont_write_bytecode = True
from elf import SHF_EXECINSTR, SHN_ABS, STT_TLS, Elf
from inputs import ABSOLUTES, ALIASES, FAR_SCRIPT, SORTS, inputs

ASSEMBLER = ["llvm-mc-22", "-triple=x86_64", "-filetype=obj", "-mattr=+egpr,+ndd,+nf"]
PEERS = {"ld": "ld", "gold": "ld.gold", "lld14": "ld.lld-14", "lld19": "ld.lld-19", "lld22": "ld.lld-22", "mold": "mold"}
KNOWS_APX = ["lld22"]
ASKED_OF_ALL = ("movq.r16", "ie.mov.r16", "desc.lea.r16", "ndd.rcx.r16")
# gold has no static position-independent executables; mold takes no script.
CANNOT = [("gold", 1), ("mold", "far")]
INTERPRETER = ["--dynamic-linker", "/lib64/ld-linux-x86-64.so.2", "shared.so"]
KINDS = [
    ["-static", "-no-pie", "static.o"],
    ["-static", "-pie", "--no-dynamic-linker", "static.o"],
    ["-no-pie", *INTERPRETER],
    ["-pie", *INTERPRETER],
    ["-shared", "shared.so"],
]
LIBRARY = """
.globl __tls_get_addr, shared_foo, shared_tls
.type __tls_get_addr,@function
.type shared_foo,@function
.text
__tls_get_addr: ret
shared_foo: ret
.size shared_foo, 1
.section .tbss,"awT",@nobits
shared_tls: .zero 8
.size shared_tls, 8
"""
GOT_REFERENCE = '.section .got_reference,"ax",@progbits\ngot_reference: leaq _GLOBAL_OFFSET_TABLE_(%rip), %rbx\n'
RELATIVE, DTPMOD64, TPOFF64, TLSDESC, IRELATIVE = 8, 16, 18, 36, 37
PLTOFF64 = 31
# How far after its own field the code for a type 19 record has one when it is initial exec.
GD_TO_IE = 8


def run(words, where):
    done = subprocess.run(words, cwd=where, capture_output=True, text=True)
    return done.returncode == 0, done.stderr


def assemble(text, name, where):
    (where / f"{name}.s").write_text(text)
    done, errors = run([*ASSEMBLER, f"{name}.s", "-o", f"{name}.o"], where)
    if not done:
        sys.exit(f"{name}: {errors}")


def probe(given):
    """The object's text: the section under test, then the symbol."""
    flags = "ax" if given.executable else "a"
    code = f'.section .probe,"{flags}",@progbits\n.globl probe\n.hidden probe\nprobe:\n{given.code}\n'
    text = code + SORTS[given.sort][0] + (GOT_REFERENCE if "PLTOFF" in code else "")
    return re.sub(r"\bfoo\b", ALIASES.get(given.sort, "foo"), text)


def flags_of(name, given, kind):
    if name == "__tls_get_addr":
        return 1 if kind < 2 or given.sort == "tls-own" else 4
    return SORTS[given.sort][1](kind)


class Value(NamedTuple):
    """What a symbol is in the output; `tp` is its offset from the thread pointer."""
    name: str
    address: int = 0
    tp: Optional[int] = None
    absolute: bool = False


def value_of(name, output):
    symbol = output.defined(name)
    if symbol is None:
        return Value(name)
    if symbol.type != STT_TLS:
        return Value(name, symbol.value, absolute=symbol.section == SHN_ABS)
    start, pointer = output.tls()
    return Value(name, start + symbol.value, symbol.value - pointer)


def is_plt(section):
    return section is not None and section.name.startswith((".plt", ".iplt"))


def is_slot(output, target, value):
    """Whether a GOT entry for the symbol, or for its module, or a PLT entry lies there."""
    section = output.section_at(target)
    if section is None:
        return False
    if section.flags & SHF_EXECINSTR:
        return is_plt(section)
    for rela in (r for r in output.relas() if r.offset == target):
        if rela.type in (DTPMOD64, TPOFF64, TLSDESC, IRELATIVE):
            return True
        moves = rela.type == RELATIVE and not value.absolute
        return rela.symbol.name == value.name or (moves and rela.addend == value.address)
    word = int.from_bytes(output.read(target, 8) or b"", "little")
    holds = word == value.address or (value.tp is not None and word == value.tp % 2**64)
    return holds or is_plt(output.section_at(word))


def slot_of(rela, output, place, got, value):
    """Where the peer's code leads for that relocation, if that is an entry for the symbol."""
    size = 8 if rela.type == PLTOFF64 else 4
    for offset in (rela.offset, rela.offset + GD_TO_IE):
        field = output.read(place + offset, size)
        if field is not None:
            base = got if rela.type == PLTOFF64 else place + offset
            target = (int.from_bytes(field, "little", signed=True) - rela.addend + base) % 2**64
            if is_slot(output, target, value):
                return target
    return None


def number(value):
    return "-" if value is None else f"{value:x}"


def record(rela, given, kind, output, place, got):
    value = value_of(rela.symbol.name, output)
    slot = slot_of(rela, output, place, got, value)
    flags = flags_of(rela.symbol.name, given, kind)
    fields = (rela.type, rela.offset, rela.addend, flags, value.address, value.tp, slot)
    return ":".join(map(number, fields))


def got_of(output):
    reference = output.defined("got_reference")
    if reference is None:
        return None
    field = output.read(reference.value + 3, 4)
    return reference.value + 7 + int.from_bytes(field, "little", signed=True)


def link(given, peer, kind, name, where):
    output = f"{name}.{peer}.{kind}"
    objects = [f"{name}.o"] + [f"{given.sort}.o"] * (given.sort in ABSOLUTES)
    script = ["-T", "far.ld"] if given.sort == "far" else []
    done, errors = run([PEERS[peer], "-e", "probe", "-o", output, *script, *objects, *KINDS[kind]], where)
    return where / output if done else None, errors


def case(given, name, peer, kind, where):
    """The fields of a line but for the peer's name: those before it, and those after."""
    source = Elf(where / f"{name}.o")
    relas = sorted(source.relas(".probe"), key=lambda rela: rela.offset)
    before = source.contents(source.section(".probe"))
    path, errors = link(given, peer, kind, name, where)
    head = [f"{relas[0].type}.{given.name}.{given.sort}", "book" if given.by_the_book else "odd", str(kind)]
    head.append(str(int(given.executable)))
    if path is None:
        print(f"{head[0]} {kind} {peer}: {errors.splitlines()[0]}", file=sys.stderr)
        bare = [f"{r.type:x}:{r.offset:x}:{r.addend:x}:{flags_of(r.symbol.name, given, kind):x}:-:-:-" for r in relas]
        return (*head, "/".join(bare), before.hex(), "-", "-"), ("?", "-")
    output = Elf(path)
    place, got = output.defined("probe").value, got_of(output)
    records = [record(rela, given, kind, output, place, got) for rela in relas]
    after = output.read(place, len(before))
    path.unlink()
    return (*head, "/".join(records), before.hex(), number(place), number(got)), ("?", after.hex())


def asked(given, kind):
    """The peers that are asked. Those without APX are asked once or twice for each type, for their refusal."""
    knows = not given.apx or (kind == 0 and given.name in ASKED_OF_ALL)
    can = [p for p in PEERS if (p, kind) not in CANNOT and (p, given.sort) not in CANNOT]
    return [p for p in can if knows or p in KNOWS_APX]


def lines(given, name, where):
    """The lines of an input; peers with the same line share it."""
    assemble(probe(given), name, where)
    found = []
    for kind in given.kinds:
        shared = {}
        for peer in asked(given, kind):
            shared.setdefault(case(given, name, peer, kind, where), []).append(peer)
        found += [" ".join((*head, ",".join(peers), *tail)) for (head, tail), peers in shared.items()]
    return found


def main():
    with tempfile.TemporaryDirectory() as folder, ThreadPoolExecutor(2) as pool:
        where = Path(folder)
        assemble(LIBRARY, "library", where)
        assemble(".globl __tls_get_addr\n__tls_get_addr: ret\n", "static", where)
        for sort, value in ABSOLUTES.items():
            assemble(f".globl foo\n.hidden foo\nfoo = {value:#x}\n", sort, where)
        (where / "far.ld").write_text(FAR_SCRIPT)
        run(["ld", "-shared", "-soname", "shared.so", "-o", "shared.so", "library.o"], where)
        for peer, program in PEERS.items():
            version = subprocess.run([program, "--version"], capture_output=True, text=True).stdout
            print(f"# {peer}: {version.splitlines()[0]}")
        numbered = enumerate(inputs())
        for found in pool.map(lambda item: lines(item[1], f"input{item[0]}", where), numbered):
            print(*found, sep="\n")


if __name__ == "__main__":
    main()
