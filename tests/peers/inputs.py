"""The inputs: assembly text for the section under test and for the symbol that it names."""
from typing import NamedTuple

LOW = ["ax", "cx", "dx", "bx", "sp", "bp", "si", "di"]
R64 = ["r" + n for n in LOW] + [f"r{i}" for i in range(8, 16)]
R32 = ["e" + n for n in LOW]
APX = [f"r{i}" for i in range(16, 32)]
BINARY = ["add", "or", "adc", "sbb", "and", "sub", "xor", "cmp", "test"]
ABSOLUTES = {"abs": 0x1000, "abs31-1": 2**31 - 1, "abs31": 2**31, "abs32-1": 2**32 - 1, "abs32": 2**32}

RUNS, ALL, DYNAMIC = (0, 1, 2, 3), (0, 1, 2, 3, 4), (2, 3, 4)
FIXED_AND_PIE, FIXED = (0, 3), (0,)


class Input(NamedTuple):
    name: str
    code: str
    sort: str
    kinds: tuple = ALL
    # APX needs a peer that knows the types; the others are asked once or twice, for their refusal.
    apx: bool = False
    by_the_book: bool = True
    executable: bool = True


def defined(visibility, body="ret", section='.text,"ax",@progbits', more=""):
    return f".section {section}\n{visibility}\n{more}\nfoo: {body}\n"


TBSS = '.tbss,"awT",@nobits\n.zero 8'
# Each sort of symbol: what defines it, and its flags by output kind (document 01's numbering).
SORTS = {
    "local": (defined(""), lambda kind: 1),
    "far": (defined(".globl foo\n.hidden foo", ".quad 0", '.far,"aw",@progbits'), lambda kind: 1),
    "hidden": (defined(".globl foo\n.hidden foo"), lambda kind: 1),
    "protected": (defined(".globl foo\n.protected foo"), lambda kind: 1),
    "global": (defined(".globl foo"), lambda kind: int(kind < 4)),
    "weak": (".weak foo\n", lambda kind: 3 if kind < 2 else 6),
    "hidden-weak": (".weak foo\n.hidden foo\n", lambda kind: 3),
    "ifunc": (defined(".globl foo", more=".type foo,@gnu_indirect_function"), lambda kind: 9 if kind < 4 else 8),
    "shared": (".globl shared_foo\n", lambda kind: 4),
    "tls": (defined(".globl foo\n.hidden foo", ".zero 8", TBSS), lambda kind: 1),
    "tls-global": (defined(".globl foo", ".zero 8", TBSS), lambda kind: int(kind < 4)),
    # A thread-local variable beside a lookup function of the object's own.
    "tls-own": (
        defined(".globl foo\n.hidden foo", ".zero 8", TBSS)
        + '.section .text,"ax",@progbits\n.globl __tls_get_addr\n.hidden __tls_get_addr\n__tls_get_addr: ret\n',
        lambda kind: 1,
    ),
    "tls-shared": (".globl shared_tls\n", lambda kind: 4),
}
# Absolute symbols are defined in an object of their own: llvm-mc puts their value in for the name.
for name in ABSOLUTES:
    SORTS[name] = (".globl foo\n.hidden foo\n", lambda kind: 3)
# Puts the sort `far` out of the reach of 32 bits.
FAR_SCRIPT = """SECTIONS {
  . = 0x400000; .probe : {*(.probe)} .got : {*(.got) *(.got.plt)}
  . = 0x200000000; .far : {*(.far)}
}"""
ALIASES = {"shared": "shared_foo", "tls-shared": "shared_tls"}


def raw(code, r_type, addend=-4, after="", field=4):
    """Bytes, then a field with a relocation of that type."""
    place = f".reloc ., R_X86_64_{r_type}, foo{addend:+d}\n.zero {field}\n"
    tail = f".byte {after}\n" if after else ""
    return f".byte {code}\n{place}{tail}"


def got_inputs():
    """Types 41 and 42: each sort of symbol, register and operation."""
    sorts = ["local", "hidden", "protected", "global", *ABSOLUTES, "weak", "hidden-weak", "ifunc"]
    for sort in sorts:
        kinds = (0, 3, 4) if sort in ("local", "protected", "hidden-weak") else ALL
        yield Input("movq.rax", "movq foo@GOTPCREL(%rip), %rax", sort, kinds)
    yield Input("movq.rax", "movq foo@GOTPCREL(%rip), %rax", "shared", DYNAMIC)
    for sort in ["hidden", *ABSOLUTES]:
        kinds = (0, 3) if sort in ("abs31-1", "abs31") else ALL
        yield Input("movl.eax", "movl foo@GOTPCREL(%rip), %eax", sort, kinds)
    for code in ("movq foo@GOTPCREL(%rip), %rax", "movl foo@GOTPCREL(%rip), %eax", "call *foo@GOTPCREL(%rip)"):
        yield Input(code.split()[0], code, "far", (0, 1))
    for branch in ("call", "jmp"):
        for sort in ["hidden", "global", "abs", "weak", "ifunc", "shared"]:
            kinds = {"shared": DYNAMIC, "ifunc": (0, 3), "global": (0, 4)}.get(sort, ALL)
            yield Input(branch, f"{branch} *foo@GOTPCREL(%rip)", sort, kinds)
    yield Input("call", "call *foo@GOTPCREL(%rip)", "abs32", FIXED_AND_PIE)
    for register in R64[1:]:
        kinds = FIXED_AND_PIE if register == "r13" else FIXED
        yield Input(f"movq.{register}", f"movq foo@GOTPCREL(%rip), %{register}", "hidden", kinds)
    for register in R32[1:]:
        yield Input(f"movl.{register}", f"movl foo@GOTPCREL(%rip), %{register}", "hidden", FIXED)
    yield Input("movl.r9d", "movl foo@GOTPCREL(%rip), %r9d", "hidden", FIXED_AND_PIE)
    for op in BINARY:
        operands = "%r9, foo@GOTPCREL(%rip)" if op == "test" else "foo@GOTPCREL(%rip), %r9"
        yield Input(f"{op}q.r9", f"{op}q {operands}", "hidden", RUNS)
        yield Input(f"{op}q.r9", f"{op}q {operands}", "abs", (1,))
        yield Input(f"{op}l.ecx", f"{op}l {operands.replace('%r9', '%ecx')}", "hidden", FIXED)
    yield Input("push", "pushq foo@GOTPCREL(%rip)", "hidden", FIXED_AND_PIE)


def plain_inputs():
    """Types 9, 4, 31 and 2, and code in a section that isn't executable."""
    for sort in ["hidden", "global", "abs", "abs32"]:
        yield Input("movq.rax", raw("0x48,0x8b,0x05", "GOTPCREL"), sort)
    yield Input("addq.rax", raw("0x48,0x03,0x05", "GOTPCREL"), "hidden", FIXED_AND_PIE)
    for sort in ["hidden", "protected", "global", "abs", "weak", "ifunc", "shared"]:
        yield Input("call.plt", "call foo@PLT", sort, DYNAMIC if sort == "shared" else ALL)
    for sort in ["hidden", "global", "shared"]:
        kinds = DYNAMIC if sort == "shared" else ALL
        yield Input("pltoff", "movabsq $foo@PLTOFF, %rax", sort, kinds)
    yield Input("lea", "leaq foo(%rip), %rax", "ifunc")
    yield Input("data.movq.rax", raw("0x48,0x8b,0x05", "REX_GOTPCRELX"), "hidden", FIXED_AND_PIE, executable=False)
    yield Input("data.pc32", ".long foo - .", "ifunc", executable=False)


def tls_inputs():
    """Types 19, 20, 22, 34 and 35."""
    general = {
        "gd": "data16\nleaq foo@tlsgd(%rip), %rdi\n.byte 0x66,0x66,0x48\ncall __tls_get_addr@PLT",
        "gd.noplt": "data16\nleaq foo@tlsgd(%rip), %rdi\n.byte 0x66,0x48\ncall *__tls_get_addr@GOTPCREL(%rip)",
        "gd.large": "leaq foo@tlsgd(%rip), %rdi\nmovabsq $__tls_get_addr@PLTOFF, %rax\naddq %rbx, %rax\ncall *%rax",
    }
    for name, code in general.items():
        for sort in ["tls", "tls-global", "tls-shared"]:
            yield Input(name, code, sort, DYNAMIC if sort == "tls-shared" else ALL)
    yield Input("gd.noplt", general["gd.noplt"], "tls-own", (4,))
    local = {
        "ld": "leaq foo@tlsld(%rip), %rdi\ncall __tls_get_addr@PLT",
        "ld.noplt": "leaq foo@tlsld(%rip), %rdi\ncall *__tls_get_addr@GOTPCREL(%rip)",
        "ld.large": "leaq foo@tlsld(%rip), %rdi\nmovabsq $__tls_get_addr@PLTOFF, %rax\naddq %rbx, %rax\ncall *%rax",
    }
    for name, code in local.items():
        yield Input(name, code, "tls")
    for op in ("mov", "add"):
        for register in R64:
            yield Input(f"ie.{op}.{register}", f"{op}q foo@GOTTPOFF(%rip), %{register}", "tls", FIXED)
        yield Input(f"ie.{op}.rax", f"{op}q foo@GOTTPOFF(%rip), %rax", "tls", (1, 2, 3, 4))
        yield Input(f"ie.{op}.rax", f"{op}q foo@GOTTPOFF(%rip), %rax", "tls-shared", DYNAMIC)
    descriptor = "leaq foo@tlsdesc(%rip), %rax\ncall *foo@tlscall(%rax)"
    yield Input("desc", descriptor, "tls")
    yield Input("desc", descriptor, "tls-global", (3, 4))
    yield Input("desc", descriptor, "tls-shared", DYNAMIC)
    for register in R64[1:]:
        code = f"leaq foo@tlsdesc(%rip), %{register}"
        yield Input(f"desc.lea.{register}", code, "tls", FIXED)


def apx_inputs():
    """Types 43, 44, 45 and 50."""
    for register in APX:
        yield Input(f"movq.{register}", f"movq foo@GOTPCREL(%rip), %{register}", "hidden", FIXED_AND_PIE, True)
        for op in ("mov", "add"):
            yield Input(f"ie.{op}.{register}", f"{op}q foo@GOTTPOFF(%rip), %{register}", "tls", FIXED, True)
        yield Input(f"desc.lea.{register}", f"leaq foo@tlsdesc(%rip), %{register}", "tls", FIXED, True)
    for op in BINARY:
        operands = "%r20, foo@GOTPCREL(%rip)" if op == "test" else "foo@GOTPCREL(%rip), %r20"
        yield Input(f"{op}q.r20", f"{op}q {operands}", "hidden", FIXED_AND_PIE, True)
    yield Input("movq.r16", "movq foo@GOTPCREL(%rip), %r16", "abs", RUNS, True)
    yield Input("ie.mov.r16", "movq foo@GOTTPOFF(%rip), %r16", "tls", (1, 2, 3, 4), True)
    yield Input("ie.mov.r16", "movq foo@GOTTPOFF(%rip), %r16", "tls-shared", DYNAMIC, True)
    yield Input("desc.lea.r16", "leaq foo@tlsdesc(%rip), %r16", "tls-shared", DYNAMIC, True)
    for register in ("rax", "r9", "r16", "r25"):
        for source in ("rcx", "r10", "r20", "r31"):
            name = f"{source}.{register}"
            yield Input(f"ndd.load.{name}", f"addq foo@GOTTPOFF(%rip), %{source}, %{register}", "tls", FIXED, True)
            yield Input(f"ndd.{name}", f"addq %{source}, foo@GOTTPOFF(%rip), %{register}", "tls", FIXED, True)
    for register in ("rcx", "r10", "r20", "r31"):
        yield Input(f"nf.{register}", f"{{nf}} addq foo@GOTTPOFF(%rip), %{register}", "tls", FIXED, True)
    yield Input("ndd.rcx.r16", "addq %rcx, foo@GOTTPOFF(%rip), %r16", "tls", (1, 2, 3, 4), True)


def odd_inputs():
    """What wild's rules take or leave and the psABI has no such form for."""
    def odd(name, code, sort="hidden", kinds=(0, 1), apx=False):
        return Input(name, code, sort, kinds, apx, by_the_book=False)

    yield odd("no-d5", raw("0x90,0x48,0x8b,0x2d", "CODE_4_GOTPCRELX"), apx=True)
    yield odd("no-d5", raw("0x90,0x48,0x8b,0x2d", "CODE_4_GOTPCRELX"), "abs", apx=True)
    for modrm, name in ((0x45, "disp8"), (0x85, "disp32"), (0xC5, "register"), (0x04, "sib")):
        yield odd(f"{name}", raw(f"0x48,0x8b,{modrm:#x}", "REX_GOTPCRELX"))
        yield odd(f"{name}", raw(f"0x48,0x8b,{modrm:#x}", "GOTTPOFF"), "tls")
        yield odd(f"{name}", raw(f"0x8b,{modrm:#x}", "GOTPCRELX"))
    yield odd("disp32", raw("0x48,0x8b,0x85", "GOTPCREL"))
    yield odd("addend", raw("0x48,0x8b,0x05", "GOTTPOFF", 4), "tls")
    yield odd("addend", raw("0x48,0x8b,0x05", "REX_GOTPCRELX", 4))
    yield odd("addend", raw("0x48,0x8d,0x05", "GOTPC32_TLSDESC", 4), "tls")
    yield odd("rdi", raw("0x48,0x8d,0x3d", "GOTPC32_TLSDESC"), "tls")
    yield odd("call-rcx", "1: call *(%rcx)\n.reloc 1b, R_X86_64_TLSDESC_CALL, foo", "tls")
    yield odd("rex-call", "1: .byte 0x48,0xff,0x10\n.reloc 1b, R_X86_64_TLSDESC_CALL, foo", "tls")
    yield odd("movl", raw("0x8b,0x05", "GOTTPOFF", after="0x90"), "tls")
    yield odd("movw", raw("0x66,0x8b,0x05", "GOTPCRELX"))
    yield odd("rex-movl", raw("0x44,0x8b,0x05", "GOTPCRELX"))
    yield odd("leal", raw("0x8d,0x05", "GOTPC32_TLSDESC") + "call *foo@tlscall(%rax)", "tls")
    yield odd("short", "leaq foo@tlsgd(%rip), %rdi\ncall __tls_get_addr@PLT", "tls")
    yield odd("no-record", raw("0x48,0x8d,0x3d", "TLSLD", after="0xe8,0,0,0,0"), "tls")
    for name, r_type in (("gd", "tlsgd"), ("ld", "tlsld")):
        tail = "movabsq $__tls_get_addr@PLTOFF, %rax\naddq %r15, %rax\ncall *%rax"
        yield odd(f"{name}.large.r15", f"leaq foo@{r_type}(%rip), %rdi\n{tail}", "tls")
    yield odd("addr32", "leaq foo@tlsld(%rip), %rdi\n.byte 0x67\ncall __tls_get_addr@PLT", "tls")
    yield odd("add-to-memory", raw("0x62,0xf4,0xfc,0x0c,0x01,0x0d", "CODE_6_GOTTPOFF"), "tls", apx=True)
    yield odd("disp32", raw("0x62,0xf4,0xfc,0x18,0x03,0x8d", "CODE_6_GOTTPOFF"), "tls", apx=True)
    yield odd("b4", raw("0x62,0xfc,0xfc,0x18,0x03,0x0d", "CODE_6_GOTTPOFF"), "tls", apx=True)
    yield odd("addend", raw("0x62,0xf4,0xfc,0x18,0x03,0x0d", "CODE_6_GOTTPOFF", 4), "tls", apx=True)


def inputs():
    for part in (got_inputs, plain_inputs, tls_inputs, apx_inputs, odd_inputs):
        yield from part()
