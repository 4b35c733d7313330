#!/usr/bin/env python3
"""Checks cpu_vectors.txt against the rules of Intel's SDM, and the vectors' strength.

Usage: model.py [cpu_vectors.txt]

1. Every vector must be what the reference machine below gives.
2. Every flag of add, sub and cmp must be seen 0 and 1 after, in every cell.
3. Every mutated rule must disagree with at least one vector in every cell it
   names. A cell is an operation with its source and its width.

Exit status 0 if all three hold.
"""

import sys
from collections import Counter, namedtuple

MASK64 = 2**64 - 1
FILL = 0xA5
RSP = 4
FLAGS = ("CF", "PF", "AF", "ZF", "SF", "OF")
CF, PF, AF, ZF, SF, OF = range(6)
LINE_BYTES = 311

Vector = namedtuple(
    "Vector",
    "length code at slot contents registers flags registers_after flags_after rip_after top_after",
)
# width is 64 or 32; source is slot, imm, address (lea) or relative (E8, E9).
Instruction = namedtuple("Instruction", "operation source width register field length addr32")
Outcome = namedtuple("Outcome", "registers flags rip top")


def read_vector(line):
    data = bytes.fromhex(line)
    assert len(data) == LINE_BYTES and line == line.lower()
    position = 0

    def take(count):
        nonlocal position
        position += count
        return data[position - count : position]

    def number():
        return int.from_bytes(take(8), "little")

    length = take(1)[0]
    code = take(12)
    assert 1 <= length <= 12 and not any(code[length:])
    vector = Vector(
        length,
        code[:length],
        number(),
        number(),
        number(),
        tuple(number() for _ in range(16)),
        take(1)[0],
        tuple(number() for _ in range(16)),
        take(1)[0],
        number(),
        number(),
    )
    assert position == LINE_BYTES and vector.flags < 64 and vector.flags_after < 64
    return vector


def sign_extend(value, bits):
    value &= 2**bits - 1
    return value - 2**bits if value >> (bits - 1) else value


def bit(value, index):
    return value >> index & 1


def even_parity(value):
    return 1 - bin(value).count("1") % 2


class Memory:
    """The test memory: fill, with slot and instruction laid over it."""

    def __init__(self, vector):
        self.bytes = {}
        if vector.slot:
            self.put(vector.slot, vector.contents.to_bytes(8, "little"))
        self.put(vector.at, vector.code)

    def put(self, address, data):
        for i, byte in enumerate(data):
            self.bytes[(address + i) & MASK64] = byte

    def get(self, address, count):
        return bytes(self.bytes.get((address + i) & MASK64, FILL) for i in range(count))


class Machine:
    """One step by the SDM. Each rule is a method, so that a mutation can replace it."""

    # Decoding

    SLOT_OPCODES = {0x8B: "mov", 0x03: "add", 0x2B: "sub", 0x3B: "cmp"}
    GROUP_81 = {0: "add", 5: "sub", 7: "cmp"}
    GROUP_FF = {2: "call", 4: "jmp"}

    def register_from_reg(self, rex, reg):
        """SDM vol. 2, 2.2.1.2: REX.R extends ModRM.reg."""
        return (rex >> 2 & 1) << 3 | reg

    def register_from_rm(self, rex, rm):
        """REX.B extends ModRM.rm of a register operand."""
        return (rex & 1) << 3 | rm

    def width(self, rex):
        """REX.W: 64-bit operand size; otherwise the default, 32."""
        return 64 if rex >> 3 & 1 else 32

    def decode(self, code):
        i = 0
        rex = 0
        addr32 = code[0] == 0x67
        if addr32:
            i = 1
        elif code[0] & 0xF0 == 0x40:
            rex = code[0]
            i = 1
        opcode = code[i]
        modrm = code[i + 1]
        mod, reg, rm = modrm >> 6, modrm >> 3 & 7, modrm & 7
        rip_relative = mod == 0 and rm == 5
        width = self.width(rex)
        register = None
        if opcode in (0xE8, 0xE9):
            operation, source, width = ("call", "jmp")[opcode - 0xE8], "relative", 64
            end = i + 5
        else:
            end = i + 6
            if opcode in self.SLOT_OPCODES and rip_relative:
                operation, source = self.SLOT_OPCODES[opcode], "slot"
                register = self.register_from_reg(rex, reg)
            elif opcode == 0x8D and rip_relative:
                operation, source = "lea", "address"
                register = self.register_from_reg(rex, reg)
            elif opcode == 0xC7 and mod == 3 and reg == 0:
                operation, source = "mov", "imm"
                register = self.register_from_rm(rex, rm)
            elif opcode == 0x81 and mod == 3 and reg in self.GROUP_81:
                operation, source = self.GROUP_81[reg], "imm"
                register = self.register_from_rm(rex, rm)
            elif opcode == 0xFF and rip_relative and reg in self.GROUP_FF:
                operation, source, width = self.GROUP_FF[reg], "slot", 64
            else:
                return None
        field = int.from_bytes(code[end - 4 : end], "little")
        return Instruction(operation, source, width, register, field, end, addr32)

    # Addresses and operands

    def next_address(self, at, ins):
        return (at + ins.length) & MASK64

    def reach(self, at, ins):
        """next + signed field."""
        return (self.next_address(at, ins) + sign_extend(ins.field, 32)) & MASK64

    def slot_address(self, at, ins):
        return self.reach(at, ins)

    def lea_address(self, at, ins):
        return self.reach(at, ins)

    def load(self, memory, address, width):
        return int.from_bytes(memory.get(address, width // 8), "little")

    def immediate(self, ins):
        """imm32, sign-extended to the operand size."""
        return sign_extend(ins.field, 32) & (2**ins.width - 1)

    def read(self, registers, number):
        return registers[number]

    # Results

    def combine(self, ins, a, b):
        total = a + b if ins.operation == "add" else a - b
        return total & (2**ins.width - 1)

    def write(self, ins, old, value):
        """The register after: a 32-bit result is zero-extended."""
        return value

    def after_compare(self, ins, old, result):
        return old

    # Flags of add, sub and cmp. old holds the flags before; a64 and b64 the
    # operands before they are cut to the width (only mutations look at them).

    def carry(self, ins, a, b, r, old, a64, b64):
        return int(a + b >= 2**ins.width) if ins.operation == "add" else int(a < b)

    def parity(self, ins, a, b, r, old, a64, b64):
        return even_parity(r & 0xFF)

    def adjust(self, ins, a, b, r, old, a64, b64):
        if ins.operation == "add":
            return int((a & 15) + (b & 15) > 15)
        return int((a & 15) < (b & 15))

    def zero(self, ins, a, b, r, old, a64, b64):
        return int(r == 0)

    def sign(self, ins, a, b, r, old, a64, b64):
        return bit(r, ins.width - 1)

    def overflow(self, ins, a, b, r, old, a64, b64):
        exact = sign_extend(a, ins.width)
        other = sign_extend(b, ins.width)
        exact = exact + other if ins.operation == "add" else exact - other
        return int(exact != sign_extend(r, ins.width))

    def arithmetic_flags(self, ins, a, b, r, old, a64, b64):
        rules = (self.carry, self.parity, self.adjust, self.zero, self.sign, self.overflow)
        return sum(rule(ins, a, b, r, old, a64, b64) << i for i, rule in enumerate(rules))

    def other_flags(self, ins, old, value):
        """mov, lea, call and jmp leave the flags alone."""
        return old

    # Branches

    def indirect_target(self, memory, at, ins):
        return self.load(memory, self.slot_address(at, ins), 64)

    def relative_target(self, at, ins):
        return self.reach(at, ins)

    def return_address(self, at, ins, target):
        return self.next_address(at, ins)

    def push(self, registers, memory, value):
        registers[RSP] = (registers[RSP] - 8) & MASK64
        memory.put(registers[RSP], value.to_bytes(8, "little"))

    def branch(self, ins, at, registers, memory):
        if ins.source == "slot":
            target = self.indirect_target(memory, at, ins)
        else:
            target = self.relative_target(at, ins)
        if ins.operation == "call":
            self.push(registers, memory, self.return_address(at, ins, target))
        return target

    # The step

    def step(self, vector):
        ins = self.decode(vector.code + bytes(8))
        if ins is None:
            return None
        registers = list(vector.registers)
        flags = vector.flags
        memory = Memory(vector)
        rip = self.next_address(vector.at, ins)
        if ins.operation in ("call", "jmp"):
            rip = self.branch(ins, vector.at, registers, memory)
            flags = self.other_flags(ins, flags, rip)
        else:
            old = self.read(registers, ins.register)
            if ins.source == "slot":
                address = self.slot_address(vector.at, ins)
                b = self.load(memory, address, ins.width)
                b64 = self.load(memory, address, 64)
            elif ins.source == "imm":
                b = self.immediate(ins)
                b64 = sign_extend(ins.field, 32) & MASK64
            else:
                b = b64 = self.lea_address(vector.at, ins) & (2**ins.width - 1)
            if ins.operation in ("mov", "lea"):
                flags = self.other_flags(ins, flags, b)
                registers[ins.register] = self.write(ins, old, b)
            else:
                a = old & (2**ins.width - 1)
                r = self.combine(ins, a, b)
                flags = self.arithmetic_flags(ins, a, b, r, flags, old, b64)
                if ins.operation == "cmp":
                    registers[ins.register] = self.after_compare(ins, old, r)
                else:
                    registers[ins.register] = self.write(ins, old, r)
        top = int.from_bytes(memory.get(vector.registers[RSP] - 8, 8), "little")
        return Outcome(tuple(registers), flags, rip, top)


def observed(vector):
    return Outcome(
        vector.registers_after, vector.flags_after, vector.rip_after, vector.top_after
    )


# Mutations: (name, class, cells it must be told apart in).

MUTATIONS = []


def named(*operations, source=None, width=None, addr32=None):
    """A predicate on instructions."""

    def where(ins):
        return (
            (not operations or ins.operation in operations)
            and (source is None or ins.source in source)
            and (width is None or ins.width == width)
            and (addr32 is None or ins.addr32 == addr32)
        )

    return where


ARITHMETIC = ("add", "sub", "cmp")
WRITERS = ("mov", "add", "sub", "lea")
DATA = ("mov", "add", "sub", "cmp", "lea")


def mutation(name, where, **rules):
    MUTATIONS.append((name, type("Mutant", (Machine,), rules)(), where))


def flag_mutation(name, method, rule, operations=ARITHMETIC, width=None, source=None):
    """rule takes ins, a, b, r, old, a64, b64."""
    where = named(*operations, width=width, source=source)
    mutation(name, where, **{method: lambda self, *args: rule(*args)})


def total64(ins, a64, b64):
    return (a64 + b64 if ins.operation == "add" else a64 - b64) & MASK64


def carry_at(bits):
    """The carry or borrow out of the low bits."""

    def rule(ins, a, b, r, old, a64, b64):
        low = 2**bits - 1
        if ins.operation == "add":
            return int((a64 & low) + (b64 & low) > low)
        return int((a64 & low) < (b64 & low))

    return rule


def carry_in_at(bits):
    """The same with the old CF taken in, as adc and sbb do."""

    def rule(ins, a, b, r, old, a64, b64):
        low = 2 ** (bits or ins.width) - 1
        if ins.operation == "add":
            return int((a & low) + (b & low) + bit(old, CF) > low)
        return int((a & low) < (b & low) + bit(old, CF))

    return rule


def overflow_by_signs(as_add, width=None):
    def rule(ins, a, b, r, old, a64, b64):
        if width:
            a, b = a64, b64
            r = total64(ins, a, b)
        w = width or ins.width
        differ = bit(a ^ b, w - 1)
        if as_add(ins):
            differ = 1 - differ
        return differ & bit(a ^ r, w - 1)

    return rule


def is_add(ins):
    return ins.operation == "add"


SUBTRACTIONS = ("sub", "cmp")

for flag, method in zip(
    FLAGS, ("carry", "parity", "adjust", "zero", "sign", "overflow")
):
    index = FLAGS.index(flag)
    flag_mutation(flag + " kept from before", method, lambda ins, a, b, r, old, *_, i=index: bit(old, i))
    flag_mutation(flag + " always 0", method, lambda *_: 0)
    flag_mutation(flag + " always 1", method, lambda *_: 1)

flag_mutation("CF of a 32-bit operation taken at 64 bits", "carry", carry_at(64), width=32)
flag_mutation("CF of a 64-bit operation taken at 32 bits", "carry", carry_at(32), width=64)
flag_mutation("CF taken at 8 bits", "carry", carry_at(8))
flag_mutation("CF taken at 31 bits in a 32-bit operation", "carry", carry_at(31), width=32)
flag_mutation("CF taken at 63 bits in a 64-bit operation", "carry", carry_at(63), width=64)
flag_mutation("CF with the old carry taken in", "carry", carry_in_at(None))
flag_mutation("CF as not-borrow", "carry", lambda ins, a, b, *_: int(a >= b), SUBTRACTIONS)
flag_mutation("CF of the swapped subtraction", "carry", lambda ins, a, b, *_: int(b < a), SUBTRACTIONS)
flag_mutation("CF also when equal", "carry", lambda ins, a, b, *_: int(a <= b), SUBTRACTIONS)
flag_mutation("CF by signed comparison", "carry",
              lambda ins, a, b, *_: int(sign_extend(a, ins.width) < sign_extend(b, ins.width)), SUBTRACTIONS)
flag_mutation("CF by result <= operand", "carry", lambda ins, a, b, r, *_: int(r <= a), ("add",))
flag_mutation("CF only above 2^width", "carry", lambda ins, a, b, *_: int(a + b > 2**ins.width), ("add",))
flag_mutation("CF by the subtraction rule", "carry", lambda ins, a, b, *_: int(a < b), ("add",))
flag_mutation("CF by the addition rule", "carry", lambda ins, a, b, *_: int(a + b >= 2**ins.width), SUBTRACTIONS)
flag_mutation("CF is OF", "carry", lambda ins, *args: Machine().overflow(ins, *args))

flag_mutation("PF of the whole result", "parity", lambda ins, a, b, r, *_: even_parity(r))
flag_mutation("PF of the low 16 bits", "parity", lambda ins, a, b, r, *_: even_parity(r & 0xFFFF))
flag_mutation("PF of the low 32 bits", "parity", lambda ins, a, b, r, *_: even_parity(r & 0xFFFFFFFF))
flag_mutation("PF of the low 7 bits", "parity", lambda ins, a, b, r, *_: even_parity(r & 0x7F))
flag_mutation("PF of the low nibble", "parity", lambda ins, a, b, r, *_: even_parity(r & 0xF))
flag_mutation("PF of the second byte", "parity", lambda ins, a, b, r, *_: even_parity(r >> 8 & 0xFF))
flag_mutation("PF of the top byte", "parity", lambda ins, a, b, r, *_: even_parity(r >> (ins.width - 8)))
flag_mutation("PF odd", "parity", lambda ins, a, b, r, *_: 1 - even_parity(r & 0xFF))
flag_mutation("PF is bit 0", "parity", lambda ins, a, b, r, *_: r & 1)
flag_mutation("PF is even", "parity", lambda ins, a, b, r, *_: 1 - (r & 1))
flag_mutation("PF of the old destination", "parity", lambda ins, a, *_: even_parity(a & 0xFF))
flag_mutation("PF of the other operand", "parity", lambda ins, a, b, *_: even_parity(b & 0xFF))

flag_mutation("AF at 3 bits", "adjust", carry_at(3))
flag_mutation("AF at 5 bits", "adjust", carry_at(5))
flag_mutation("AF at 8 bits", "adjust", carry_at(8))
flag_mutation("AF is CF", "adjust", lambda ins, *args: Machine().carry(ins, *args))
flag_mutation("AF is bit 4 of the result", "adjust", lambda ins, a, b, r, *_: bit(r, 4))
flag_mutation("AF is bit 3 of the result", "adjust", lambda ins, a, b, r, *_: bit(r, 3))
flag_mutation("AF when bit 4 changes", "adjust", lambda ins, a, b, r, *_: bit(a ^ r, 4))
flag_mutation("AF with the old carry taken in", "adjust", carry_in_at(4))
flag_mutation("AF when any low bit is both", "adjust", lambda ins, a, b, *_: int(a & b & 15 != 0))
flag_mutation("AF of the second nibble", "adjust",
              lambda ins, a, b, r, old, a64, b64: carry_at(4)(ins, a, b, r, old, a64 >> 4, b64 >> 4))
flag_mutation("AF also when the nibbles are equal", "adjust",
              lambda ins, a, b, *_: int((a & 15) <= (b & 15)), SUBTRACTIONS)
flag_mutation("AF of the swapped subtraction", "adjust", lambda ins, a, b, *_: int((b & 15) < (a & 15)), SUBTRACTIONS)
flag_mutation("AF as not-borrow", "adjust", lambda ins, a, b, *_: int((a & 15) >= (b & 15)), SUBTRACTIONS)
flag_mutation("AF by the addition rule", "adjust", lambda ins, a, b, *_: int((a & 15) + (b & 15) > 15), SUBTRACTIONS)
flag_mutation("AF from 15 on", "adjust", lambda ins, a, b, *_: int((a & 15) + (b & 15) >= 15), ("add",))
flag_mutation("AF above 16 only", "adjust", lambda ins, a, b, *_: int((a & 15) + (b & 15) > 16), ("add",))
flag_mutation("AF above 9, as daa", "adjust", lambda ins, a, b, *_: int((a & 15) + (b & 15) > 9), ("add",))
flag_mutation("AF by the subtraction rule", "adjust", lambda ins, a, b, *_: int((a & 15) < (b & 15)), ("add",))

flag_mutation("ZF of a 32-bit operation taken at 64 bits", "zero",
              lambda ins, a, b, r, old, a64, b64: int(total64(ins, a64, b64) == 0), width=32)
flag_mutation("ZF of a 64-bit operation taken at 32 bits", "zero",
              lambda ins, a, b, r, *_: int(r & 0xFFFFFFFF == 0), width=64)
flag_mutation("ZF of the upper half", "zero", lambda ins, a, b, r, *_: int(r >> 32 == 0), width=64)
flag_mutation("ZF of the low byte", "zero", lambda ins, a, b, r, *_: int(r & 0xFF == 0))
flag_mutation("ZF of the low 16 bits", "zero", lambda ins, a, b, r, *_: int(r & 0xFFFF == 0))
flag_mutation("ZF without the sign bit", "zero", lambda ins, a, b, r, *_: int(r & (2 ** (ins.width - 1) - 1) == 0))
flag_mutation("ZF without bit 0", "zero", lambda ins, a, b, r, *_: int(r >> 1 == 0))
flag_mutation("ZF inverted", "zero", lambda ins, a, b, r, *_: int(r != 0))
flag_mutation("ZF not when carrying", "zero", lambda ins, a, b, *_: int(a + b == 0), ("add",))
flag_mutation("ZF when the operands are equal", "zero", lambda ins, a, b, *_: int(a == b), ("add",))
flag_mutation("ZF of the old destination", "zero", lambda ins, a, *_: int(a == 0))
flag_mutation("ZF of the other operand", "zero", lambda ins, a, b, *_: int(b == 0))

flag_mutation("SF of a 32-bit operation from bit 63", "sign",
              lambda ins, a, b, r, old, a64, b64: bit(total64(ins, a64, b64), 63), width=32)
flag_mutation("SF of a 64-bit operation from bit 31", "sign", lambda ins, a, b, r, *_: bit(r, 31), width=64)
flag_mutation("SF from bit 7", "sign", lambda ins, a, b, r, *_: bit(r, 7))
flag_mutation("SF from bit 15", "sign", lambda ins, a, b, r, *_: bit(r, 15))
flag_mutation("SF from the bit below the sign", "sign", lambda ins, a, b, r, *_: bit(r, ins.width - 2))
flag_mutation("SF of the old destination", "sign", lambda ins, a, *_: bit(a, ins.width - 1))
flag_mutation("SF of the other operand", "sign", lambda ins, a, b, *_: bit(b, ins.width - 1))
flag_mutation("SF of the exact result", "sign",
              lambda ins, a, b, r, *rest: bit(r, ins.width - 1) ^ Machine().overflow(ins, a, b, r, *rest))
flag_mutation("SF is CF", "sign", lambda ins, *args: Machine().carry(ins, *args))

flag_mutation("OF without the operand sign test", "overflow", lambda ins, a, b, r, *_: bit(a ^ r, ins.width - 1))
flag_mutation("OF by the second operand's sign alone", "overflow", lambda ins, a, b, r, *_: bit(b ^ r, ins.width - 1))
flag_mutation("OF by the other operation's sign test", "overflow", overflow_by_signs(lambda ins: not is_add(ins)))
flag_mutation("OF of a 32-bit operation taken at 64 bits", "overflow", overflow_by_signs(is_add, 64), width=32)
flag_mutation("OF of a 64-bit operation taken at 32 bits", "overflow", overflow_by_signs(is_add, 32), width=64)
flag_mutation("OF taken at 8 bits", "overflow", overflow_by_signs(is_add, 8))
flag_mutation("OF is CF", "overflow", lambda ins, *args: Machine().carry(ins, *args))
flag_mutation("OF is SF", "overflow", lambda ins, *args: Machine().sign(ins, *args))
flag_mutation("OF is CF xor SF", "overflow",
              lambda ins, *args: Machine().carry(ins, *args) ^ Machine().sign(ins, *args))
flag_mutation("OF is the carry into the sign bit", "overflow",
              lambda ins, a, b, r, old, a64, b64: carry_at(ins.width - 1)(ins, a, b, r, old, a64, b64))
flag_mutation("OF of positive operands only", "overflow",
              lambda ins, a, b, r, *rest: Machine().overflow(ins, a, b, r, *rest) & (1 - bit(a, ins.width - 1)))
flag_mutation("OF of negative operands only", "overflow",
              lambda ins, a, b, r, *rest: Machine().overflow(ins, a, b, r, *rest) & bit(a, ins.width - 1))
# The same for an immediate is no mutation: bits 31 and 63 of its extension are alike.
flag_mutation("OF with the other operand's sign from bit 63", "overflow",
              lambda ins, a, b, r, old, a64, b64:
              (bit(a, 31) ^ bit(b64, 63) ^ int(is_add(ins))) & bit(a ^ r, 31), width=32, source=("slot",))

# Decoding.

mutation("REX.R ignored", named(*DATA, source=("slot", "address")),
         register_from_reg=lambda self, rex, reg: reg)
mutation("REX.B extends ModRM.reg", named(*DATA, source=("slot", "address")),
         register_from_reg=lambda self, rex, reg: (rex & 1) << 3 | reg)
mutation("REX.X extends ModRM.reg", named(*DATA, source=("slot", "address")),
         register_from_reg=lambda self, rex, reg: (rex >> 1 & 1) << 3 | reg)
mutation("REX.R or REX.B extends ModRM.reg", named(*DATA, source=("slot", "address")),
         register_from_reg=lambda self, rex, reg: int(rex & 5 != 0) << 3 | reg)
mutation("REX.W extends ModRM.reg", named(*DATA, source=("slot", "address")),
         register_from_reg=lambda self, rex, reg: (rex >> 3 & 1) << 3 | reg)
mutation("REX.B ignored", named(*DATA, source=("imm",)),
         register_from_rm=lambda self, rex, rm: rm)
mutation("REX.R extends ModRM.rm", named(*DATA, source=("imm",)),
         register_from_rm=lambda self, rex, rm: (rex >> 2 & 1) << 3 | rm)
mutation("REX.X extends ModRM.rm", named(*DATA, source=("imm",)),
         register_from_rm=lambda self, rex, rm: (rex >> 1 & 1) << 3 | rm)
mutation("REX.R or REX.B extends ModRM.rm", named(*DATA, source=("imm",)),
         register_from_rm=lambda self, rex, rm: int(rex & 5 != 0) << 3 | rm)
mutation("always 64 bits", named(*DATA, width=32), width=lambda self, rex: 64)
mutation("always 32 bits", named(*DATA, width=64), width=lambda self, rex: 32)
mutation("any REX gives 64 bits", named(*DATA, width=32), width=lambda self, rex: 64 if rex else 32)
mutation("no REX gives 64 bits", named(*DATA, width=32), width=lambda self, rex: 64 if not rex or rex & 8 else 32)
mutation("REX.B gives 64 bits", named(*DATA), width=lambda self, rex: 64 if rex & 1 else 32)
mutation("REX.R gives 64 bits", named(*DATA), width=lambda self, rex: 64 if rex & 4 else 32)
for name, group in (("/5 as /7", {0: "add", 5: "cmp", 7: "cmp"}), ("/7 as /5", {0: "add", 5: "sub", 7: "sub"}),
                    ("/0 as /5", {0: "sub", 5: "sub", 7: "cmp"}), ("/5 as /0", {0: "add", 5: "add", 7: "cmp"})):
    digit = int(name[1])
    mutation("81 " + name, named(Machine.GROUP_81[digit], source=("imm",)), GROUP_81=group)
for name, wrong in (("mov", "add"), ("add", "sub"), ("sub", "cmp"), ("cmp", "sub"), ("sub", "add")):
    opcode = {v: k for k, v in Machine.SLOT_OPCODES.items()}[name]
    mutation("%02X as %s" % (opcode, wrong), named(name, source=("slot",)),
             SLOT_OPCODES=Machine.SLOT_OPCODES | {opcode: wrong})
mutation("FF /2 as jmp", named("call", source=("slot",)), GROUP_FF={2: "jmp", 4: "jmp"})
mutation("FF /4 as call", named("jmp", source=("slot",)), GROUP_FF={2: "call", 4: "call"})



def refuse(condition):
    """No step for an instruction whose REX byte (0 if it has none) meets the condition."""

    def decode(self, code):
        rex = code[0] if code[0] & 0xF0 == 0x40 else 0
        return None if condition(rex) else Machine.decode(self, code)

    return decode


mutation("REX with B refused", named(addr32=False), decode=refuse(lambda rex: rex & 1))
mutation("REX with X refused", named(addr32=False), decode=refuse(lambda rex: rex >> 1 & 1))
mutation("REX with R refused", named(addr32=False), decode=refuse(lambda rex: rex >> 2 & 1))
mutation("REX 40 refused", named(width=32), decode=refuse(lambda rex: rex == 0x40))
mutation("any REX refused before a branch", named("call", "jmp", addr32=False), decode=refuse(lambda rex: rex))
mutation("REX with W refused before a branch", named("call", "jmp", addr32=False),
         decode=refuse(lambda rex: rex >> 3 & 1))
mutation("no prefix refused", named("call", "jmp", addr32=False), decode=refuse(lambda rex: not rex))
for number in range(16):
    mutation("register %d not written" % number, named(*WRITERS),
             write=lambda self, ins, old, value, n=number: old if ins.register == n else value)
    mutation("register %d read as its neighbour" % number, named(*ARITHMETIC),
             read=lambda self, registers, r, n=number: registers[r ^ 1 if r == n else r])
    if number != RSP:
        mutation("register %d overwritten by a branch" % number, named("call", "jmp"),
                 step=lambda self, vector, n=number: (lambda o: o._replace(
                     registers=o.registers[:n] + (o.rip,) + o.registers[n + 1:]))(Machine.step(self, vector)))

# Addresses and operands.


def field_from_start(self, at, ins):
    return (at + sign_extend(ins.field, 32)) & MASK64


def field_unsigned(self, at, ins):
    return (self.next_address(at, ins) + ins.field) & MASK64


def sum_in_32_bits(self, at, ins):
    return Machine.reach(self, at, ins) & 0xFFFFFFFF


def sum_in_low_half(self, at, ins):
    """No carry into the upper half."""
    return at >> 32 << 32 | Machine.reach(self, at, ins) & 0xFFFFFFFF


def sum_without_wrap(self, at, ins):
    return max(0, self.next_address(at, ins) + sign_extend(ins.field, 32))


def field_in_16_bits(self, at, ins):
    return (self.next_address(at, ins) + sign_extend(ins.field, 16)) & MASK64


def field_alone(self, at, ins):
    return sign_extend(ins.field, 32) & MASK64


def big_endian_field(self, at, ins):
    field = int.from_bytes(ins.field.to_bytes(4, "little"), "big")
    return (self.next_address(at, ins) + sign_extend(field, 32)) & MASK64


for text, rule in (
    ("counted from the instruction's start", field_from_start),
    ("field taken unsigned", field_unsigned),
    ("sum cut to 32 bits", sum_in_32_bits),
    ("no carry into the upper half", sum_in_low_half),
    ("field in 16 bits", field_in_16_bits),
    ("field alone, no next", field_alone),
    ("field high byte first", big_endian_field),
    ("sum not wrapping at 0", sum_without_wrap),
):
    if rule is not sum_without_wrap:            # no slot can lie below 0
        mutation("slot: " + text, named(source=("slot",)), slot_address=rule)
    # A 32-bit lea keeps only the low half, where these three do not differ.
    half = 64 if rule in (field_unsigned, sum_in_32_bits, sum_in_low_half) else None
    mutation("lea: " + text, named("lea", width=half), lea_address=rule)
    mutation("relative: " + text, named(source=("relative",)), relative_target=rule)

mutation("lea loads", named("lea"),
         lea_address=lambda self, at, ins: int.from_bytes(bytes([FILL]) * 8, "little"))
mutation("slot read high byte first", named(source=("slot",)),
         load=lambda self, memory, address, width: int.from_bytes(memory.get(address, width // 8), "big"))
mutation("slot read 8 bytes further", named(source=("slot",)),
         load=lambda self, memory, address, width: Machine.load(self, memory, address + 8, width))
mutation("upper half of the slot for 32 bits", named(*DATA, source=("slot",), width=32),
         load=lambda self, memory, address, width: Machine.load(self, memory, address + (64 - width) // 8, width))
mutation("slot aligned down", named(source=("slot",)),
         load=lambda self, memory, address, width: Machine.load(self, memory, address & ~7, width))
mutation("slot read as 32 bits, zero-extended", named(source=("slot",), width=64),
         load=lambda self, memory, address, width: Machine.load(self, memory, address, 32))
mutation("slot read as 32 bits, sign-extended", named(source=("slot",), width=64),
         load=lambda self, memory, address, width: sign_extend(Machine.load(self, memory, address, 32), 32) & MASK64)
mutation("immediate zero-extended", named(source=("imm",), width=64),
         immediate=lambda self, ins: ins.field)
mutation("immediate high byte first", named(source=("imm",)),
         immediate=lambda self, ins: sign_extend(int.from_bytes(ins.field.to_bytes(4, "little"), "big"), 32)
         & (2**ins.width - 1))
mutation("immediate in 8 bits", named(source=("imm",)),
         immediate=lambda self, ins: sign_extend(ins.field, 8) & (2**ins.width - 1))

# Results.

mutation("32-bit write keeps the upper half", named(*WRITERS, width=32),
         write=lambda self, ins, old, value: value if ins.width == 64 else old >> 32 << 32 | value)
mutation("32-bit write sign-extended", named(*WRITERS, width=32),
         write=lambda self, ins, old, value: sign_extend(value, ins.width) & MASK64)
mutation("64-bit write cut to 32 bits", named(*WRITERS, width=64),
         write=lambda self, ins, old, value: value & 0xFFFFFFFF)
mutation("nothing written", named(*WRITERS), write=lambda self, ins, old, value: old)
mutation("cmp writes", named("cmp"), after_compare=lambda self, ins, old, result: result)
mutation("32-bit cmp clears the upper half", named("cmp", width=32),
         after_compare=lambda self, ins, old, result: old & (2**ins.width - 1))
mutation("subtraction swapped, flags as they are", named("sub"),
         combine=lambda self, ins, a, b: (a + b if is_add(ins) else b - a) & (2**ins.width - 1))
mutation("subtraction swapped, flags too", named("sub", "cmp"),
         combine=lambda self, ins, a, b: (a + b if is_add(ins) else b - a) & (2**ins.width - 1),
         arithmetic_flags=lambda self, ins, a, b, r, old, a64, b64:
         Machine.arithmetic_flags(self, ins, *((a, b) if is_add(ins) else (b, a)), r, old, b64, a64))
mutation("32-bit sums at 64 bits, then cut", named(*ARITHMETIC, width=32), width=lambda self, rex: 64,
         write=lambda self, ins, old, value: value & 0xFFFFFFFF)
mutation("the old carry taken in", named("add", "sub", "cmp"),
         step=lambda self, vector: Machine.step(type("M", (Machine,), {
             "combine": lambda s, ins, a, b:
             ((a + b + (vector.flags & 1)) if is_add(ins) else (a - b - (vector.flags & 1))) & (2**ins.width - 1)})(),
             vector))
mutation("saturating sum", named("add", "sub"),
         combine=lambda self, ins, a, b:
         min(a + b, 2**ins.width - 1) if is_add(ins) else max(a - b, 0))
mutation("rip stays", named(*DATA),
         step=lambda self, vector: Machine.step(self, vector)._replace(rip=vector.at))
mutation("rip as without a prefix", named(*DATA),
         step=lambda self, vector: (lambda o: o._replace(rip=o.rip - (vector.code[0] & 0xF0 == 0x40)))
         (Machine.step(self, vector)))

# Flags of the others.

NO_FLAGS = named("mov", "lea", "call", "jmp")
mutation("mov, lea and branches clear the flags", NO_FLAGS, other_flags=lambda self, ins, old, value: 0)
mutation("mov, lea and branches set the flags", NO_FLAGS, other_flags=lambda self, ins, old, value: 63)
for index, flag in enumerate(FLAGS):
    mutation("mov, lea and branches clear " + flag, NO_FLAGS,
             other_flags=lambda self, ins, old, value, i=index: old & ~(1 << i))
    mutation("mov, lea and branches set " + flag, NO_FLAGS,
             other_flags=lambda self, ins, old, value, i=index: old | 1 << i)
mutation("mov, lea and branches test their value", NO_FLAGS,
         other_flags=lambda self, ins, old, value: old & ~(1 << ZF | 1 << SF)
         | int(value == 0) << ZF | bit(value, ins.width - 1) << SF)

# Branches.

CALLS = named("call")


def push_with(amount, count, order="little"):
    def push(self, registers, memory, value):
        registers[RSP] = (registers[RSP] - amount) & MASK64
        memory.put(registers[RSP], (value & (2 ** (8 * count) - 1)).to_bytes(count, order))

    return push


def push_at_rsp(self, registers, memory, value):
    memory.put(registers[RSP], value.to_bytes(8, "little"))
    registers[RSP] = (registers[RSP] - 8) & MASK64


def push_without_rsp(self, registers, memory, value):
    memory.put(registers[RSP] - 8, value.to_bytes(8, "little"))


def push_in_esp(self, registers, memory, value):
    registers[RSP] = (registers[RSP] - 8) & 0xFFFFFFFF
    memory.put(registers[RSP], value.to_bytes(8, "little"))


def push_in_low_half(self, registers, memory, value):
    registers[RSP] = registers[RSP] >> 32 << 32 | (registers[RSP] - 8) & 0xFFFFFFFF
    memory.put(registers[RSP], value.to_bytes(8, "little"))


def push_first(self, ins, at, registers, memory):
    if ins.operation == "call":
        self.push(registers, memory, self.next_address(at, ins))
    if ins.source == "slot":
        return self.indirect_target(memory, at, ins)
    return self.relative_target(at, ins)


mutation("call pushes nothing", CALLS, push=lambda self, registers, memory, value: None)
mutation("call moves rsp, writes nothing", CALLS,
         push=lambda self, registers, memory, value: registers.__setitem__(RSP, registers[RSP] - 8))
mutation("call leaves rsp", CALLS, push=push_without_rsp)
mutation("call writes at the old rsp", CALLS, push=push_at_rsp)
mutation("call pushes 4 bytes", CALLS, push=push_with(4, 4))
mutation("call pushes 4 bytes in 8", CALLS, push=push_with(8, 4))
mutation("call pushes 8 bytes in 16", CALLS, push=push_with(16, 8))
mutation("call pushes high byte first", CALLS, push=push_with(8, 8, "big"))
mutation("call pushes by esp", CALLS, push=push_in_esp)
mutation("rsp - 8 without borrow from the upper half", CALLS, push=push_in_low_half)
mutation("call pushes its own address", CALLS, return_address=lambda self, at, ins, target: at)
mutation("call pushes the target", CALLS, return_address=lambda self, at, ins, target: target)
mutation("call pushes the slot's address", named("call", source=("slot",)),
         return_address=lambda self, at, ins, target: self.slot_address(at, ins))
mutation("call pushes next without the prefix", CALLS,
         return_address=lambda self, at, ins, target: at + (6 if ins.source == "slot" else 5))
mutation("call pushes next cut to 32 bits", CALLS,
         return_address=lambda self, at, ins, target: (at + ins.length) & 0xFFFFFFFF)
mutation("next without a carry into the upper half", CALLS,
         return_address=lambda self, at, ins, target: at >> 32 << 32 | (at + ins.length) & 0xFFFFFFFF)
mutation("pushes before it reads the slot", named("call", source=("slot",)), branch=push_first)
mutation("jumps to the slot's address", named("call", "jmp", source=("slot",)),
         indirect_target=lambda self, memory, at, ins: self.slot_address(at, ins))
mutation("does not branch", named("call", "jmp"),
         indirect_target=lambda self, memory, at, ins: self.next_address(at, ins),
         relative_target=lambda self, at, ins: self.next_address(at, ins))
mutation("relative target from next without the prefix", named("call", "jmp", source=("relative",)),
         relative_target=lambda self, at, ins: (at + 5 + sign_extend(ins.field, 32)) & MASK64)
ADDR32 = named("call", addr32=True)
mutation("67 cuts the target to 32 bits", ADDR32,
         relative_target=lambda self, at, ins: self.reach(at, ins) & (0xFFFFFFFF if ins.addr32 else MASK64))
mutation("67 cuts the return address to 32 bits", ADDR32,
         return_address=lambda self, at, ins, target: (at + ins.length) & (0xFFFFFFFF if ins.addr32 else MASK64))
mutation("67 makes the field 16 bits", ADDR32,
         relative_target=lambda self, at, ins:
         (at + ins.length + sign_extend(ins.field, 16 if ins.addr32 else 32)) & MASK64)
mutation("67 adds no length", ADDR32,
         next_address=lambda self, at, ins: at + ins.length - ins.addr32)
mutation("67 cuts rsp to 32 bits", ADDR32, push=push_in_esp)


def cell_of(ins):
    source = "67 relative" if ins.addr32 else ins.source
    return (ins.operation, source, ins.width)


def cell_text(cell):
    return "%s %s %d" % cell


def prefix_text(vector):
    first = vector.code[0]
    return "%02x" % first if first == 0x67 or first & 0xF0 == 0x40 else "none"


def check_reference(vectors):
    machine = Machine()
    bad = 0
    for number, vector in enumerate(vectors, 1):
        ins = machine.decode(vector.code + bytes(8))
        if ins is None or ins.length != vector.length:
            right = False
        elif ins.source == "slot" and machine.slot_address(vector.at, ins) != vector.slot:
            right = False
        elif ins.source != "slot" and (vector.slot or vector.contents):
            right = False
        else:
            right = machine.step(vector) == observed(vector)
        if not right:
            bad += 1
            print("line %d disagrees: %s" % (number, vector.code.hex()))
    print("vectors: %d, disagreeing with the reference: %d" % (len(vectors), bad))
    return bad == 0


def check_coverage(vectors, instructions):
    print("\nvectors by cell, distinct destinations, prefixes, prefix and register together, "
          "fields negative/not negative:")
    cells = {}
    for vector, ins in zip(vectors, instructions):
        cells.setdefault(cell_of(ins), []).append((vector, ins))
    for cell, members in sorted(cells.items()):
        registers = {ins.register for _, ins in members} - {None}
        prefixes = {prefix_text(vector) for vector, _ in members}
        together = {(prefix_text(vector), ins.register) for vector, ins in members}
        negative = sum(ins.field >> 31 for _, ins in members)
        print("  %-20s %4d  %2d  %2d  %2d  %d/%d" % (
            cell_text(cell), len(members), len(registers), len(prefixes), len(together),
            negative, len(members) - negative))

    print("\nflags after add, sub, cmp as zeros/ones:")
    complete = True
    for cell, members in sorted(cells.items()):
        if cell[0] not in ARITHMETIC:
            continue
        texts = []
        for index, flag in enumerate(FLAGS):
            ones = sum(bit(vector.flags_after, index) for vector, _ in members)
            zeros = len(members) - ones
            complete = complete and zeros > 0 and ones > 0
            texts.append("%s %d/%d" % (flag, zeros, ones))
        print("  %-12s %s" % (cell_text(cell), "  ".join(texts)))
    changes = Counter()
    for vector, ins in zip(vectors, instructions):
        if ins.operation in ARITHMETIC:
            for index, flag in enumerate(FLAGS):
                changes[flag, bit(vector.flags, index), bit(vector.flags_after, index)] += 1
    complete = complete and len(changes) == 24
    print("every flag seen both ways in every cell, and in all four changes: %s" % ("yes" if complete else "NO"))
    return complete, cells


def check_mutations(cells):
    print("\nmutations: vectors that tell it apart, in how many of its cells, fewest in one cell:")
    survivors = 0
    pairs = 0
    for name, machine, where in MUTATIONS:
        found = []
        for cell, members in sorted(cells.items()):
            concerned = [vector for vector, ins in members if where(ins)]
            if not concerned:
                continue
            count = 0
            for vector in concerned:
                try:
                    count += machine.step(vector) != observed(vector)
                except OverflowError:
                    count += 1
            found.append((count, cell))
        assert found, name
        pairs += len(found)
        missed = [cell_text(cell) for count, cell in found if count == 0]
        print("  %-58s %5d  %2d/%-2d  %4d%s" % (
            name, sum(count for count, _ in found), len(found) - len(missed), len(found),
            min(found)[0], "  SURVIVES IN " + ", ".join(missed) if missed else ""))
        survivors += bool(missed)
    print("mutations: %d, in %d cells together; not told apart in some cell: %d" % (
        len(MUTATIONS), pairs, survivors))
    return survivors == 0


def main():
    path = sys.argv[1] if len(sys.argv) > 1 else "cpu_vectors.txt"
    with open(path, encoding="ascii") as file:
        vectors = [read_vector(line.rstrip("\n")) for line in file]
    right = check_reference(vectors)
    instructions = [Machine().decode(vector.code + bytes(8)) for vector in vectors]
    complete, cells = check_coverage(vectors, instructions)
    killed = check_mutations(cells)
    sys.exit(0 if right and complete and killed else 1)


if __name__ == "__main__":
    main()
