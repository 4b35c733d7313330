#!/usr/bin/env python3
"""Picks the runs of crates/rules/specs/Runs.antt from the vectors, and prints them as rows.

Usage: pick_runs.py cpu_vectors.txt

In each cell (operation, source, width) the fewest vectors that a greedy search
finds, such that every mutated rule of model.py that some vector of the cell
tells apart is told apart by one that was picked. Only what a run shows counts:
the destination (rsp for branches), the flags, rip and the stack top. Mutations
of a single register are left to the replay of all vectors.
"""

import sys

import model

BRANCHES = ("call", "jmp")


def destination(ins):
    return model.RSP if ins.operation in BRANCHES else ins.register


def shown(ins, outcome):
    return outcome.registers[destination(ins)], outcome.flags, outcome.rip, outcome.top


def told_apart(mutant, vector, ins):
    try:
        return shown(ins, mutant.step(vector)) != shown(ins, model.observed(vector))
    except Exception:  # a mutant that finds no instruction there
        return True


def pick(cell):
    rest = set()
    kills = [set() for _ in cell]
    for number, (name, mutant, where) in enumerate(model.MUTATIONS):
        if "register" in name:
            continue
        for index, (vector, ins) in enumerate(cell):
            if where(ins) and told_apart(mutant, vector, ins):
                kills[index].add(number)
                rest.add(number)
    picked = []
    while rest:
        best = max(range(len(cell)), key=lambda index: (len(kills[index] & rest), -index))
        picked.append(cell[best])
        rest -= kills[best]
    return picked


def row(vector, ins):
    code = "".join(f"0x{byte:02X} ∷ " for byte in vector.code) + "[]"
    register = destination(ins)
    values = (vector.registers[register], vector.registers_after[register], vector.rip_after)
    numbers = " ".join(f"0x{number:x}" for number in values)
    flags = f"{vector.flags} {vector.flags_after}"
    if ins.operation in BRANCHES:
        slot = f"0x{vector.slot:x} 0x{vector.contents:x}"
        return f"branch ({code}) 0x{vector.at:x} {numbers} {flags} {slot} 0x{vector.top_after:x}"
    return f"alu ({code}) 0x{vector.at:x} {numbers} {flags} {register}"


def main():
    cells = {}
    with open(sys.argv[1], encoding="ascii") as file:
        vectors = [model.read_vector(line.rstrip("\n")) for line in file]
    for vector in vectors:
        ins = model.Machine().decode(vector.code + bytes(8))
        branch = ins.operation in BRANCHES
        if branch or (ins.source in ("imm", "address") and ins.register != model.RSP):
            cells.setdefault((branch, ins.operation, ins.source, ins.width, ins.addr32), []).append((vector, ins))
    for cell in sorted(cells, key=str):
        for vector, ins in pick(cells[cell]):
            print(row(vector, ins))


if __name__ == "__main__":
    main()
