#!/usr/bin/env python3
"""Makes what `llra alloc` wrote ready for llc: spill and reload opcodes get the machine's own names, markers go.

    bench/spill_names.py MACHINE <ALLOCATED.mir >FOR_LLC.mir

The target files of examples/targets name a spill opcode SPILL_CLASS and a reload opcode RELOAD_CLASS, since what a machine
has for them differs in the order of its operands. MACHINE is riscv64, loongarch64, aarch64, x86_64, hexagon, mips16 or avr.
A spill or reload becomes the machine's store or load of the slot, at the offset of the part that its last operand, a `%subreg`
index, names, or at 0. LIFETIME_START and LIFETIME_END belong to a pass of llc before allocation: their lines are left out.
"""
import re
import sys

# of each class: store and load, with places for the register, the slot and the offset, and how many bytes they move
OPCODES = {
    "riscv64": {"gpr": ("SD {r}, {s}, {k}", "{r} = LD {s}, {k}", 8)},
    "loongarch64": {"gpr": ("ST_D {r}, {s}, {k}", "{r} = LD_D {s}, {k}", 8)},
    "aarch64": {
        "32": ("STRWui {r}, {s}, {k}", "{r} = LDRWui {s}, {k}", 4),
        "64": ("STRXui {r}, {s}, {k}", "{r} = LDRXui {s}, {k}", 8),
    },
    "x86_64": {
        "gr8": ("MOV8mr {s}, 1, $noreg, {k}, $noreg, {r}", "{r} = MOV8rm {s}, 1, $noreg, {k}, $noreg", 1),
        "gr16": ("MOV16mr {s}, 1, $noreg, {k}, $noreg, {r}", "{r} = MOV16rm {s}, 1, $noreg, {k}, $noreg", 2),
        "gr32": ("MOV32mr {s}, 1, $noreg, {k}, $noreg, {r}", "{r} = MOV32rm {s}, 1, $noreg, {k}, $noreg", 4),
        "gr64": ("MOV64mr {s}, 1, $noreg, {k}, $noreg, {r}", "{r} = MOV64rm {s}, 1, $noreg, {k}, $noreg", 8),
        "gr64_nosp": ("MOV64mr {s}, 1, $noreg, {k}, $noreg, {r}", "{r} = MOV64rm {s}, 1, $noreg, {k}, $noreg", 8),
    },
    "hexagon": {
        "intregs": ("S2_storeri_io {s}, {k}, {r}", "{r} = L2_loadri_io {s}, {k}", 4),
        "doubleregs": ("S2_storerd_io {s}, {k}, {r}", "{r} = L2_loadrd_io {s}, {k}", 8),
        "predregs": ("STriw_pred {s}, {k}, {r}", "{r} = LDriw_pred {s}, {k}", 4),
    },
    "mips16": {"gpr32": ("SwRxSpImmX16 {r}, {s}, {k}", "{r} = LwRxSpImmX16 {s}, {k}", 4)},
    "avr": {
        "gpr8": ("STDPtrQRr {s}, {k}, {r}", "{r} = LDDRdPtrQ {s}, {k}", 1),
        "dregs": ("STDWPtrQRr {s}, {k}, {r}", "{r} = LDDWRdYQ {s}, {k}", 2),
    },
}
# how many bytes of a register stand before a part of it
OFFSETS = {
    "avr": {"sub_lo": 0, "sub_hi": 1},
    "hexagon": {"isub_lo": 0, "isub_hi": 4},
    "aarch64": {"sub_32": 0},
    "x86_64": {"sub_8bit": 0, "sub_8bit_hi": 1, "sub_16bit": 0, "sub_32bit": 0},
}
STORE = re.compile(r"^(\s*)SPILL_(\w+) ((?:undef |renamable )*)(\$\w+), (%stack\.\d+), (0|%subreg\.\w+)$")
LOAD = re.compile(r"^(\s*)((?:renamable )*)(\$\w+) = RELOAD_(\w+) (%stack\.\d+), (0|%subreg\.\w+)$")


def forms(machine, name):
    """The store and the load of a class, and how many bytes they move."""
    table = OPCODES[machine]
    if machine == "aarch64":
        return table["32" if "32" in name else "64"]
    if name not in table:
        sys.exit("spill_names.py: %s has no store and load of the class %s" % (machine, name))
    return table[name]


def offset(machine, part, unit):
    """The offset of a part of a register, in the units of the store: AArch64 counts in its size."""
    if part == "0":
        return 0
    table = OFFSETS.get(machine, {})
    name = part[len("%subreg."):]
    if name not in table:
        sys.exit("spill_names.py: %s has no offset of the part %s" % (machine, name))
    return table[name] // unit


def renamed(machine, line):
    """The line for llc; None where it goes."""
    words = line.split()
    if words and words[0] in ("LIFETIME_START", "LIFETIME_END"):
        return None
    store, load = STORE.match(line), LOAD.match(line)
    if store:
        indent, name, flags, register, slot, part = store.groups()
        form, _, size = forms(machine, name)
        at = offset(machine, part, size if machine == "aarch64" else 1)
        return "%s%s :: (store (s%d) into %s)" % (indent, form.format(r=flags + register, s=slot, k=at), 8 * size, with_offset(slot, at))
    if load:
        indent, flags, register, name, slot, part = load.groups()
        _, form, size = forms(machine, name)
        at = offset(machine, part, size if machine == "aarch64" else 1)
        return "%s%s :: (load (s%d) from %s)" % (indent, form.format(r=flags + register, s=slot, k=at), 8 * size, with_offset(slot, at))
    if re.search(r"\b(SPILL|RELOAD)_\w+ ", line):
        sys.exit("spill_names.py: this line isn't as llra writes it: " + line.strip())
    return line


def with_offset(slot, at):
    """A slot as a memory operand names it."""
    return "%s + %d" % (slot, at) if at else slot


def ready(machine, text):
    """The whole text for llc."""
    lines = (renamed(machine, line) for line in text.split("\n"))
    return "\n".join(line for line in lines if line is not None)


if __name__ == "__main__":
    if len(sys.argv) != 2 or sys.argv[1] not in OPCODES:
        sys.exit(__doc__)
    sys.stdout.write(ready(sys.argv[1], sys.stdin.read()))
