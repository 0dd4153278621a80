#!/usr/bin/env python3
"""Looks at the roles of those opcodes of a target file that load, store or call through a register.

    bench/memory_roles.py [--quiet] [--from FOLDER] [--printed FOLDER] [MACHINE ..]

reads examples/targets/MACHINE.target (or FOLDER/MACHINE.target) of each of the seven machines, or of those named. A table
below says by the machine's own names which opcodes reach memory, and in which order their operands stand: each register that
makes up an address must have the role `addr`, and what is stored another one. It prints a line for each opcode that has other
roles, then the opcodes whose base is tied (pre- and post-indexed ones; no role is both tied and an address), then those with
an address that the table doesn't know, then counts. The status is 0 where all are known and have the roles that they should have; `--quiet` prints nothing then.

With `--printed FOLDER` it also reads the functions FOLDER/MACHINE/*.mir as llc prints them: an opcode that has a memory operand
there (`:: (load ..)` or `:: (store ..)`) has to be in the table.
"""
import argparse
import glob
import os
import re
import sys

ROOT = os.path.dirname(os.path.dirname(os.path.realpath(__file__)))

# A letter for each role. In the tables: A an address, B a base that is tied, D a definition, T a tied use that is no address,
# S what is stored, or another use that may be undefined, C what is never a register of a program (an immediate, a symbol, a
# segment), M a mask, and an asterisk behind a letter for any number.
LETTERS = {
    "A": "addr:", "B": "tied", "D": "(def|early):", "T": "tied", "S": "use:", "C": "(imm|val|sym)$", "M": "mask$",
}
X86 = "A C A C C"  # base, scale, index, displacement, segment
TABLE = {
    "riscv64": [
        (r"L(B|BU|H|HU|W|WU|D)", "D A C"),
        (r"S(B|H|W|D)", "S A C"),
        (r"PseudoCALLIndirect", "A M"),
    ],
    "loongarch64": [
        (r"LD_(B|BU|H|HU|W|WU|D)", "D A C"),
        (r"LDX_(B|BU|H|HU|W|WU|D)", "D A A"),
        (r"ST_(B|H|W|D)", "S A C"),
        (r"STX_(B|H|W|D)", "S A A"),
        (r"PseudoCALLIndirect", "A M"),
    ],
    "aarch64": [
        (r"LDU?R\w*?(ui|[WXBH]i)", "D A C"),
        (r"LDR\w*ro[WX]", "D A A C C"),
        (r"LDR\w*(post|pre)", "D D B C"),
        (r"STU?R\w*?(ui|[WXBH]i)", "S A C"),
        (r"STR\w*ro[WX]", "S A A C C"),
        (r"STR\w*(post|pre)", "D S B C"),
        (r"BLR", "A M"),
    ],
    "hexagon": [
        (r"L[24]_load\w+_io", "D A C"),
        (r"L4_load\w+_rr", "D A A C"),
        (r"L2_load\w+_pi", "D D B C"),
        (r"L2_load\w+gp", "D C"),
        (r"S2_store\w+_io", "A C S"),
        (r"S4_storei\w+_io", "A C C"),
        (r"S4_store\w+_rr", "A A C S"),
        (r"S2_store\w+_pi", "D B C S"),
        (r"L4_(add|sub|and|or)_memop[bhw]_io", "A C S"),
        (r"L4_i(add|sub|and|or)_memop[bhw]_io", "A C C"),
        (r"J2_callr", "A M"),
    ],
    "avr": [
        (r"LDW?RdPtr", "D A"),
        (r"LDDW?RdPtrQ", "D A C"),
        (r"LDW?RdPtrP[id]", "D D B"),
        (r"LDSW?RdK", "D C"),
        (r"STW?PtrRr", "A S"),
        (r"STDW?(Ptr|SP)QRr", "A C S"),
        (r"STW?PtrP[id]Rr", "D B S C"),
        (r"STSW?KRr", "C S"),
        (r"ICALL", "A S* M"),
    ],
    "mips16": [
        (r"L(b|bu|h|hu|w)RxRyOffMemX16", "D A C"),
        (r"LwRxSpImmX16", "D A C"),
        (r"S(b|h|w)RxRyOffMemX16", "S A C"),
        (r"SwRxSpImmX16", "S A C"),
        (r"LwConstant32", "D C C"),
        (r"JumpLinkReg16", "A M"),
    ],
    "x86_64": [
        (r"(MOV|MOV[SZ]X)\d+rm\d*", "D " + X86),
        (r"IMUL\d+rmi\d*", "D " + X86 + " C"),
        (r"CMOV\d+rm", "D T " + X86 + " C"),
        (r"(CMP|TEST|BT)\d+rm", "S " + X86),
        (r"(ADC|ADD|AND|IMUL|OR|SBB|SUB|XOR)\d+rm", "D T " + X86),
        (r"[A-Z]+\d+mr", X86 + " S"),
        (r"[A-Z]+\d+mi\d*", X86 + " C"),
        (r"(DEC|INC|NEG|NOT)\d+m", X86),
        (r"CALL64m", X86 + " M"),
        (r"CALL64r", "A M"),
    ],
}
# operands that a role needn't stand for, and those that have no part in this
PASSED = re.compile(r"impdef:|impuse:|rest$|any$")


def opcodes(path):
    """The name and the roles of each opcode that a target file names; spill and reload opcodes name slots and aren't asked."""
    with open(path, encoding="utf-8") as file:
        lines = [line.split() for line in file]
    return [(words[1], words[3:]) for words in lines if words[:1] == ["op"] and words[2] not in ("spill", "reload")]


def wanted(machine, name):
    """The letters of an opcode by its name; None where the table has no such name."""
    return next((letters for pattern, letters in TABLE[machine] if re.fullmatch(pattern, name)), None)


def fits(roles, letters):
    """Whether roles are what the letters say."""
    pattern = "".join("(%s\\S* )%s" % (LETTERS[it[0]].replace("$", "(?= )"), it[1:]) for it in letters.split())
    return re.fullmatch(pattern, "".join(role + " " for role in roles if not PASSED.match(role))) is not None


def in_words(letters):
    """The letters as roles in words."""
    words = {"A": "addr", "B": "tied", "D": "def", "T": "tied", "S": "use", "C": "constant", "M": "mask"}
    return " ".join(words[it[0]] + it[1:] for it in letters.split())


def with_memory_operand(folder, machine):
    """The opcodes that have a memory operand in functions as llc prints them."""
    found = set()
    for path in glob.glob(os.path.join(folder, machine, "*.mir")):
        with open(path, encoding="utf-8") as file:
            lines = [line for line in file if re.search(r" :: \(.*(load|store) ", line)]
        found.update(re.search(r"^\s*(?:.* = )?(?:[a-z-]+ )*([A-Z]\w*)", line)[1] for line in lines)
    return found


def test(machine, folder, printed, quiet):
    """Prints what is found of one machine, and says whether its file is as it should be."""
    named = [(name, roles, wanted(machine, name)) for name, roles in opcodes(os.path.join(folder, machine + ".target"))]
    known = [it for it in named if it[2] is not None]
    other = [it for it in known if not fits(it[1], it[2])]
    for name, roles, letters in other:
        print("%s: %s: %s, and should be %s" % (machine, name, " ".join(roles), in_words(letters)))
    tied = [name for name, _, letters in known if "B" in letters.split()]
    if tied and not quiet:
        print("%s: tied base: %s" % (machine, " ".join(tied)))
    unknown = ["%s has a role addr" % name for name, roles, letters in named if letters is None and any(it.startswith("addr:") for it in roles)]
    if printed is not None:
        unknown += ["%s has a memory operand" % it for it in sorted(with_memory_operand(printed, machine)) if wanted(machine, it) is None]
    for what in unknown:
        print("%s: %s, and the table doesn't know it" % (machine, what))
    if not quiet:
        print("%s: %d opcodes reach memory, %d of them with a tied base; %d have other roles" % (machine, len(known), len(tied), len(other)))
    return not other and not unknown


def main():
    words = argparse.ArgumentParser(description=__doc__, formatter_class=argparse.RawDescriptionHelpFormatter)
    words.add_argument("--from", dest="folder", default=os.path.join(ROOT, "examples/targets"))
    words.add_argument("--printed")
    words.add_argument("--quiet", action="store_true")
    words.add_argument("machine", nargs="*", choices=[[], *TABLE])
    asked = words.parse_args()
    good = [test(machine, asked.folder, asked.printed, asked.quiet) for machine in asked.machine or TABLE]
    return 0 if all(good) else 1


if __name__ == "__main__":
    sys.exit(main())
