#!/usr/bin/env python3
"""Splits a file as llc prints it, allocates each function by itself, and tells what was refused.

    bench/fits.py TARGET FILE OUT

FILE holds documents: a module in IR (`--- |`) and functions in Machine IR, as `llc -stop-after=finalize-isel` prints
them. OUT gets each function that `llra alloc TARGET` allocates, with the module before them, so that
`llc -start-after=virtregrewriter` can go on (bench/spill_names.py first). In that module the refused functions are declared and
not defined any more: llc ends with a fault at a definition that has no machine function. Standard output gets a table of what was refused:
function, place, opcode or line, and the rule or fault in words. The status is 0 where all were allocated, else 1.

llra itself ends at the first document that it refuses. Here each function is a run of its own, so one refusal costs one
function. `LLRA` names another executable.
"""
import os
import re
import subprocess
import sys
import tempfile

HERE = os.path.dirname(os.path.abspath(__file__))
RULES = {
    1: "operands don't fit the roles of the opcode in the target file",
    2: "a register isn't in the class of its operand, or what is copied differs in widths",
    3: "a virtual register has no class, or two",
    4: "a subregister index doesn't fit the register's class",
    5: "a block's number stands twice, or a block that is named isn't there",
    6: "the entry block has a predecessor",
    7: "a phi stands behind other instructions, or doesn't name each predecessor once",
    8: "an instruction stands behind a terminator",
    9: "the successors aren't the branch targets and the block that is fallen into",
    10: "the last block falls out of the function",
    11: "a tie or an early-clobber flag isn't that of the target file, or tied registers don't fit",
    12: "definitions of one instruction share a register, or an early one shares with a use",
    13: "live-ins don't fit",
    14: "a register is read on a path on which nothing defines it",
    15: "a spill slot where none may be",
    16: "an opcode or a block that isn't taken (exception pads, inline assembly, debug values ..)",
}
FAULTS = {
    "layout": "the line isn't laid out as a line of Machine IR is",
    "token": "an operand of a form that isn't taken, or that the target file doesn't opt in (`form`, `flags`)",
    "name": "an opcode, register, class, index, mask or flag that the target file doesn't have",
    "end": "the text ends too early",
}
OTHERS = {
    "variables": "too many registers are needed at once at this place",
    "no assignment": "no registers differ as this place needs",
}


def documents(lines):
    """The documents of a file, each as its lines."""
    made = []
    for line in lines:
        if line.startswith("---") or not made:
            made.append([])
        made[-1].append(line)
    return made


def name_of(document):
    for line in document:
        if line.startswith("name:"):
            return line[5:].strip()
    return None


def instruction(document, block, at):
    """The text of an instruction, counted from 0 in the block of a number; the block's header for 0 of an empty one."""
    inside, k = False, 0
    for line in document:
        header = re.match(r"\s+bb\.(\d+)[ .(:]", line)
        if header:
            inside = int(header[1]) == block
            continue
        text = line.strip()
        if inside and text and not text.startswith((";", "successors:", "liveins:")):
            if k == at:
                return text
            k += 1
    return ""


def opcode(text):
    """The opcode of an instruction's text."""
    words = re.sub(r"^.* = ", "", text).split()
    return next((it for it in words if re.match(r"[A-Z]", it)), text[:20])


def refusal(message, path, document, name):
    """Place, text and reason of what llra says on standard error."""
    message = message.strip()
    rule = re.search(r"bb\.(\d+):(\d+): (?:V(\d+)|(.*))$", message)
    if rule:
        block, at = int(rule[1]), int(rule[2])
        text = instruction(document, block, at)
        why = "V%s: %s" % (rule[3], RULES.get(int(rule[3]), "")) if rule[3] else OTHERS.get(rule[4], rule[4])
        return "bb.%d:%d" % (block, at), opcode(text), why, text
    line = re.search(r":(\d+): (\w+)$", message)
    if line:
        number = int(line[1])
        text = document[number - 1].strip() if number <= len(document) else ""
        return "line %d" % number, opcode(text), "%s: %s" % (line[2], FAULTS.get(line[2], "")), text
    return "-", "-", message.replace(path, name), ""


def declared(module, names):
    """A module in IR, as lines, in which the functions of these names are declared and not defined."""
    made, inside = [], False
    for line in module:
        head = re.match(r"  define ([^@]*@\"?([\w.$-]+)\"?\(.*\)[^()]*)\{$", line)
        if head and head[2] in names:
            inside = True
            words = re.sub(r"\b(internal|private|weak_odr|linkonce_odr|weak|linkonce) |!\w+ !\d+ ", "", head[1])
            made.append("  declare " + words.rstrip())
        elif not inside:
            made.append(line)
        inside = inside and line != "  }"
    return made


def main(target, path, out):
    llra = os.environ.get("LLRA") or subprocess.run([HERE + "/../llra"], env={**os.environ, "LLRA_WHERE": "1"}, stdout=subprocess.PIPE, check=True).stdout.decode().strip()
    with open(path, encoding="utf-8") as it:
        parts = documents(it.read().split("\n"))
    refused, written, taken = [], [], 0
    with tempfile.TemporaryDirectory() as work:
        one = work + "/f.mir"
        for document in parts:
            name = name_of(document)
            text = "\n".join(document).rstrip("\n") + "\n"
            if name is None:
                written.append(document)
                continue
            with open(one, "w", encoding="utf-8") as it:
                it.write(text)
            done = subprocess.run([llra, "alloc", target, one], stdout=subprocess.PIPE, stderr=subprocess.PIPE)
            if done.returncode == 0:
                taken += 1
                written.append(done.stdout.decode().split("\n"))
            else:
                refused.append((name, *refusal(done.stderr.decode(), one, document, name)))
    names = {it[0] for it in refused}
    with open(out, "w", encoding="utf-8") as to:
        for document in written:
            lines = declared(document, names) if document[0].startswith("--- |") else document
            to.write("\n".join(lines).rstrip("\n") + "\n" if any(lines) else "")
    for name, place, word, why, text in refused:
        print("%s\t%s\t%s\t%s\n\t%s" % (name, place, word, why, text))
    print("%d allocated, %d refused" % (taken, len(refused)))
    return 1 if refused else 0


if __name__ == "__main__":
    if len(sys.argv) != 4:
        sys.exit(__doc__)
    sys.exit(main(*sys.argv[1:]))
