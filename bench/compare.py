#!/usr/bin/env python3
"""Compares the code that llra and llc's allocators make of real functions: what of it is executed.

    bench/compare.py MACHINE TARGET FOLDER

FOLDER has a file NAME.mir for each function, as llc prints it behind instruction selection: its module in IR and the function
in Machine IR. TARGET is a target file of MACHINE: riscv64, loongarch64, aarch64 or x86_64. Each function is allocated by

- `llra alloc`, whose spills and reloads get the machine's own opcodes (spill_names.py);
- llc, from detect-dead-lanes to virtregrewriter, by -regalloc=greedy, basic and fast, all with -enable-misched=0.

A function counts that all of them take. Counted are, of the instructions of each:

- copies: the opcode COPY (no allocator leaves one of a register to itself, and none is expanded at this point), and
  SUBREG_TO_REG into another register; into the same one llc makes nothing of it;
- spills, reloads: a memory operand that stores to, or loads from, a stack object of the type spill-slot. On x86-64 llc folds
  reloads into other instructions: they count as reloads too;
- instructions: all but IMPLICIT_DEF, KILL and LIFETIME markers, of which nothing is left in the program.

Each is multiplied by the frequency of its block, 1 for the entry: what `llc -print-machine-bfi` prints of each output. That
goes by the branch probabilities in the `successors` lines, which are llc's own and the same in all outputs. So the sums say
what is executed where each function is called once and its branches go as llc expects; functions with loops in loops weigh
most. The last column is the geometric mean, over the functions, of executed instructions divided by greedy's: there each
function weighs the same. It needs Debian's llvm-19; `LLRA` names another executable.
"""
import math
import os
import re
import shutil
import subprocess
import sys
import tempfile

from real import HERE, one_module, passes, takes
from spill_names import ready

KINDS = ("copies", "spills", "reloads", "instructions")
NOTHING = {"IMPLICIT_DEF", "KILL", "LIFETIME_START", "LIFETIME_END"}
LLC = ("greedy", "basic", "fast")


def ran(*words):
    """A run that has to end well: its output and what it says."""
    done = subprocess.run(words, stdin=subprocess.DEVNULL, stdout=subprocess.PIPE, stderr=subprocess.PIPE, text=True)
    if done.returncode:
        sys.exit("compare.py: %s: status %d\n%s" % (" ".join(words), done.returncode, done.stderr[-2000:]))
    return done.stdout, done.stderr


def words_of(machine, allocator):
    return [it.replace("greedy", allocator) for it in passes(machine)]


def blocks_of(text):
    """The blocks of each function of a text, by its name, in layout: the lines of their instructions, and the spill slots."""
    functions = {}
    for document in re.split(r"^---$", text, flags=re.M):
        name = re.search(r"^name: *(\S+)", document, re.M)
        if not name:
            continue
        head, body = document.split("\nbody:", 1)
        slots = set(re.findall(r"\{ id: (\d+),[^}]*type: spill-slot", head))
        blocks = []
        for line in body.split("\n")[1:]:
            if re.match(r"  bb\.\d+", line):
                blocks.append([])
            elif line.startswith("    ") and not re.match(r"\s*(successors:|liveins:|;|$)", line):
                blocks[-1].append(line.strip())
        functions[name[1]] = blocks, slots
    return functions


def frequencies(path):
    """How often each block of each function is executed, in layout, by llc."""
    _, told = ran("llc-19", "-run-pass=shrink-wrap", "-print-machine-bfi", path, "-o", os.devnull)
    found, name = {}, None
    for line in told.split("\n"):
        head = re.match(r"block-frequency-info: (\S+)", line)
        block = re.match(r" - BB.*int = (\d+)", line)
        if head:
            name = head[1]
            found[name] = []
        elif block:
            found[name].append(int(block[1]))
    return {name: [it / all_of[0] for it in all_of] for name, all_of in found.items()}


def known_as(register):
    """One name for a register of 64 bits and its lower half, on AArch64 and x86-64."""
    return re.sub(r"^[wx](?=\d)|^[re](?=[a-z])|d$", "", register)


def of_instruction(line, slots):
    """What one instruction adds to the four counts."""
    widened = re.match(r".*\$(\w+) = SUBREG_TO_REG 0, .*\$(\w+),", line)
    if widened:
        moved = known_as(widened[1]) != known_as(widened[2])
        return moved, 0, 0, moved
    line = re.sub(r"^[^\"]*? = ", "", line) if " = " in line.split("::")[0] else line
    opcode = next(it for it in line.split() if re.match(r"[A-Z]", it))
    memory = line.split("::", 1)[1] if "::" in line else ""
    spilled = [it[0] for it in re.findall(r"\((store|load) [^()]*\([^()]*\) (?:into|from) %stack\.(\d+)", memory) if it[1] in slots]
    return opcode == "COPY", spilled.count("store"), spilled.count("load"), opcode not in NOTHING


def executed(path):
    """The four counts of each function of a file of allocated functions."""
    with open(path, encoding="utf-8") as it:
        functions = blocks_of(it.read())
    often, counts = frequencies(path), {}
    for name, (blocks, slots) in functions.items():
        if len(blocks) != len(often[name]):
            sys.exit("compare.py: %s: %d blocks, %d frequencies" % (name, len(blocks), len(often[name])))
        counts[name] = [sum(f * of_instruction(line, slots)[k] for f, block in zip(often[name], blocks) for line in block) for k in range(4)]
    return counts


def outputs(machine, target, llra, source, work):
    """Files with what each allocator makes of all functions of a file."""
    files = {"llra": work + "/llra.mir"}
    with open(files["llra"], "w", encoding="utf-8") as it:
        it.write(ready(machine, ran(llra, "alloc", target, source)[0]))
    for allocator in LLC:
        files[allocator] = "%s/%s.mir" % (work, allocator)
        ran(*words_of(machine, allocator), source, "-o", files[allocator])
    return files


def table(machine, counts, left_out):
    names = sorted(counts["greedy"])
    sums = {it: [sum(counts[it][name][k] for name in names) for k in range(4)] for it in counts}
    print("%s: %d functions, %d left out" % (machine, len(names), left_out))
    print("%-8s" % "" + "".join("%14s %8s" % (kind, "/greedy") for kind in KINDS) + "%16s" % "mean of ratios")
    for it in ("greedy", "llra", "basic", "fast"):
        mean = math.exp(sum(math.log(counts[it][name][3] / counts["greedy"][name][3]) for name in names) / len(names))
        pairs = ("%14.0f %8s" % (mine, ("%.3f" if mine < 100 * greedy else "%.0f") % (mine / greedy) if greedy else "-") for mine, greedy in zip(sums[it], sums["greedy"]))
        print("%-8s" % it + "".join(pairs) + "%16.3f" % mean)


def main(machine, target, folder):
    if not shutil.which("llc-19"):
        sys.exit("compare.py: llc-19 isn't installed")
    llra = os.environ.get("LLRA") or ran("env", "LLRA_WHERE=1", HERE + "/../llra")[0].strip()
    files = sorted("%s/%s" % (folder, it) for it in os.listdir(folder) if it.endswith(".mir"))
    taken = [it for it in files if takes(llra, "alloc", target, it)]
    with tempfile.TemporaryDirectory() as work:
        source = work + "/source.mir"

        def write():
            with open(source, "w", encoding="utf-8") as it:
                it.write(one_module(taken))

        write()
        for allocator in LLC:  # (one by one only where an allocator doesn't take them all)
            if not takes(*words_of(machine, allocator), source, "-o", os.devnull):
                taken = [it for it in taken if takes(*words_of(machine, allocator), it, "-o", os.devnull)]
                write()
        counts = {it: executed(path) for it, path in outputs(machine, target, llra, source, work).items()}
    table(machine, counts, len(files) - len(taken))


if __name__ == "__main__":
    if len(sys.argv) != 4:
        sys.exit(__doc__)
    main(*sys.argv[1:])
