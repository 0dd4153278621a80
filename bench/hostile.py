#!/usr/bin/env python3
"""Functions that are right and yet may be slow or large: what `alloc`, `trace` and `run` take for them.

    bench/hostile.py grow [FAMILY ..]     counted instructions (callgrind) of `trace` at two sizes, and their exponent
    bench/hostile.py memory [FAMILY ..]   seconds and memory of `trace` and `alloc` at the largest size
    bench/hostile.py places               seconds of `alloc` where registers are hard to choose
    bench/hostile.py run                  memory of `run` for a byte that is stored, and its time to pass other documents
    bench/hostile.py make FAMILY COUNT    writes the function of a family, of about COUNT instructions, to standard output

It runs `./llra` (`LLRA` names another executable), and `grow` needs valgrind. `SIZES=4000,16000` are the sizes for `grow`; the
last is that of `memory`. docs/PERFORMANCE.md has figures.
"""
import math
import os
import random
import subprocess
import sys
import tempfile
import time

ROOT = os.path.dirname(os.path.dirname(os.path.abspath(__file__)))
SIZES = [int(it) for it in os.environ.get("SIZES", "4000,16000").split(",")]
FAMILIES = {}


def family(make):
    FAMILIES[make.__name__] = make
    return make


def text(lines):
    return "---\nname: f\nbody: |\n" + "\n".join(lines) + "\n...\n"


def block(number, instrs):
    return ["  bb.%d:" % number] + ["    " + it for it in instrs]


def one_block(instrs):
    return text(block(0, instrs + ["RET"]))


def loads(first, last):
    return ["%%%d:gr32 = LOAD32rm @g, %d" % (v, v) for v in range(first, last)]


def store(v, base):
    return "STORE32mr %%%d, 0, %%%d" % (base, v)


# One block. Each takes about how many instructions the function is to have.


@family
def short_ranges(count):
    """Each range is read right behind its definition."""
    return one_block([it for v in range(count // 2) for it in ("%%%d:gr32 = MOV32ri %d" % (v, v), store(v, v))])


@family
def long_ranges(count):
    """All definitions, and then all readings in the same order."""
    half = count // 2
    return one_block(loads(0, half) + [store(v, v) for v in range(half)])


@family
def nested_ranges(count):
    """All definitions, and then all readings, the last first."""
    half = count // 2
    return one_block(loads(0, half) + [store(v, v) for v in reversed(range(half))])


@family
def nested_constants(count):
    """The same of constants, which are made again in place of reloads."""
    half = count // 2
    made = ["%%%d:gr32 = MOV32ri %d" % (v, v) for v in range(half)]
    return one_block(made + [store(v, v) for v in reversed(range(half))])


@family
def constants_never_read(count):
    return one_block(["%%%d:gr32 = MOV32ri %d" % (v, v) for v in range(count)])


@family
def chain_of_copies(count):
    copies = ["%%%d:gr32 = COPY %%%d" % (v, v - 1) for v in range(1, count)]
    return one_block(["%0:gr32 = MOV32ri 1"] + copies + [store(count - 1, count - 1)])


@family
def copies_of_one(count):
    """Copies of one register, all read later."""
    half = count // 2
    copies = ["%%%d:gr32 = COPY %%0" % v for v in range(1, half)]
    return one_block(loads(0, 1) + copies + [store(v, 0) for v in range(1, half)])


@family
def copies_of_redefined(count):
    """Copies of one register, which is defined anew behind each."""
    third = count // 3
    copies = [it for v in range(1, third) for it in ("%%%d:gr32 = COPY %%0" % v, "%%0 = LOAD32rm @g, %d" % v)]
    return one_block(loads(0, 1) + copies + [store(v, 0) for v in range(1, third)])


@family
def chain_of_ties(count):
    sums = ["%%%d:gr32 = ADD32rr %%%d, %%%d, implicit-def $eflags" % (v, v - 1, v - 1) for v in range(1, count)]
    return one_block(loads(0, 1) + sums + [store(count - 1, count - 1)])


@family
def ties_to_one(count):
    """Each sum overwrites a copy of one register."""
    made = []
    for v in range(1, count // 2):
        made += ["%%%d:gr32 = ADD32rr %%0, %%%d, implicit-def $eflags" % (v, max(0, v - 7)), store(v, 0)]
    return one_block(loads(0, 1) + made)


@family
def one_register(count):
    """One register, defined and read all along, with calls."""
    return one_block(loads(0, 1) + ["STORE32mr %0, 0, %0", "CALL @g, csr", "%0 = LOAD32rm %0, 4"] * (count // 3))


@family
def random_windows(count):
    """Each instruction reads ranges that are defined a little before."""
    draw = random.Random(count)
    made = loads(0, 20)
    for v in range(20, count // 2):
        made.append("%%%d:gr32 = LOAD32rm %%%d, 4" % (v, draw.randrange(max(0, v - 40), v)))
        made.append(store(draw.randrange(max(0, v - 200), v), draw.randrange(max(0, v - 20), v)))
    return one_block(made)


@family
def growing_weights(count):
    """Ranges over each other, of growing weight, with calls."""
    made = []
    for v in range(count // 5):
        made += loads(v, v + 1) + [store(v, v)] * (v % 5)
        made += ([store(v - 3, v - 3)] if v >= 3 else []) + ["CALL @g, csr"]
    return one_block(made[:count])


@family
def chain_of_sequences(count):
    """A chain of REG_SEQUENCE: each takes the low byte of the one before."""
    made = ["%0:gr32 = LOAD32rm @g, 0", "%1:gr8 = COPY %0.sub_8"]
    for v in range(2, count // 2, 1):
        made.append("%%%d:gr32 = REG_SEQUENCE %%1, %%subreg.sub_8, %%1, %%subreg.sub_8hi" % v)
        made.append(store(v, 0))
    return one_block(made)


@family
def chain_of_inserts(count):
    """A chain of INSERT_SUBREG, each into the register before."""
    made = ["%0:gr32 = LOAD32rm @g, 0", "%1:gr8 = COPY %0.sub_8", "%2:gr32 = COPY %0"]
    for v in range(3, count):
        made.append("%%%d:gr32 = INSERT_SUBREG %%%d, %%1, %%subreg.sub_8" % (v, v - 1))
    return one_block(made + [store(count - 1, 0)])


# Many blocks.


def random_blocks(count, each, jumps, values, seed=1):
    """Blocks of so many instructions, with jumps to the blocks that `jumps` answers for the number of one."""
    draw = random.Random(seed)
    blocks = max(4, min(1024, count // (each + len(jumps(1, 8, draw)))))
    draw = random.Random(seed)
    lines = block(0, loads(0, values))
    for k in range(1, blocks - 1):
        made = []
        for _ in range(each):
            kind, a, b = draw.randrange(5), draw.randrange(values), draw.randrange(values)
            made.append("CALL @g, csr" if kind == 0 else store(a, b) if kind < 3 else "%%%d = LOAD32rm %%%d, 4" % (a, b))
        made += ["JNZ32 %%%d, %%bb.%d" % (draw.randrange(3), to) for to in jumps(k, blocks, draw)]
        lines += block(k, made)
    return text(lines + block(blocks - 1, ["RET"]))


@family
def many_jumps(count):
    """Blocks that end in thirteen jumps anywhere."""
    return random_blocks(count, 2, lambda k, blocks, draw: [draw.randrange(1, blocks) for _ in range(13)], 8)


@family
def irreducible(count):
    """Jumps into loops."""
    return random_blocks(count, 12, lambda k, blocks, draw: [1 + k * 7 % (blocks - 2), max(1, k - 1), min(blocks - 1, k + 2)], 24)


@family
def backward_jumps(count):
    return random_blocks(count, 14, lambda k, blocks, draw: [max(1, blocks - 1 - k)], 40)


@family
def live_through(count):
    """One range that each block reads, beside others."""
    blocks = count // 15
    lines = block(0, loads(0, 6))
    for k in range(1, blocks - 1):
        made = ["STORE32mr %%0, %d, %%%d" % (j, k % 6) for j in range(13)]
        lines += block(k, made + ["CALL @g, csr", "JNZ32 %%0, %%bb.%d" % (k * 13 % (blocks - 1) + 1)])
    return text(lines + block(blocks - 1, [store(0, 1), "RET"]))


@family
def nested_loops(count):
    """Loops in loops, as deep as there are blocks for."""
    deep = min(510, count // 5)
    each = max(1, (count // deep - 2) // 2)
    lines = block(0, loads(0, 10))
    for k in range(1, deep + 1):
        lines += block(k, [store(k * 3 % 10, k % 10), "%%%d = LOAD32rm %%%d, 4" % (k * 7 % 10, k % 10)] * ((each + 1) // 2))
    for k in range(deep + 1, 2 * deep + 1):
        made = [store(k * 3 % 10, k % 10)] * each
        lines += block(k, made + ["CALL @g, csr", "JNZ32 %%%d, %%bb.%d" % (k % 4, 2 * deep + 1 - k)])
    return text(lines + block(2 * deep + 1, ["RET"]))


@family
def blocks_to_the_end(count):
    """Each block defines six ranges, which the last block reads."""
    blocks = min(1000, count // 12)
    lines = block(0, ["%0:gr32 = LOAD32rm @g, 0"])
    own = max(1, (count // blocks) // 2)
    for k in range(1, blocks - 1):
        lines += block(k, ["%%%d:gr32 = LOAD32rm %%0, %d" % (k * own + j, j) for j in range(own)])
    reads = [store(0, k * own + j) for k in range(1, blocks - 1) for j in range(own)]
    return text(lines + block(blocks - 1, reads + ["RET"]))


@family
def diamonds(count):
    """Diamonds in a row, each of which defines ranges that the last block reads."""
    blocks = min(1000, count // 12) // 3 * 3 + 2
    own = max(1, (count // blocks) // 2)
    lines = block(0, ["%0:gr32 = LOAD32rm @g, 0"])
    for k in range(1, blocks - 1):
        made = ["%%%d:gr32 = LOAD32rm %%0, %d" % (k * own + j, j) for j in range(own)]
        if k % 3 == 1:
            made.append("JNZ32 %%0, %%bb.%d" % (k + 2 if k + 2 < blocks - 1 else blocks - 1))
        lines += block(k, made)
    reads = [store(0, k * own + j) for k in range(1, blocks - 1) if k % 3 == 1 for j in range(own)]
    return text(lines + block(blocks - 1, reads + ["RET"]))


@family
def phis(count):
    """A block with as many phis as blocks before it."""
    side = min(512, int(math.sqrt(count * 8)))
    return phis_of(side, side)


@family
def sixteen_phis(count):
    return phis_of(min(1000, count // 4), 16)


def phis_of(before, number):
    to = before + 1
    lines = block(0, loads(0, 4))
    for k in range(1, to):
        lines += block(k, ["JNZ32 %%%d, %%bb.%d" % (k % 4, to)])
    made = []
    for j in range(number):
        made.append("%%%d:gr32 = PHI " % (4 + j) + ", ".join("%%%d, %%bb.%d" % ((k + j) % 4, k) for k in range(1, to)))
    return text(lines + block(to, made + [store(4 + j, 4 + j) for j in range(number)] + ["RET"]))


@family
def phis_in_a_loop(count):
    """Phis whose values move on by one in each round."""
    number = count // 4
    made = []
    for j in range(number):
        made.append("%%%d:gr32 = PHI %%%d, %%bb.0, %%%d, %%bb.1" % (number + j, j, number + (j + 1) % number))
    made += [store(number + j, number + j) for j in range(number)] + ["JNZ32 %%%d, %%bb.1" % number]
    return text(block(0, loads(0, number)) + block(1, made) + block(2, ["RET"]))


# Targets.


def target(units, regs, classes, ops=()):
    lines = ["target t 1"] + ["unit %s %d" % it for it in units]
    lines += ["reg %s %s" % (name, " ".join(of)) for name, of in regs]
    lines += ["class %s %s" % (name, " ".join(of)) for name, of in classes]
    for name, _ in classes:
        lines += ["op SP_%s spill use:%s slot lanes" % (name, name), "op RL_%s reload def:%s slot lanes" % (name, name)]
        lines += ["op MOV_%s const def:%s imm" % (name, name)]
    return "\n".join(lines + list(ops) + ["op NOP marker any", "op RET ret rest", "op CALL call sym mask rest"]) + "\n"


def cliques(number, size):
    """So many times so many registers that share a unit."""
    units, regs = [], []
    for c in range(number):
        units.append(("c%d" % c, 8))
        for k in range(size):
            units.append(("o%d_%d" % (c, k), 8))
            regs.append(("r%d_%d" % (c, k), ["c%d" % c, "o%d_%d" % (c, k)]))
    return units, regs


def six_reads(number):
    made = []
    for p in range(number):
        made += ["%%%d:k = MOV_k %d" % (p * 6 + j, j) for j in range(6)]
        made.append("NOP " + ", ".join("%%%d" % (p * 6 + j) for j in range(6)))
    return one_block(made)


def place_in_cliques(number, size, places):
    units, regs = cliques(number, size)
    return target(units, regs, [("k", [it for it, _ in regs])]), six_reads(places)


def place_of_random_units(units, each, seed, places=1):
    """64 registers of so many units each, drawn of so many."""
    draw, seen, regs = random.Random(seed), set(), []
    while len(regs) < 64:
        own = tuple(sorted(draw.sample(range(units), each)))
        if own not in seen:
            seen.add(own)
            regs.append(("r%d" % len(regs), ["u%d" % u for u in own]))
    return target([("u%d" % u, 8) for u in range(units)], regs, [("k", [it for it, _ in regs])]), six_reads(places)


def place_with_one_more(size, places):
    """Six jumps a block: five variables in five cliques, and one that has a register besides."""
    units, regs = cliques(5, size)
    names = [it for it, _ in regs]
    units, regs = units + [("fc", 8), ("fo", 8)], regs + [("free", ["fc", "fo"])]
    lines = []
    for p in range(places):
        names_of = ["kf"] + ["k"] * 5
        made = ["%%%d:%s = MOV_%s 1" % (p * 6 + j, it, it) for j, it in enumerate(names_of)]
        made += ["%s %%%d, %%bb.%d" % ("JF" if j == 0 else "JK", p * 6 + j, places) for j in range(6)]
        lines += block(p, made)
    ops = ["op JF jnz use:kf target", "op JK jnz use:k target"]
    return target(units, regs, [("kf", names + ["free"]), ("k", names)], ops), text(lines + block(places, ["RET"]))


def crowded(count, registers=64, lanes=16):
    """Ranges of so many lanes that all live across a call."""
    units = [("u%d" % u, 8) for u in range(512)]
    regs = [("r%d" % r, ["u%d" % ((r + j) % 512) for j in range(lanes)]) for r in range(0, registers * 8, 8)]
    names = [it for it, _ in regs]
    described = target(units, regs, [("k", names)]).replace("class k", "mask m %s\nclass k" % " ".join(names[:32]))
    half = count // 2
    made = ["%%%d:k = IMPLICIT_DEF" % v for v in range(half)] + ["CALL @g, m"]
    return described, one_block(made + ["NOP %%%d, %%%d" % (v, v * 7 % half) for v in range(half)])


# What is measured.


class Runs:
    """Runs of the program in a folder of its own."""

    def __init__(self, folder):
        self.folder = folder
        self.program = os.environ.get("LLRA") or self.built()

    def built(self):
        environment = dict(os.environ, LLRA_WHERE="1")
        return subprocess.run([os.path.join(ROOT, "llra")], env=environment, check=True, capture_output=True, text=True).stdout.strip()

    def write(self, name, content):
        path = os.path.join(self.folder, name)
        with open(path, "w") as file:
            file.write(content)
        return path

    def measure(self, words):
        """Status, processor seconds, and the most memory in MB of a run. (`time` is small: what it starts is measured alone.)"""
        used = os.path.join(self.folder, "used")
        with open(os.path.join(self.folder, "out"), "w") as out:
            command = ["/usr/bin/time", "-q", "-f", "%U %S %M", "-o", used, self.program] + words
            status = subprocess.run(command, stdout=out, stderr=subprocess.DEVNULL).returncode
        with open(used) as file:
            user, system, most = file.read().split()
        return status, float(user) + float(system), int(most) / 1024

    def counted(self, words):
        """The counted instructions of a run."""
        command = ["valgrind", "--tool=callgrind", "--callgrind-out-file=/dev/null", self.program] + words
        run = subprocess.run(command, stdout=subprocess.DEVNULL, stderr=subprocess.PIPE, text=True)
        return int(run.stderr.split("Collected :")[1].split()[0])

    def files(self, name, count):
        """The target and the function of a family, as files, and their bytes."""
        described, function = crowded(count) if name == "crowded" else ("", FAMILIES[name](count))
        path = self.write("function.mir", function)
        size = len(described) + len(function)
        return (self.write("function.target", described) if described else "-"), path, size


def names_of(words):
    return words or list(FAMILIES) + ["crowded"]


def lines_in(path):
    with open(path) as file:
        return sum(1 for _ in file)


def grow(runs, words):
    print("%-22s %s" % ("family", "lines and counted instructions of `trace`, and the exponent by lines"))
    for name in names_of(words):
        known = []
        for count in SIZES:
            target_path, path, _ = runs.files(name, count)
            known.append((lines_in(path), runs.counted(["trace", target_path, path])))
        exponents = [math.log(b[1] / a[1]) / math.log(b[0] / a[0]) for a, b in zip(known, known[1:])]
        rows = " ".join("%d %.0f M" % (lines, count / 1e6) for lines, count in known)
        print("%-22s %s n^%s" % (name, rows, " n^".join("%.2f" % it for it in exponents)), flush=True)


def memory(runs, words):
    print("%-22s %9s %8s %8s %8s %8s %7s %9s" % ("family", "bytes", "trace s", "MB", "alloc s", "MB", "ratio", "times text"))
    for name in names_of(words):
        target_path, path, size = runs.files(name, SIZES[-1])
        status, traced, own = runs.measure(["trace", target_path, path])
        other, seconds, most = runs.measure(["alloc", target_path, path])
        ended = "" if status == other == 0 else " status %d %d" % (status, other)
        row = (name, size, traced, own, seconds, most, most / own, most * 2**20 / size)
        print("%-22s %9d %8.2f %8.1f %8.2f %8.1f %7.2f %9.0f%s" % (row + (ended,)), flush=True)


def places(runs, _):
    hard = [("5 cliques of 12, no choice", place_in_cliques(5, 12, 1)), ("6 cliques of 10", place_in_cliques(6, 10, 1))]
    hard += [("6 cliques of 10, 2,000 places", place_in_cliques(6, 10, 2000))]
    hard += [("%d units, %d each" % it[:2], place_of_random_units(*it)) for it in ((20, 3, 1), (17, 3, 1), (18, 3, 2), (24, 4, 3), (22, 4, 4))]
    hard += [("18 units, 3 each, 2,000 places", place_of_random_units(18, 3, 2, 2000))]
    hard += [("%d places, 5 cliques of %d and one more" % it, place_with_one_more(it[1], it[0])) for it in ((1, 5), (1, 6), (1, 7), (2, 7), (4, 7), (1, 12))]
    print("%-40s %6s %8s %8s" % ("place", "status", "seconds", "MB"))
    for name, (described, function) in hard:
        words = ["alloc", runs.write("place.target", described), runs.write("place.mir", function)]
        print("%-40s %6d %8.2f %8.1f" % ((name,) + runs.measure(words)), flush=True)


STORES = """---
name: f
body: |
  bb.0:
    %0:gr32 = MOV32ri 0
  bb.1:
    STORE %0, 0, %0
    %0 = ADD32ri %0, STRIDE, implicit-def $eflags
    JNZ32 %0, %bb.1
  bb.2:
    RET
...
"""
STORED = 200000
DOCUMENTS = 200000


def run(runs, _):
    """Memory for a byte that is stored, with its event, and the time to pass other functions."""
    print("%-40s %8s %8s %12s" % ("%d stores" % STORED, "seconds", "MB", "bytes a byte"))
    for opcode, size, stride in (("32mr", 4, 4), ("32mr", 4, 16), ("32mr", 4, 4096), ("8mr", 1, 1), ("8mr", 1, 4096)):
        read = "%0.sub_8" if size == 1 else "%0"
        stores = STORES.replace("STORE %0, 0, %0", "STORE%s %%0, 0, %s" % (opcode, read)).replace("STRIDE", str(stride))
        path = runs.write("stores.mir", stores)
        known = [runs.measure(["run", "-", path, "f", str(3 * number), "1"]) for number in (100, STORED)]
        each = (known[1][2] - known[0][2]) * 2**20 / (size * STORED)
        print("%-40s %8.2f %8.1f %12.1f" % ("of %d bytes, %d apart" % (size, stride), known[1][1], known[1][2], each), flush=True)
    path = runs.write("documents.mir", "---\nname: g\nbody: |\n  bb.0:\n    RET\n...\n" * DOCUMENTS)
    print("%-40s %8s %8s" % ("%d functions before" % DOCUMENTS, "seconds", "MB"))
    for words in (["verify", "source", "-", path], ["run", "-", path, "f", "1", "1"]):
        print("%-40s %8.2f %8.1f" % ((" ".join(words[:2]),) + runs.measure(words)[1:]), flush=True)


def make(_, words):
    described, function = crowded(int(words[1])) if words[0] == "crowded" else ("", FAMILIES[words[0]](int(words[1])))
    sys.stdout.write(function)


def main():
    kinds = {"grow": grow, "memory": memory, "places": places, "run": run, "make": make}
    if len(sys.argv) < 2 or sys.argv[1] not in kinds:
        sys.exit(__doc__)
    with tempfile.TemporaryDirectory() as folder:
        kinds[sys.argv[1]](Runs(folder) if sys.argv[1] != "make" else None, sys.argv[2:])


if __name__ == "__main__":
    main()
