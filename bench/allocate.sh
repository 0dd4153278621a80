#!/usr/bin/env bash
# Times `trace` (the run of the allocator alone) and `alloc` (with the checker of allocations before what is printed),
# beside reading and printing alone, over a generated function and families of functions in three sizes each.
#
#   bench/allocate.sh [FILE..]    these files, or the families: one straight block, nests of loops, many blocks, many
#                                 ranges that live all along, and 2,000 functions of 200 instructions of all four in one
#                                 file; each row: instructions, processor seconds of reading and
#                                 printing, of `trace`, of `alloc`, the most memory in MB, and the ratios to the first
# Wanted: the function of `gen 1` in under 1.2 s by `trace` and 2 s by `alloc`, at most 300 MB; 16,000 instructions in one
# block with 5,000 ranges in under 4 s; 2,000 functions of 200 instructions in under 10 s; growth at most n^1.25. docs/PERFORMANCE.md says what is reached.
. "$(dirname "$(readlink -f "${BASH_SOURCE[0]}")")/common.sh"

if [ $# -eq 0 ]; then
    python3 - "$work" <<'MAKE'
import os
import random
import sys

folder = sys.argv[1]


class Text:
    """A function in the making, over the built-in target."""

    def __init__(self, ranges, seed):
        self.random = random.Random(seed)
        self.lines = ["---", "name: bench", "body: |", "  bb.0:"]
        self.block, self.ranges = 0, 0
        for _ in range(ranges):
            self.const()

    def add(self, line):
        self.lines.append("    " + line)

    def const(self):
        self.add("%%%d:gr32 = MOV32ri %d" % (self.ranges, self.random.randrange(1000)))
        self.ranges += 1

    def work(self, known):
        """An instruction over some of the ranges."""
        a, c, d = (self.random.choice(known) for _ in range(3))
        k = self.random.randrange(4)
        if k < 2:
            self.add("%%%d = %s %%%d, %%%d, implicit-def $eflags" % (d, ("ADD32rr", "XOR32rr")[k], a, c))
        elif k == 2:
            self.add("%%%d = COPY %%%d" % (d, a))
        else:
            self.add("STORE32mr %%%d, 0, %%%d" % (a, c))

    def start(self):
        self.block += 1
        self.lines.append("  bb.%d:" % self.block)
        return self.block

    def jump(self, to):
        self.add("CMP32rr %0, %1, implicit-def $eflags")
        self.add("JCC %%bb.%d, 5, implicit $eflags" % to)

    def whole(self):
        """The text of the function."""
        self.add("RET")
        return "\n".join(self.lines + ["...", ""])


def straight(count, seed):
    """One block; each value is read a little later."""
    t = Text(8, seed)
    while len(t.lines) < count:
        if t.random.randrange(3) == 0:
            t.const()
        else:
            t.work(range(max(0, t.ranges - 24), t.ranges))
    return t.whole()


def loops(count, seed):
    """Nests of three loops, one behind the other."""
    t = Text(16, seed)
    while len(t.lines) < count:
        heads = []
        for _ in range(3):
            heads.append(t.start())
            for _ in range(8):
                t.work(range(16))
        for head in reversed(heads):
            t.work(range(16))
            t.jump(head)
            t.start()
    return t.whole()


def blocks(count, seed):
    """Many small blocks, each with a jump to one that is drawn."""
    t = Text(20, seed)
    number = count // 8
    for _ in range(number):
        t.start()
        for _ in range(6):
            t.work(range(20))
        t.jump(1 + t.random.randrange(number))
    t.start()
    return t.whole()


def pressure(count, seed):
    """Many ranges that live all along."""
    t = Text(max(16, count // 40), seed)
    while len(t.lines) < count - count // 40:
        t.work(range(t.ranges))
    for k in range(t.ranges):
        t.add("STORE32mr %%%d, 0, %%%d" % (k, k))
    return t.whole()


def write(name, text):
    with open(os.path.join(folder, name + ".mir"), "w") as f:
        f.write(text)


families = (straight, loops, blocks, pressure)
for family in families:
    for count in (1000, 2000, 4000):
        write("%s_%05d" % (family.__name__, count), family(count, 7))
write("2000_functions", "".join(families[k % 4](200, k) for k in range(2000)))
MAKE
    set -- "$work"/*.mir
fi

printf '%-18s %6s %8s %8s %8s %8s %8s %8s\n' file lines read trace alloc MB 'trace/r' 'alloc/r'
for file in "$@"; do
    reading=$(timed "$parts" --documents "$file")
    trace=$(timed "$program" trace - "$file")
    alloc=$(timed "$program" alloc - "$file")
    echo "$(basename "$file" .mir) $(wc -l <"$file") $reading $trace $alloc" | awk '{
        read = $3 > 0.005 ? $3 : 0.005
        printf "%-18s %6d %8.3f %8.3f %8.3f %8.1f %8.1f %8.1f\n", $1, $2, $3, $5, $7, $8 / 1024, $5 / read, $7 / read }'
done
