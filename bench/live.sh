#!/usr/bin/env bash
# Times computing what is live: `verify source`, which reads a function, computes its table of live lanes once and tests
# the rules, beside reading and printing alone. So its time less that of reading bounds the computing.
#
#   bench/live.sh [FILE..]    these files, or two families in four sizes each: one straight block of ranges that are used
#                             a little later, and one in which each instruction makes a range and reads one of all before it;
#                             each row: lines, processor seconds of reading and printing, of `verify source`, the most
#                             memory in MB, and the ratio of both times
# Wanted: the function of `gen 1` in under 0.1 s and 100 MB; 16,000 instructions with 16,000 registers, and one block of
# 16,000 instructions, in under 1 s; growth at most n log n. docs/PERFORMANCE.md says what is reached.
. "$(dirname "$(readlink -f "${BASH_SOURCE[0]}")")/common.sh"

if [ $# -eq 0 ]; then
    python3 - "$work" <<'MAKE'
import os
import random
import sys

folder = sys.argv[1]


def write(name, lines):
    head = ["---", "name: bench", "body: |", "  bb.0:"]
    with open(os.path.join(folder, name + ".mir"), "w") as f:
        f.write("\n".join(head + ["    " + line for line in lines] + ["    RET", "...", ""]))


def straight(count):
    """Five ranges to sixteen instructions, each used a little later."""
    draw, lines, made = random.Random(7), ["%0:gr32 = MOV32ri 1"], 1
    while len(lines) < count - 1:
        near = draw.randrange(max(0, made - 40), made)
        kind = len(lines) % 16
        if kind < 5:
            lines.append("%%%d:gr32 = LOAD32rm %%%d, %d" % (made, near, kind))
            made += 1
        elif kind < 10:
            lines.append("%%%d = COPY %%%d" % (near, draw.randrange(made)))
        else:
            lines.append("STORE32mr %%%d, %d, %%%d" % (near, kind, draw.randrange(made)))
    write("straight_%05d" % count, lines)


def many(count):
    """Each instruction makes a range, of one that is drawn from all before it."""
    draw, lines = random.Random(3), ["%0:gr32 = MOV32ri 1"]
    while len(lines) < count - 1:
        lines.append("%%%d:gr32 = LOAD32rm %%%d, %d" % (len(lines), draw.randrange(len(lines)), len(lines) % 64))
    write("many_%05d" % count, lines)


for family in (straight, many):
    for count in (2000, 4000, 8000, 16000):
        family(count)
MAKE
    set -- "$work"/*.mir
fi

printf '%-18s %6s %8s %8s %8s %8s\n' file lines read verify MB 'verify/r'
for file in "$@"; do
    reading=$(timed "$parts" --documents "$file")
    verify=$(timed "$program" verify source - "$file")
    echo "$(basename "$file" .mir) $(wc -l <"$file") $reading $verify" | awk '{
        read = $3 > 0.005 ? $3 : 0.005
        printf "%-18s %6d %8.3f %8.3f %8.1f %8.1f\n", $1, $2, $3, $5, $6 / 1024, $5 / read }'
done
