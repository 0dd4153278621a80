#!/usr/bin/env bash
# Times both verifiers and the checker of allocations, beside reading and printing alone, over a function and what
# `alloc` makes of it.
#
#   bench/check.sh [FILE..]   sources of one function each over the built-in target, or two that are made: one block in
#                             which each instruction makes a range (16,000 ranges, most of them spilled), and 400 blocks;
#                             each row: lines of both functions, processor seconds of reading and printing the source,
#                             of `verify source`, and of the checker, which reads both, verifies both and looks for facts;
#                             the most memory of the checker in MB, and the ratio of its time to reading
# Wanted: for the function of `gen 1` both verifiers in under 0.2 s, the checker in under 0.7 s and 300 MB; no table that
# grows with the square of registers and slots. docs/PERFORMANCE.md says what is reached.
. "$(dirname "$(readlink -f "${BASH_SOURCE[0]}")")/common.sh"

if [ $# -eq 0 ]; then
    python3 - "$work" <<'MAKE'
import os
import random
import sys


def write(name, lines):
    with open(os.path.join(sys.argv[1], name + ".mir"), "w") as f:
        f.write("\n".join(["---", "name: bench", "body: |"] + lines + ["...", ""]))


draw = random.Random(3)
lines = ["  bb.0:", "    %0:gr32 = MOV32ri 1"]
for made in range(1, 16000):
    lines.append("    %%%d:gr32 = LOAD32rm %%%d, %d" % (made, draw.randrange(made), made % 64))
write("ranges_16000", lines + ["    RET"])

lines = ["  bb.0:"] + ["    %%%d:gr32 = MOV32ri %d" % (v, v) for v in range(20)]
for number in range(1, 401):
    lines.append("  bb.%d:" % number)
    for _ in range(11):
        lines.append("    STORE32mr %%%d, 0, %%%d" % (draw.randrange(20), draw.randrange(20)))
    lines += ["    CMP32rr %0, %1, implicit-def $eflags", "    JCC %%bb.%d, 5, implicit $eflags" % draw.randrange(1, 401)]
write("blocks_400", lines + ["  bb.401:", "    RET"])
MAKE
    set -- "$work"/*.mir
fi

printf '%-14s %6s %9s %8s %8s %8s %8s %8s\n' file lines allocated read source checker MB 'c/read'
for file in "$@"; do
    "$program" alloc - "$file" >"$work/made"
    reading=$(timed "$parts" --documents "$file")
    source=$(timed "$program" verify source - "$file")
    check=$(timed "$parts" --pairs - "$file" "$work/made")
    grep -qx yes "$work/out"
    echo "$(basename "$file" .mir) $(wc -l <"$file") $(wc -l <"$work/made") $reading $source $check" | awk '{
        read = $4 > 0.005 ? $4 : 0.005
        printf "%-14s %6d %9d %8.3f %8.3f %8.3f %8.1f %8.1f\n", $1, $2, $3, $4, $6, $8, $9 / 1024, $8 / read }'
done
