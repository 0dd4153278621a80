#!/usr/bin/env bash
# Counts the instructions of reading, of the allocator with both ways of placing regions, and of the checker of
# allocations, over a function of 402 blocks and 5,626 instructions: that of `llra gen 1`.
#
#   bench/counted.sh [SEED..]   for each seed (1 where none is given) a row for each of: reading and printing the function
#                               and its allocation; the checker, which reads both, verifies both and looks for facts;
#                               `alloc`; and `alloc cut`; with the ratio to the row that it is compared with
# It needs valgrind. Wanted: the checker at most 25 times reading both, and `alloc cut` at most twice `alloc`.
# docs/PERFORMANCE.md says what is reached.
. "$(dirname "$(readlink -f "${BASH_SOURCE[0]}")")/common.sh"
. "$root/bench/counting.sh"

# The function that `llra gen SEED` makes.
generated() { # SEED
    python3 - "$1" <<'MAKE'
import sys

state = int(sys.argv[1])


def draw(most):
    global state
    state = (state * 1103515245 + 12345) % 2**31
    return state // 65536 % most


out = ["---", "name: g", "body: |", "  bb.0:"]
out += ["    %%%d:gr32 = MOV32ri %d" % (v, draw(1000)) for v in range(24)]
for block in range(1, 401):
    out.append("  bb.%d:" % block)
    for _ in range(12):
        a, c, d, kind = draw(24), draw(24), draw(24), draw(6)
        if kind < 3:
            out.append("    %%%d = %s %%%d, %%%d, implicit-def $eflags" % (d, ("ADD32rr", "SUB32rr", "XOR32rr")[kind], a, c))
        elif kind == 3:
            out.append("    %%%d = MOV32ri %d" % (d, a))
        elif kind == 4:
            out.append("    %%%d = COPY %%%d" % (d, a))
        else:
            out.append("    STORE32mr %%%d, 0, %%%d" % (a, c))
    a, c, to = draw(24), draw(24), 1 + draw(401)
    out += ["    CMP32rr %%%d, %%%d, implicit-def $eflags" % (a, c), "    JCC %%bb.%d, 5, implicit $eflags" % to]
print("\n".join(out + ["  bb.401:", "    $eax = COPY %0", "    RET implicit $eax", "..."]))
MAKE
}

row() { # NAME INSTRUCTIONS COMPARED
    echo "$1 $2 $3" | awk '{ printf "%-10s %16.0f %8.2f\n", $1, $2, $2 / $3 }'
}

printf '%-10s %16s %8s\n' what instructions ratio
for seed in "${@:-1}"; do
    generated "$seed" >"$work/source.mir"
    alloc=$(counted "$program" alloc - "$work/source.mir")
    cp "$work/out" "$work/made.mir"
    cut=$(counted "$program" alloc cut - "$work/source.mir")
    reading=$(counted "$parts" --documents "$work/source.mir" "$work/made.mir")
    check=$(counted "$parts" --pairs - "$work/source.mir" "$work/made.mir")
    grep -qx yes "$work/out"
    row reading "$reading" "$reading"
    row checker "$check" "$reading"
    row alloc "$alloc" "$alloc"
    row alloc-cut "$cut" "$alloc"
done
