#!/usr/bin/env bash
# Times runs of a generated function of 402 blocks by the command `run`, of the program as the root script builds it.
#
#   bench/run.sh [STEPS [SEED]]   the function of that seed through STEPS counted instructions (default 3000000, 1) and
#                                 through none; prints the seconds of both and the counted instructions in a second
#
# Block 0 sets 24 registers of 32 bits; each of the 400 blocks after it has twelve instructions (sums, differences,
# exclusive ors, moves, copies, stores) and a comparison with a jump to a block that is drawn.
set -eu
root=$(dirname "$(dirname "$(readlink -f "${BASH_SOURCE[0]}")")")
program=$(LLRA_WHERE=1 "$root/llra")
steps=${1:-3000000}
seed=${2:-1}
work=$(mktemp -d)
trap 'rm -rf "$work"' EXIT

python3 - "$seed" > "$work/function" <<'MAKE'
import sys

x = int(sys.argv[1])


def draw(m):
    global x
    x = (x * 1103515245 + 12345) % 2**31
    return x // 65536 % m


print("---\nname: g\nbody: |\n  bb.0:")
for i in range(24):
    print("    %%%d:gr32 = MOV32ri %d" % (i, draw(1000)))
for b in range(1, 401):
    lines = []
    for _ in range(12):
        a, c, d, k = draw(24), draw(24), draw(24), draw(6)
        if k < 3:
            lines.append("    %%%d = %s %%%d, %%%d, implicit-def $eflags" % (d, ["ADD32rr", "SUB32rr", "XOR32rr"][k], a, c))
        elif k == 3:
            lines.append("    %%%d = MOV32ri %d" % (d, a))
        elif k == 4:
            lines.append("    %%%d = COPY %%%d" % (d, a))
        else:
            lines.append("    STORE32mr %%%d, 0, %%%d" % (a, c))
    a, c, t = draw(24), draw(24), 1 + draw(401)
    lines.append("    CMP32rr %%%d, %%%d, implicit-def $eflags" % (a, c))
    lines.append("    JCC %%bb.%d, 5, implicit $eflags" % t)
    print("  bb.%d:" % b)
    print("\n".join(lines))
print("  bb.401:\n    $eax = COPY %0\n    RET implicit $eax\n...")
MAKE

seconds() {
    local begin end
    begin=$(date +%s%N)
    "$program" run - "$work/function" g "$1" "$seed" > "$work/out"
    end=$(date +%s%N)
    awk "BEGIN { printf \"%.3f\", ($end - $begin) / 1e9 }"
}

none=$(seconds 0)
all=$(seconds "$steps")
printf '%s counted instructions: %s s; none: %s s; %s\n' "$steps" "$all" "$none" "$(tail -n 1 "$work/out")"
awk "BEGIN { printf \"%.2f million counted instructions a second\n\", $steps / ($all - $none) / 1e6 }"
