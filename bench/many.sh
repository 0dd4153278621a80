#!/usr/bin/env bash
# Times `trace` and `alloc` over files of many random functions of about 200 lines, over target files.
#
#   bench/many.sh MODEL COUNT TARGET..   COUNT functions over each of the target files, as tests/functions.py draws them,
#                                        with longer blocks and 8 or 20 values at the start; MODEL is the folder of the
#                                        reference model. Each row: target, functions, lines, processor seconds of
#                                        `trace` and of `alloc`, the most memory in MB. To make 2,000 functions takes
#                                        some minutes.
# Wanted: 2,000 functions of 200 instructions in under 10 s. docs/PERFORMANCE.md says what is reached.
. "$(dirname "$(readlink -f "${BASH_SOURCE[0]}")")/common.sh"
model=$1 count=$2
shift 2

printf '%-14s %9s %8s %8s %8s %8s\n' target functions lines trace alloc MB
for target in "$@"; do
    PYTHONPATH="$model:$root/tests" python3 - "$target" "$count" "$work/many.mir" <<'MAKE'
import sys

import llra_ref as L
from functions import Wide

target = L.read_target(open(sys.argv[1], "rb").read())
made, seed = [], 0
while len(made) < int(sys.argv[2]):
    seed += 1
    wide, values = Wide(target, seed), (8, 20)[len(made) % 2]
    draw = wide.r.choice

    def choice(some, draw=draw, values=values):
        if some == [3, 8, 20, 40]:
            draw(some)
            return values
        return draw([14, 25, 40, 60] if some == [3, 6, 14, 25] else some)

    wide.r.choice = choice
    data = wide.function()
    if not 150 <= data.count(b"\n") <= 260:
        continue
    try:
        L.verify_source(target, L.read_doc(target, True, 1, data).func)
    except Exception:
        continue
    made.append(data.replace(b"name: w", b"name: w%d" % seed))
with open(sys.argv[3], "wb") as out:
    out.write(b"".join(made))
MAKE
    trace=$(timed "$program" trace "$target" "$work/many.mir")
    alloc=$(timed "$program" alloc "$target" "$work/many.mir")
    echo "$(basename "$target" .target) $count $(wc -l <"$work/many.mir") $trace $alloc" |
        awk '{ printf "%-14s %9d %8d %8.3f %8.3f %8.1f\n", $1, $2, $3, $4, $6, $7 / 1024 }'
done
