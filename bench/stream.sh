#!/usr/bin/env bash
# Times reading and printing, and the streaming of long files.
#
#   bench/stream.sh     first documents of 1, 2 and 4 MiB, of 4,000, 8,000 and 16,000 instructions with long tails, by the
#                       program crate bench_programs: reading and printing alone; then files of 1,000 and 10,000 documents
#                       (6.4 and 64 MiB) by `verify source`. Each row: processor seconds, the most memory in MB.
# Wanted: 4 MiB in under 0.4 s and 250 MB; memory that doesn't grow with the documents of a file; growth linear.
. "$(dirname "$(readlink -f "${BASH_SOURCE[0]}")")/common.sh"

# Prints a document of so many instructions; the tails fill each line to so many bytes.
document() { # INSTRUCTIONS BYTES
    awk -v count="$1" -v size="$2" 'BEGIN {
        tail = " :: (store (s32) into %ir.p"
        while (length(tail) < size - 30) tail = tail "x"
        print "---\nname: f\nbody: |\n  bb.0:\n    %0:gr32 = MOV32ri 1"
        for (i = 1; i < count - 1; i++) printf "    STORE32mr %%0, %d, %%0%s)\n", i % 1000, tail
        print "    RET\n..."
    }'
}

row() { # LABEL FILE WORD..
    local label=$1
    shift
    if [ -x /usr/bin/time ]; then
        /usr/bin/time -f "%U %S %M" -o "$work/time" "$@" >"$work/out"
        awk -v label="$label" '{ printf "%-42s %8.2f s %8.1f MB\n", label, $1 + $2, $3 / 1024 }' "$work/time"
    else
        local TIMEFORMAT="$label %U %S s"
        time "$@" >"$work/out"
    fi
}

for count in 4000 8000 16000; do
    document "$count" 260 >"$work/$count.mir"
    row "$(stat -c %s "$work/$count.mir") bytes, $count instructions" "$parts" --documents "$work/$count.mir"
done
document 100 72 >"$work/one.mir"
for count in 1000 10000; do
    : >"$work/many.mir"
    yes "$work/one.mir" | head -n "$count" | xargs cat >>"$work/many.mir"
    row "$(stat -c %s "$work/many.mir") bytes, $count documents" "$program" verify source - "$work/many.mir"
done
