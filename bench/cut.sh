#!/usr/bin/env bash
# Counts the instructions of least cuts of random nets, beside a push-relabel in C++ (bench/cut.cc) on the same nets.
#
#   bench/cut.sh [SEED..]   for each seed (1 where none is given) nets of 1,024 nodes and 4,096 arcs, 2,048 and 8,192, and
#                           4,096 and 16,384; each row: the instructions of one least cut by `cut_place` and by bench/cut.cc,
#                           their ratio, and how many times as many `cut_place` takes as for the net of half the size.
#                           The start of the program and the making of the net aren't counted: a run of three rounds less
#                           one of one round, halved. Both have to find the same cost.
# It needs g++ and valgrind. Wanted: at most twice the instructions of bench/cut.cc at 4,096 nodes. docs/PERFORMANCE.md says
# what is reached.
set -eu
root=$(dirname "$(dirname "$(readlink -f "${BASH_SOURCE[0]}")")")
parts=$(LLRA_CRATE=bench_programs LLRA_WHERE=1 "$root/llra")
work=$(mktemp -d)
trap 'rm -rf "$work"' EXIT
. "$root/bench/counting.sh"
g++ -O2 "$root/bench/cut.cc" -o "$work/cut"

# The instructions of one round of a program; the cost that it printed lies in the work folder.
of_one_round() { # WORD..
    local one three
    one=$(counted "$@" 1)
    three=$(counted "$@" 3)
    echo $(((three - one) / 2))
}

printf '%6s %6s %5s %12s %12s %6s %7s\n' nodes arcs seed cut_place cut.cc ratio growth
for seed in "${@:-1}"; do
    before=
    for nodes in 1024 2048 4096; do
        arcs=$((4 * nodes))
        ours=$(of_one_round "$parts" --cut "$nodes" "$arcs" "$seed")
        cost=$(cat "$work/out")
        theirs=$(of_one_round "$work/cut" "$nodes" "$arcs" "$seed")
        [ "$cost" = "$(cat "$work/out")" ] || { echo "bench/cut.sh: $cost, and $(cat "$work/out") by bench/cut.cc" >&2; exit 1; }
        echo "$nodes $arcs $seed $ours $theirs ${before:-0}" | awk '{
            growth = ($6 > 0) ? sprintf("%.2f", $4 / $6) : ""
            printf "%6d %6d %5d %12.0f %12.0f %6.2f %7s\n", $1, $2, $3, $4, $5, $4 / $5, growth }'
        before=$ours
    done
done
