# What the scripts of this folder share; they source it.
set -eu
root=$(dirname "$(dirname "$(readlink -f "${BASH_SOURCE[0]}")")")
program=$(LLRA_WHERE=1 "$root/llra")
parts=$(LLRA_CRATE=bench_programs LLRA_WHERE=1 "$root/llra")
work=$(mktemp -d)
trap 'rm -rf "$work"' EXIT

# Leaves the processor seconds and the most memory in KB of a run; what it printed lies in the work folder.
timed() { # WORD..
    /usr/bin/time -f "%U %S %M" -o "$work/time" "$@" >"$work/out" 2>"$work/err" || { cat "$work/err" >&2; return 1; }
    tail -n 1 "$work/time" | awk '{ printf "%.3f %d", $1 + $2, $3 }'
}
