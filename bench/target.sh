#!/usr/bin/env bash
# Times the reading of target files by the program crate bench_programs, built once by the root script `llra`.
#
#   bench/target.sh            a file of 1 MiB of comments, one of 1 MiB of long mask lines, and one of many registers,
#                              indexes and classes; each line: the name, the bytes, what was read, the seconds
#   bench/target.sh FILE..     these files
set -eu
root=$(dirname "$(dirname "$(readlink -f "${BASH_SOURCE[0]}")")")
program=$(LLRA_CRATE=bench_programs LLRA_WHERE=1 "$root/llra")
work=$(mktemp -d)
trap 'rm -rf "$work"' EXIT

if [ $# -eq 0 ]; then
    python3 - "$work" <<'MAKE'
import os
import sys

folder = sys.argv[1]
MOST = 1 << 20


def put(name, text):
    with open(os.path.join(folder, name + ".target"), "w") as f:
        f.write(text)


head = "target t 2\n"
put("comments", head + "# a comment\n" * ((MOST - len(head)) // 12))
one = head + "unit u 8\nreg r u\n"
line = " r" * 1000
put("masks", one + "".join("mask m%d%s\n" % (k, line) for k in range(500)))
units = "".join("unit u%d 8\n" % k for k in range(512))
regs = "".join("reg r%d u%d\n" % (k, k) for k in range(500))
wide = "".join("reg w%d %s\n" % (k, " ".join("u%d" % (16 * k + j) for j in range(16))) for k in range(12))
indexes = "".join("index i%d %d\n" % (k, k % 32) for k in range(256))
classes = "class g %s\nclass w %s\n" % (" ".join("r%d" % k for k in range(64)), " ".join("w%d" % k for k in range(3)))
small = "".join("class c%d r%d r%d\n" % (k, k % 64, (k + 1) % 64) for k in range(300))
ops = "".join("op S%s spill use:%s slot lanes\nop R%s reload def:%s slot lanes\n" % (k, k, k, k) for k in "gw")
put("tables", head + units + regs + wide + indexes + classes + small + ops)
MAKE
    set -- "$work"/*.target
fi
for file in "$@"; do
    begin=$(date +%s%N)
    answer=$("$program" --targets "$file")
    end=$(date +%s%N)
    printf '%s %s bytes: %s, %s s\n' "$(basename "$file")" "$(stat -c %s "$file")" "$answer" "$(awk "BEGIN { printf \"%.3f\", ($end - $begin) / 1e9 }")"
done
