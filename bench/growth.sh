#!/usr/bin/env bash
# How much longer `trace` takes for a large function than for a small one, on a machine that runs unevenly.
#
#   bench/growth.sh SMALL LARGE [ROUNDS]   two files over the built-in target; each run of the large one stands between
#                                          six of the small one. Prints the median of these ratios with its quartiles,
#                                          and the ratio of the least times, which favours short runs.
# bench/allocate.sh makes families of such files. Wanted: at most n^1.25, that is 5.7 times for four times as many
# instructions. docs/PERFORMANCE.md says what is reached.
. "$(dirname "$(readlink -f "${BASH_SOURCE[0]}")")/common.sh"

python3 - "$program" "$1" "$2" "${3:-10}" <<'RUN'
import math
import os
import statistics
import sys

program, small, large, rounds = sys.argv[1], sys.argv[2], sys.argv[3], int(sys.argv[4])


def seconds(name):
    """Processor seconds of a run."""
    quiet = [(os.POSIX_SPAWN_OPEN, 1, os.devnull, os.O_WRONLY, 0)]
    run = os.posix_spawn(program, [program, "trace", "-", name], os.environ, file_actions=quiet)
    _, status, used = os.wait4(run, 0)
    if status != 0:
        sys.exit("trace of %s failed" % name)
    return used.ru_utime + used.ru_stime


def lines(name):
    with open(name) as file:
        return sum(1 for _ in file)


ratios, least = [], [math.inf, math.inf]
for _ in range(rounds):
    around = [seconds(small) for _ in range(3)]
    one = seconds(large)
    around += [seconds(small) for _ in range(3)]
    ratios.append(one / statistics.mean(around))
    least = [min([least[0]] + around), min(least[1], one)]
ratios.sort()
median, n = statistics.median(ratios), lines(large) / lines(small)
print("lines %.2f times as many" % n)
print("side by side %.2f times (n^%.2f; quartiles %.2f and %.2f)" % (
    median, math.log(median) / math.log(n), ratios[len(ratios) // 4], ratios[3 * len(ratios) // 4]))
print("least times %.3f s and %.3f s: %.2f times (n^%.2f)" % (
    *least, least[1] / least[0], math.log(least[1] / least[0]) / math.log(n)))
RUN
