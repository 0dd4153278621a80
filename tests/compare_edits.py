#!/usr/bin/env python3
"""Compares what is live in functions, as random edits bring it up to date, with what is computed anew.

Run: compare_edits.py MODEL [--targets FOLDER] [--functions N] [--edits N] [--seed N] [--refuse K]

MODEL is the folder of the reference model (the package `llra_ref` and the module `generators`), with which functions.py
makes random functions: over the built-in target, over its second version (where branches write a fixed register that is
live throughout), over the files of tests/targets and over those of FOLDER, in turn. The program bench_programs, which
./llra builds (BENCH_PROGRAMS in the environment names another executable), does so many lists of random edits to each of N
functions that are valid, keeps three of four and takes the others back, and compares all that is live behind each list
with what is computed anew (crates/bench_programs/src/edits.rt says how). No list may be refused where memory isn't.

With `--refuse K` it also edits K small functions with memory refused: each request that edits make is refused in turn, by
a library of C that is compiled (cc or clang) and preloaded. A list that is refused must leave the function and what is
live in it as they were; where the program only ends with an error, nothing is counted but that.

It prints the first differences and counts, and ends with 1 where there is a difference."""
import argparse
import collections
import concurrent.futures
import glob
import itertools
import os
import random
import re
import shutil
import subprocess
import sys
import tempfile

TESTS = os.path.dirname(os.path.realpath(__file__))
LINE = re.compile(r".* kept (\d+) rolled back (\d+) refused (\d+) edits (\d+) (same|differs .*)$")
INSTR = re.compile(rb"    (?!liveins:|successors:|.* = PHI )")
MOVES = {"ebx": b"MOV32ri", "bx": b"MOV16ri", "bh": b"MOV8ri"}
IN_ONE_CALL = 20
SMALL = 45  # lines of a function in which requests are refused
SMALL_LISTS = 3
SECONDS = 900  # that a call may take

# The library that refuses requests for memory, from the one of the number in REFUSED_FROM on: each in a process of its own,
# which goes on without that memory, while the one that has it waits and says how the other ended. At the end it tells how many
# requests there were.
SHIM = r"""
#include <errno.h>
#include <stdio.h>
#include <stdlib.h>
#include <sys/wait.h>
#include <unistd.h>

extern void *__libc_malloc(size_t), *__libc_calloc(size_t, size_t), *__libc_realloc(void *, size_t);
extern void *__libc_memalign(size_t, size_t);
static long asked, from = -1;
static int is_refusing;

static void say(int file, const char *form, long one, long other) {
    char line[80];
    int length = snprintf(line, sizeof line, form, one, other);
    if (write(file, line, (size_t)length) < 0) _exit(3);
}
static int is_refused(void) {
    int status = -1;
    pid_t other;
    if (from < 0) from = getenv("REFUSED_FROM") ? atol(getenv("REFUSED_FROM")) : 0;
    asked++;
    if (!from || asked < from || is_refusing) return 0;
    other = fork();
    if (!other) {
        is_refusing = 1;
        alarm(100);
        errno = ENOMEM;
        return 1;
    }
    if (other > 0) waitpid(other, &status, 0);
    say(1, "request %ld status %ld\n", asked, WIFEXITED(status) ? WEXITSTATUS(status) : -1);
    return 0;
}
void *malloc(size_t size) { return is_refused() ? NULL : __libc_malloc(size); }
void *calloc(size_t count, size_t size) { return is_refused() ? NULL : __libc_calloc(count, size); }
void *realloc(void *old, size_t size) { return is_refused() ? NULL : __libc_realloc(old, size); }
void *aligned_alloc(size_t alignment, size_t size) { return is_refused() ? NULL : __libc_memalign(alignment, size); }
int posix_memalign(void **made, size_t alignment, size_t size) {
    if (is_refused()) return ENOMEM;
    *made = __libc_memalign(alignment, size);
    return *made ? 0 : ENOMEM;
}
__attribute__((destructor)) static void tell(void) {
    if (!is_refusing) say(2, "asked %ld\n", asked, 0);
}
"""


def arguments():
    it = argparse.ArgumentParser(description=__doc__.split("\n")[0])
    it.add_argument("model")
    it.add_argument("--targets", metavar="FOLDER", help="further target files")
    it.add_argument("--functions", type=int, default=1000, metavar="N", help="how many functions are edited")
    it.add_argument("--edits", type=int, default=20, metavar="N", help="how many lists of edits each")
    it.add_argument("--seed", type=int, default=1, metavar="N")
    it.add_argument("--refuse", type=int, default=0, metavar="K", help="in how many functions memory is refused")
    return it.parse_args()


ARGUMENTS = arguments()
sys.path.insert(0, ARGUMENTS.model)
sys.dont_write_bytecode = True
import llra_ref as L  # noqa: E402
from functions import Wide  # noqa: E402
from generators import Gen, MINI2_TEXT  # noqa: E402
from tables import executable  # noqa: E402

Case = collections.namedtuple("Case", "sort target path seed")  # the target's name and file, and a function's file


# -- functions

def read(path):
    with open(path, "rb") as file:
        return file.read()


def write(path, content):
    with open(path, "wb") as file:
        file.write(content)


def targets(folder, further):
    """(name, word of the program, how functions are made) of each target, also of the files of a further folder."""
    second = os.path.join(folder, "second.target")
    write(second, MINI2_TEXT)
    paths = sorted(glob.glob(os.path.join(TESTS, "targets", "*.target")))
    if further:
        paths += sorted(glob.glob(os.path.join(further, "*.target")))
    yield "built-in", "-", built_in
    yield "second version", second, second_version
    for path in paths:
        yield os.path.basename(path)[:-len(".target")], os.path.abspath(path), over(L.read_target(read(path)))


def generated(r, is_kept):
    """A function that `generators` makes; with a register that is live throughout, or without."""
    while True:
        made = Gen(r.randrange(2 ** 30))
        if (made.kept is not None) == is_kept:
            return made


def over(target):
    """What makes functions over any target."""
    return lambda r: Wide(target, r.randrange(2 ** 30)).function()


def built_in(r):
    return generated(r, False).function() if r.random() < 0.7 else over(L.mini())(r)


def second_version(r):
    """A function whose branches write the register that is live throughout, and that other instructions read and write."""
    made, lines = generated(r, True), []
    register = made.kept.encode()
    for line in made.function().split(b"\n"):
        word = line.split()[:1]
        if word in ([b"JCC"], [b"JNZ32"]):
            line += b", implicit-def $" + register if r.random() < 0.5 else b""
        elif INSTR.match(line) and word not in ([b"JMP"], [b"RET"]) and r.random() < 0.2:
            lines.append(b"    NOP implicit $" + register)
            if r.random() < 0.5:
                lines.append(b"    $%s = %s %d" % (register, MOVES[made.kept], r.randrange(100)))
        lines.append(line)
    return b"\n".join(lines)


def all_cases(folder, found, seed, most=None):
    """A case for each seed from one on, over each target in turn; of at most so many lines where this is given."""
    for number in itertools.count(seed):
        sort, word, make = found[number % len(found)]
        data = make(random.Random(number))
        if most is None or data.count(b"\n") <= most:
            path = os.path.join(folder, "%d.mir" % number)
            write(path, data)
            yield Case(sort, word, path, number)


# -- runs of the program

def words_of(case, lists):
    return ["--edits", case.target, str(case.seed), str(lists), case.path]


def run(words, **further):
    return subprocess.run([PROGRAM, *words], capture_output=True, text=True, timeout=SECONDS,
                          env={**os.environ, **further}, errors="backslashreplace")


def lines_of(cases):
    """The line that the program prints of each case."""
    found = []
    while len(found) < len(cases):
        rest = cases[len(found):]
        done = run([word for case in rest for word in words_of(case, ARGUMENTS.edits)])
        lines = done.stdout.splitlines()
        found += lines
        if len(lines) < len(rest) and " differs " not in (lines or [""])[-1]:
            found.append("ended with %d: %s" % (done.returncode, done.stderr.strip()))
    return found


def keep(case):
    """A folder with the files of a case, and the command over them."""
    kept = tempfile.mkdtemp(prefix="edits-%d-" % case.seed)
    shutil.copy(case.path, os.path.join(kept, "F"))
    if case.target != "-":
        shutil.copy(case.target, os.path.join(kept, "T"))
    return "in %s: --edits %s %d LISTS F" % (kept, "-" if case.target == "-" else "T", case.seed)


class Counts:
    """Of what came out, and of differences, of which the first are printed."""

    def __init__(self, shown=5):
        self.of, self.sorts, self.differences, self.shown = collections.Counter(), collections.Counter(), 0, shown

    def differ(self, case, what):
        self.differences += 1
        if self.differences <= self.shown:
            print("differs: %s, seed %d: %s; %s" % (case.sort, case.seed, what, keep(case)), flush=True)

    def add(self, match, lists):
        """Adds the counts of a line over so many lists. Answers how many of them were done."""
        kept, back, refused, edits = map(int, match.groups()[:4])
        self.of.update({"kept": kept, "rolled back": back, "refused": refused, "edits": edits})
        self.of["not drawn"] += lists - kept - back - refused
        return kept + back


# -- edits with memory enough

def judge(counts, case, line):
    """Counts what the program printed of a case."""
    match = LINE.match(line)
    if line in ("no function", "no valid source"):
        counts.of[line] += 1
        return
    counts.of["functions"] += 1
    counts.sorts[case.sort] += 1
    done = counts.add(match, ARGUMENTS.edits) if match else 0
    if done < ARGUMENTS.edits or match[5] != "same":
        counts.differ(case, line)


def compare(counts, cases, pool):
    """Edits so many functions; where some aren't valid, further ones."""
    while counts.of["functions"] < ARGUMENTS.functions:
        left = list(itertools.islice(cases, ARGUMENTS.functions - counts.of["functions"]))
        calls = [left[k:k + IN_ONE_CALL] for k in range(0, len(left), IN_ONE_CALL)]
        for call, lines in zip(calls, pool.map(lines_of, calls)):
            for case, line in zip(call, lines):
                judge(counts, case, line)
        for case in left:
            os.remove(case.path)


# -- edits with memory refused

def shim(folder):
    """The path of the library that refuses memory."""
    source, made = os.path.join(folder, "refuse.c"), os.path.join(folder, "refuse.so")
    write(source, SHIM.encode())
    compiler = shutil.which("cc") or shutil.which("clang") or sys.exit("compare_edits.py: no C compiler")
    subprocess.run([compiler, "-O1", "-fno-builtin", "-shared", "-fPIC", "-o", made, source], check=True)
    return made


def requests(case, library):
    """How many requests for memory a run makes that edits nothing; none where the function isn't valid."""
    done = run(words_of(case, 0), LD_PRELOAD=library)
    asked = re.search(r"^asked (\d+)$", done.stderr, re.M)
    return int(asked[1]) if asked and LINE.match(done.stdout.rstrip("\n")) else 0


def judge_refused(counts, case, number, status, out):
    """Counts what came of the run in which the request of a number was refused."""
    match = LINE.match(out.rstrip("\n"))
    counts.of["requests"] += 1
    if status == "1" and not match:
        counts.of["ended"] += 1
    elif status != "0" or not match or match[5] != "same":
        counts.differ(case, "request %s, status %s: %s" % (number, status, out.strip()))
    else:
        counts.add(match, SMALL_LISTS)


def refuse_each(case, library):
    """Counts over all requests that edits of a case make; none where it isn't valid."""
    counts, first = Counts(1), requests(case, library) + 1
    if first > 1:
        done = run(words_of(case, SMALL_LISTS), LD_PRELOAD=library, REFUSED_FROM=str(first))
        parts = re.split(r"request (\d+) status (-?\d+)\n", done.stdout)
        counts.of["functions"] += 1
        counts.sorts[case.sort] += 1
        for out, number, status in zip(parts[::3], parts[1::3], parts[2::3]):
            judge_refused(counts, case, number, status, out)
        if done.returncode or not LINE.match(parts[-1].rstrip("\n")):
            counts.differ(case, "status %d: %s" % (done.returncode, parts[-1].strip()))
    return counts


def refuse(counts, cases, library, pool):
    """Refuses memory in so many functions."""
    while counts.of["functions"] < ARGUMENTS.refuse:
        left = list(itertools.islice(cases, ARGUMENTS.refuse - counts.of["functions"]))
        for one in pool.map(lambda case: refuse_each(case, library), left):
            counts.of += one.of
            counts.sorts += one.sorts
            counts.differences += one.differences


def tell(kind, counts):
    print("%s: %s; over %s; differences: %d" % (
        kind, ", ".join("%s %d" % x for x in sorted(counts.of.items())),
        ", ".join("%s %d" % x for x in sorted(counts.sorts.items())), counts.differences), flush=True)


def main():
    edited, refused = Counts(), Counts()
    with tempfile.TemporaryDirectory() as folder, concurrent.futures.ThreadPoolExecutor(os.cpu_count()) as pool:
        found = list(targets(folder, ARGUMENTS.targets))
        compare(edited, all_cases(folder, found, ARGUMENTS.seed), pool)
        tell("edited", edited)
        if ARGUMENTS.refuse:
            refuse(refused, all_cases(folder, found, ARGUMENTS.seed, SMALL), shim(folder), pool)
            tell("with memory refused", refused)
    return 1 if edited.differences or refused.differences else 0


PROGRAM = executable("bench_programs")
if __name__ == "__main__":
    sys.exit(main())
