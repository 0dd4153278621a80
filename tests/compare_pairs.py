#!/usr/bin/env python3
"""Compares the checker of allocations with a reference model.

Run: compare_pairs.py MODEL PROGRAM SEED COUNT [TARGET..]

MODEL is the folder of the reference model (the package `llra_ref` and the module `generators`), PROGRAM the
executable of the program crate `bench_programs` (`LLRA_CRATE=bench_programs LLRA_WHERE=1 ./llra` prints its
path). For each of COUNT seeds from SEED it makes one function, over the built-in target, its second version, an odd
one or one of the TARGET files, lets the model allocate it, and asks the checker of the allocation and of five wrong
edits of it: another register, an instruction lost, put twice or moved, another slot, constant, branch or flag. The
verdict and its place must be the model's. It prints the first differences and counts, and ends with 1 where there
is a difference."""
import collections
import os
import random
import re
import subprocess
import sys
import tempfile

MODEL, PROGRAM, SEED, COUNT = sys.argv[1], os.path.abspath(sys.argv[2]), int(sys.argv[3]), int(sys.argv[4])
sys.path.insert(0, MODEL)
import llra_ref as L  # noqa: E402
from functions import made  # noqa: E402
from llra_ref import cli  # noqa: E402
from llra_ref.faults import Stop  # noqa: E402

FILES = [open(name, "rb").read() for name in sys.argv[5:]]
WRONG = 5


def replaced(line, pattern, choose):
    """The line with one of the matches replaced; None where there is none."""
    matches = list(re.finditer(pattern, line))
    if not matches:
        return None
    m = R.choice(matches)
    return line[:m.start()] + choose(m) + line[m.end():]


R = random.Random(0)


def edited(text, target):
    """An allocated function with one wrong edit, or None."""
    lines = text.split(b"\n")
    body = [k for k, l in enumerate(lines) if l.startswith(b"    ") and not re.match(rb"    (successors|liveins):", l)]
    if not body:
        return None
    k, kind = R.choice(body), R.randrange(9)
    if kind < 3:
        line = replaced(lines[k], rb"\$\w+", lambda m: b"$" + R.choice(target.regs)[0])
    elif kind == 3:
        del lines[k]
        return b"\n".join(lines)
    elif kind == 4:
        lines.insert(k, lines[R.choice(body)])
        return b"\n".join(lines)
    elif kind == 5:
        j = R.choice(body)
        lines[k], lines[j] = lines[j], lines[k]
        return b"\n".join(lines)
    elif kind == 6:
        line = replaced(lines[k], rb"%stack\.\d+", lambda m: b"%%stack.%d" % R.randrange(3))
    elif kind == 7:
        line = replaced(lines[k], rb"(?<=, )-?\d+|%bb\.\d+",
                        lambda m: b"%%bb.%d" % R.randrange(4) if m[0][:1] == b"%" else b"%d" % R.randrange(40))
    else:
        line = replaced(lines[k], rb"renamable (?=\$)", lambda m: b"undef renamable ")
    if line is None:
        return None
    lines[k] = line
    return b"\n".join(lines)


def verdict(target, source, data):
    """What the checker is to say."""
    try:
        doc = L.read_doc(target, True, 1, data)
    except Stop:
        return "no functions"
    if doc.kind != "function":
        return "no functions"
    try:
        L.verify_allocated(target, doc.func)
    except Stop as fault:
        return "no bb.%d:%d" % (fault.args[0], fault.args[1])
    doubt = L.check_pair(target, source, doc.func)
    return "yes" if doubt is None else "no bb.%d:%d" % tuple(doubt)


def pairs(seed):
    """(text of the target or None, source, [allocated]) or None where the function isn't allocated."""
    try:
        _, text, data = made(seed, FILES)
        target = L.mini() if text is None else L.read_target(text)
        doc = L.read_doc(target, True, 1, data)
    except Stop:
        return None
    if doc.kind != "function":
        return None
    words = [b"alloc", b"-" if text is None else b"T", b"F"]
    code, out, _ = cli.top(words, cli.MemFiles({b"T": text, b"F": data}))
    if code != 0:
        return None
    R.seed(seed)
    wrong = [edited(out, target) for _ in range(WRONG)]
    return text, data, [out] + [x for x in wrong if x is not None and x != out]


def write(name, content):
    with open(name, "wb") as out:
        out.write(content)


def asked(folder, text, data, allocated):
    """What the program says of each pair."""
    write(os.path.join(folder, "F"), data)
    if text is not None:
        write(os.path.join(folder, "T"), text)
    words = ["-" if text is None else "T"]
    for k, content in enumerate(allocated):
        write(os.path.join(folder, "G%d" % k), content)
        words += ["F", "G%d" % k]
    done = subprocess.run([PROGRAM, "--pairs"] + words, cwd=folder, capture_output=True, timeout=120)
    return done.stdout.decode().split("\n")[:-1] if done.returncode == 0 else ["status %d" % done.returncode]


def main():
    counts, bad = collections.Counter(), 0
    for seed in range(SEED, SEED + COUNT):
        found = pairs(seed)
        if found is None:
            continue
        text, data, allocated = found
        target = L.mini() if text is None else L.read_target(text)
        source = L.read_doc(target, True, 1, data).func
        want = [verdict(target, source, content) for content in allocated]
        with tempfile.TemporaryDirectory() as folder:
            have = asked(folder, text, data, allocated)
        counts.update("%s of %s" % (v.split(" bb")[0], "an allocation" if k == 0 else "a wrong edit") for k, v in enumerate(want))
        if have != want:
            bad += 1
            if bad <= 5:
                print("differs: seed %d: %s, the model's %s" % (seed, have, want), flush=True)
    print("pairs: %d; %s; functions that differ: %d" % (
        sum(counts.values()), ", ".join("%s %d" % x for x in sorted(counts.items())), bad))
    sys.exit(1 if bad or not counts else 0)


main()
