#!/usr/bin/env python3
"""Compares both verifiers with a reference model.

Run: compare_verdicts.py MODEL PROGRAM SEED COUNT [TARGET..]

MODEL is the folder of the reference model (the package `llra_ref` and the module `generators`), PROGRAM the
executable of `llra`. For each of COUNT seeds from SEED it makes one function, as compare_alloc.py does: some are
valid and some have instructions changed. Of it, of what PROGRAM's `alloc` makes of it, and of that with instructions
and operands changed, `verify source` and `verify allocated` must give output, status and line of the model. It prints the first differences and counts by status, and ends with 1 where there is a difference."""
import collections
import os
import random
import subprocess
import sys
import tempfile

MODEL, PROGRAM, SEED, COUNT = sys.argv[1], os.path.abspath(sys.argv[2]), int(sys.argv[3]), int(sys.argv[4])
FILES = [open(name, "rb").read() for name in sys.argv[5:]]
sys.path.insert(0, MODEL)

from llra_ref import cli  # noqa: E402
from llra_ref.faults import Stop  # noqa: E402
from functions import made  # noqa: E402
from generators import mutated_function  # noqa: E402


def run(folder, *words):
    done = subprocess.run([PROGRAM, *words], cwd=folder, capture_output=True, timeout=120)
    return done.returncode, done.stdout, done.stderr


def write(folder, name, content):
    with open(os.path.join(folder, name), "wb") as out:
        out.write(content)


def differences(folder, text, data, counts):
    """The forms in which the verdicts on a function differ."""
    write(folder, "F", data)
    word = b"-" if text is None else b"T"
    for form in (b"source", b"allocated"):
        words = [b"verify", form, word, b"F"]
        want = cli.top(words, cli.MemFiles({b"T": text, b"F": data}))
        have = run(folder, *(w.decode() for w in words))
        counts[want[0]] += 1
        if have != want:
            yield form, data, want, have


def functions(folder, seed):
    """The target's text, and the functions of a seed: one that is made, its allocation, and that changed."""
    try:
        _, text, data = made(seed, FILES)
    except Stop:
        return
    if text is not None:
        write(folder, "T", text)
    yield text, data
    write(folder, "F", data)
    status, out, _ = run(folder, "alloc", "-" if text is None else "T", "F")
    if status == 0:
        yield text, out
        yield text, mutated_function(out, random.Random(seed))


def main():
    counts, bad = collections.Counter(), 0
    for seed in range(SEED, SEED + COUNT):
        with tempfile.TemporaryDirectory() as folder:
            for text, data in functions(folder, seed):
                for form, data, want, have in differences(folder, text, data, counts):
                    bad += 1
                    if bad <= 5:
                        print("seed", seed, form, "wanted", want, "got", have)
                        print(data.decode(errors="replace"))
    print("verdicts: " + ", ".join("status %d %d" % it for it in sorted(counts.items())) + "; differences: %d" % bad)
    return 1 if bad else 0


if __name__ == "__main__":
    sys.exit(main())
