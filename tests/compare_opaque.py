#!/usr/bin/env python3
"""Compares the program with a reference model over targets with opaque instructions.

Run: compare_opaque.py MODEL PROGRAM SEED COUNT [texts [all]], by python3, or by pypy3 in a third of the time

MODEL is the folder of the reference model (the package `llra_ref` and the modules `fuzz_opaque` and
`fuzz_opaque_text`), PROGRAM the executable of `llra`. For each of COUNT seeds from SEED it makes a target with opaque
instructions of all kinds and four functions over it; half of the functions are taken as they are, of the others the
text, the target or both are mutated. Every command is asked of each: allocations by all policies, traces, live
intervals, runs of the source and of its allocation under several environments, both verifiers, and the checker of the
allocation, of the source beside itself and of allocations with one operand changed or one instruction dropped. Output,
line and status must be the model's. It prints the first differences and counts, and ends with 1 where there is a
difference.

With `texts` it makes six functions for each seed, most of them with the text, the target or both mutated, and asks of each
`alloc`, `run` and `check` alone, and both verifiers and the checker of what is allocated: more inputs in less time. With
`texts all` every command is asked of these."""
import collections
import functools
import json
import os
import random
import subprocess
import sys
import tempfile

MODEL, PROGRAM, SEED, COUNT = sys.argv[1], os.path.abspath(sys.argv[2]), int(sys.argv[3]), int(sys.argv[4])
TEXTS, ALL = sys.argv[5:6] == ["texts"], sys.argv[6:] == ["all"]
sys.path.insert(0, MODEL)
sys.argv = ["", "0", "0"]  # (the module below goes over so many seeds when it is imported)
import llra_ref as L  # noqa: E402
from fuzz_opaque import Fn, damaged, make_target  # noqa: E402
from fuzz_opaque_text import mutate  # noqa: E402
from llra_ref import cli  # noqa: E402
from llra_ref.text import Doc  # noqa: E402

OF_SOURCE = ["trace T IN", "intervals T IN", "alloc basic T IN", "alloc cut T IN", "alloc colour T IN", "trace basic T IN",
             "trace cut T IN", "verify source T IN", "verify allocated T IN", "check T IN IN", "run T IN f 60 3",
             "run T IN f 7 1", "run T IN f 400 12"]
OF_ALLOCATION = ["verify allocated T OUT", "check T IN OUT", "run T OUT f 60 3", "run T OUT f 400 12", "alloc T OUT"]
OF_DAMAGED = ["check T IN BAD", "verify allocated T BAD", "run T BAD f 60 3"]
if TEXTS and not ALL:
    OF_SOURCE, OF_ALLOCATION = ["run T IN f 60 3", "check T IN IN"], ["verify allocated T OUT", "check T IN OUT"]


# Starts the program again and again. A process of its own, since one that holds the model takes long to start another.
STARTER = """
import json, subprocess, sys
for line in sys.stdin.buffer:
    words, folder = json.loads(line)
    done = subprocess.run(words, cwd=folder, capture_output=True, timeout=120)
    sys.stdout.buffer.write(b"%d %d %d\\n" % (done.returncode, len(done.stdout), len(done.stderr)))
    sys.stdout.buffer.write(done.stdout + done.stderr)
    sys.stdout.buffer.flush()
"""
starter = subprocess.Popen(["python3", "-c", STARTER], stdin=subprocess.PIPE, stdout=subprocess.PIPE)
cli.read_target = functools.lru_cache(64)(cli.read_target)


def model(words, files):
    return cli.top([w.encode() for w in words.split()], cli.MemFiles({k.encode(): v for k, v in files.items()}))


def program(words, folder):
    starter.stdin.write(json.dumps([[PROGRAM, *words.split()], folder]).encode() + b"\n")
    starter.stdin.flush()
    status, output, errors = (int(word) for word in starter.stdout.readline().split())
    return status, starter.stdout.read(output), starter.stdout.read(errors)


def cases(seed, mutated):
    """(target, document) of a seed, as they are or mutated; counts those that are."""
    rnd = random.Random(seed)
    text, ops = make_target(rnd)
    for _ in range(6 if TEXTS else 4):
        whole = target, data = text.encode(), Fn(rnd, ops).text().encode()
        if TEXTS or rnd.random() < .5:
            if rnd.random() < .7:
                data = mutate(rnd, data)
            if rnd.random() < .4:
                target = mutate(rnd, target)
        mutated.update(texts=data != whole[1], targets=target != whole[0], cases=(target, data) != whole)
        yield rnd, target, data


def damage(rnd, target, out):
    """An allocation with one change, as text."""
    read = L.read_target(target)
    bad = damaged(rnd, read, L.read_doc(read, True, 1, out).func)
    return None if bad is None else L.print_doc(read, Doc("function", b"", bad))


def questions(rnd, target, data):
    """(words, the files, what the model answers)."""
    files = {"T": target, "IN": data}
    first = model("alloc T IN", files)
    yield "alloc T IN", files, first
    for words in OF_SOURCE:
        yield words, files, model(words, files)
    if first[0]:
        return
    files = {**files, "OUT": first[1]}
    for words in OF_ALLOCATION:
        yield words, files, model(words, files)
    for _ in range(0 if TEXTS else 2):
        bad = damage(rnd, target, first[1])
        if bad is not None:
            for words in OF_DAMAGED:
                yield words, {**files, "BAD": bad}, model(words, {**files, "BAD": bad})


def write_all(folder, files):
    for name, content in files.items():
        with open(os.path.join(folder, name), "wb") as out:
            out.write(content)


def keep(seed, words, files, have, want):
    """A folder with the case of a difference."""
    kept = tempfile.mkdtemp(prefix="opaque-%d-" % seed)
    write_all(kept, {**files, "words": "\n".join(words.split()).encode() + b"\n", "want": want[1] + want[2],
                     "got": have[1] + have[2]})
    print("differs: seed %d, %s: status %d, the model's %d; in %s" % (seed, words, have[0], want[0], kept), flush=True)


def main():
    counts, mutated, functions, bad = collections.Counter(), collections.Counter(), 0, 0
    for seed in range(SEED, SEED + COUNT):
        for rnd, target, data in cases(seed, mutated):
            functions += 1
            with tempfile.TemporaryDirectory() as folder:
                for words, files, want in questions(rnd, target, data):
                    write_all(folder, files)
                    have = program(words, folder)
                    counts[(" ".join(w for w in words.split() if w.islower() and len(w) > 1), want[0])] += 1
                    if have != want:
                        bad += 1
                        if bad <= 20:
                            keep(seed, words, files, have, want)
    for (command, status), n in sorted(counts.items()):
        print("%s: status %d: %d" % (command, status, n))
    print("mutated: %d functions: %d texts, %d targets" % (mutated["cases"], mutated["texts"], mutated["targets"]))
    print("compared: %d functions, %d runs; differences: %d" % (functions, sum(counts.values()), bad))
    sys.exit(1 if bad or not counts else 0)


main()
