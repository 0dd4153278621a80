#!/usr/bin/env python3
"""Compares the interpreter with a reference model.

Run: compare_run.py MODEL PROGRAM SEED COUNT

MODEL is the folder of the reference model (the package `llra_ref` and the module `generators`), PROGRAM the
executable of `llra`. For each of COUNT seeds from SEED it makes a function over one of four
targets (the built-in one, the same in version 2, another one, and that one with its lists in other orders), as a
source and, where the model can allocate it, in allocated form, and runs each through several numbers of counted
instructions in the environments of several seeds. `run` must print what the model prints. It prints the
first differences and ends with 1 where there is one."""
import os
import subprocess
import sys
import tempfile

MODEL, PROGRAM, SEED, COUNT = sys.argv[1], os.path.abspath(sys.argv[2]), int(sys.argv[3]), int(sys.argv[4])
sys.path.insert(0, MODEL)
import llra_ref as L  # noqa: E402
from generators import Gen, MINI2_TEXT, OTHER, Other, odd_target  # noqa: E402
from llra_ref import cli  # noqa: E402
from llra_ref.target import MINI_TEXT  # noqa: E402

STEPS, SEEDS = (0, 1, 3, 17, 400), (0, 1, 77777, 999999999)


def made(seed):
    """The text of a target and of a document over it."""
    kind = seed % 4
    if kind < 2:
        gen = Gen(seed)
        data = gen.function()
        return (MINI2_TEXT if gen.kept or kind == 1 else MINI_TEXT), data
    text = OTHER if kind == 2 else odd_target(seed)
    return text, Other(L.read_target(text), seed).function()


def expected(target, data, n, seed):
    f = L.read_doc(target, True, 1, data).func
    outcome = L.run(target, f, L.Env(seed), n)
    return b"".join(e.text() + b"\n" for e in outcome.events) + b"end " + outcome.end.encode() + b"\n"


def main():
    runs = bad = events = 0
    ends = {}
    with tempfile.TemporaryDirectory() as folder:
        for seed in range(SEED, SEED + COUNT):
            text, data = made(seed)
            target = L.read_target(text)
            try:
                L.verify_source(target, L.read_doc(target, True, 1, data).func)
            except Exception:
                continue
            forms = [data]
            code, out, _ = cli.top([b"alloc", b"T", b"IN"], cli.MemFiles({b"IN": data, b"T": text}))
            if code == 0:
                forms.append(out)
            name = L.read_doc(target, True, 1, data).func.name
            paths = [os.path.join(folder, file) for file in ("target", "source", "allocated")]
            for path, content in zip(paths, [text] + forms):
                with open(path, "wb") as file:
                    file.write(content)
            wrong = False
            for path, form in zip(paths[1:], forms):
                for n in STEPS:
                    for s in SEEDS:
                        answer = expected(target, form, n, s)
                        runs += 1
                        events += answer.count(b"\n") - 1
                        end = answer.split()[-1]
                        ends[end] = ends.get(end, 0) + 1
                        word = "-" if text == MINI_TEXT else paths[0]
                        done = subprocess.run([PROGRAM, "run", word, path, name, str(n), str(s)], capture_output=True)
                        if (done.returncode, done.stdout) != (0, answer) and not wrong:
                            wrong = True
                            print("seed %d: status %d %s" % (seed, done.returncode, done.stderr.decode()))
            bad += wrong
    print("%d functions from seed %d: %d runs, %d events, ends %s, %d functions differ" % (COUNT, SEED, runs, events, ends, bad))
    sys.exit(1 if bad else 0)


main()
