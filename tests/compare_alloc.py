#!/usr/bin/env python3
"""Compares the allocator over whole functions with a reference model.

Run: compare_alloc.py MODEL PROGRAM SEED COUNT [TARGET..]

MODEL is the folder of the reference model (the package `llra_ref` and the module `generators`), PROGRAM the
executable of `llra`. For each of COUNT seeds from SEED it makes one function: over the built-in
target, over its second version, over a fixed odd target, over a random odd one, or over one of the TARGET files.
Some functions are valid, some have instructions changed or read more registers at once, so that limits, validity
and places are asked too. Output, status and line of `alloc`, `trace` and `intervals` must be the model's; what
`alloc` writes must be valid, and a run of it must do what a run of the source does. `not yet` is never wanted: it would be the guard's No, or a run without an end.
It prints the first differences and counts, and ends with 1 where there is a difference."""
import collections
import os
import re
import subprocess
import sys
import tempfile

MODEL, PROGRAM, SEED, COUNT = sys.argv[1], os.path.abspath(sys.argv[2]), int(sys.argv[3]), int(sys.argv[4])
sys.path.insert(0, MODEL)
import llra_ref as L  # noqa: E402
from functions import made  # noqa: E402
from generators import MINI_TEXT  # noqa: E402
from llra_ref import cli  # noqa: E402
from llra_ref.faults import Stop  # noqa: E402

FILES = [open(name, "rb").read() for name in sys.argv[5:]]
COMMANDS = ["alloc", "alloc", "alloc", "trace", "intervals"]


def questions(seed):
    """(sort of the target, command, text of the target or None, document, status, output and line wanted)."""
    try:
        sort, text, data = made(seed, FILES)
        target = L.mini() if text is None else L.read_target(text)
        doc = L.read_doc(target, True, 1, data)
    except Stop:
        return
    if doc.kind != "function" or doc.text:
        return
    command = COMMANDS[seed % len(COMMANDS)]
    files = cli.MemFiles({b"T": text, b"F": data})
    words = [command.encode(), b"-" if text is None else b"T", b"F"]
    yield sort, command, text, data, cli.top(words, files)


def write(name, content):
    with open(name, "wb") as out:
        out.write(content)


def run(folder, *words):
    done = subprocess.run([PROGRAM, *words], cwd=folder, capture_output=True, timeout=120)
    return done.returncode, done.stdout, done.stderr


def name_of(data):
    return next(line[5:].strip() for line in data.split(b"\n") if line.startswith(b"name:"))


def symbols_of(text):
    """The symbols that a text names, in the order in which they first appear."""
    return list(dict.fromkeys(re.findall(rb'@(?:"[^"]*"|[\w.$-]+)', text)))


def unlike(folder, word, data, out):
    """What is wrong with an allocation that the program wrote, by the program's own verifier and runs."""
    write(os.path.join(folder, "G"), out)
    name = name_of(data)
    if run(folder, "verify", "allocated", word, "G") != (0, b"valid " + name + b"\n", b""):
        return "not valid"
    # an environment of a seed places symbols by their first appearance: other orders are other environments
    runs = (("40", "1"), ("400", "7")) if symbols_of(data) == symbols_of(out) else ()
    for n, seed in runs:
        source = run(folder, "run", word, "F", name, n, seed)
        if b"end undefined" not in source[1] and run(folder, "run", word, "G", name, n, seed) != source:
            # lanes that are undefined in the source may have any value
            if b"undef" not in source[1]:
                return "another run"
    return None


def kind_of(command, got):
    return {0: command, 1: "limit" if b": limit " in got[2] else "invalid", 6: "unassignable"}.get(got[0], "status %d" % got[0])


def main():
    counts, sorts, bad, no = collections.Counter(), collections.Counter(), 0, 0
    for seed in range(SEED, SEED + COUNT):
        for sort, command, text, data, want in questions(seed):
            with tempfile.TemporaryDirectory() as folder:
                write(os.path.join(folder, "F"), data)
                if text is not None:
                    write(os.path.join(folder, "T"), text)
                word = "-" if text is None else "T"
                have = run(folder, command, word, "F")
                wrong = None if have == want else "status %d, the model's %d" % (have[0], want[0])
                if command == "alloc" and have[0] == 0 and not wrong:
                    wrong = unlike(folder, word, data, have[1])
            counts[kind_of(command, want)] += 1
            sorts[sort] += 1
            no += have[0] == 7
            if wrong:
                bad += 1
                if bad <= 5:
                    kept = tempfile.mkdtemp(prefix="alloc-%d-" % seed)
                    for file, content in (("T", text or MINI_TEXT), ("F", data), ("want", want[1] + want[2]),
                                          ("got", have[1] + have[2])):
                        write(os.path.join(kept, file), content)
                    print("differs: seed %d, %s: %s; in %s" % (seed, sort, wrong, kept), flush=True)
    print("compared: %s; over %s; not yet: %d; differences: %d" % (
        ", ".join("%s %d" % x for x in sorted(counts.items())), ", ".join("%s %d" % x for x in sorted(sorts.items())),
        no, bad))
    sys.exit(1 if bad or not counts else 0)


main()
