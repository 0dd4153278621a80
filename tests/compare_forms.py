#!/usr/bin/env python3
"""Compares the further forms of commands over whole functions with a reference model.

Run: compare_forms.py MODEL PROGRAM SEED COUNT [TARGET..]

MODEL is the folder of the reference model (the package `llra_ref` and the module `generators`), PROGRAM the
executable of `llra`. For each of COUNT seeds from SEED it makes one function as compare_alloc.py does, and asks in turn
`alloc colour`, `alloc cut`, `alloc basic`, `trace cut` and `trace basic`: output, status and line must be the model's.
What a form of `alloc` wrote is then checked beside its source, together with wrong allocations that one edit each makes
of it: registers swapped in an instruction, a spill or reload of another slot, an instruction dropped or doubled, an
operand changed. `check` gets them all as one pair of files, so that it pairs too, and must answer what the model does;
of the unedited pair it must say yes. FORMS in the environment names other forms to ask in turn, with commas between
them. It prints the first differences and counts, and ends with 1 where there is a difference."""
import collections
import os
import random
import re
import subprocess
import sys
import tempfile

MODEL, PROGRAM, SEED, COUNT = sys.argv[1], os.path.abspath(sys.argv[2]), int(sys.argv[3]), int(sys.argv[4])
sys.path.insert(0, MODEL)
import llra_ref as L  # noqa: E402
from functions import made  # noqa: E402
from generators import MINI_TEXT  # noqa: E402
from llra_ref import cli  # noqa: E402
from llra_ref.faults import Stop  # noqa: E402

FILES = [open(name, "rb").read() for name in sys.argv[5:]]
FORMS = os.environ.get("FORMS", "alloc colour,alloc cut,alloc basic,trace cut,trace basic").split(",")
EDITS = 6
REGISTER = re.compile(rb"\$[\w.]+")


def write(name, content):
    with open(name, "wb") as out:
        out.write(content)


def run(folder, *words):
    done = subprocess.run([PROGRAM, *words], cwd=folder, capture_output=True, timeout=120)
    return done.returncode, done.stdout, done.stderr


def swapped(r, line, text):
    """Two registers of an instruction change places."""
    found = [m.span() for m in REGISTER.finditer(line)]
    pairs = [(a, b) for k, a in enumerate(found) for b in found[k + 1:] if line[slice(*a)] != line[slice(*b)]]
    if not pairs:
        return None
    a, b = r.choice(pairs)
    return [line[:a[0]] + line[slice(*b)] + line[a[1]:b[0]] + line[slice(*a)] + line[b[1]:]]


def other_slot(r, line, text):
    """A spill or reload names another slot of the function."""
    slots = sorted(set(re.findall(rb"%stack\.\d+", text)) - set(re.findall(rb"%stack\.\d+", line)))
    if not slots or b"%stack." not in line:
        return None
    return [re.sub(rb"%stack\.\d+", r.choice(slots), line, count=1)]


def dropped(r, line, text):
    return []


def doubled(r, line, text):
    return [line, line]


def other_operand(r, line, text):
    """A register becomes another one of the function, or a number another one."""
    spans = [m.span() for m in REGISTER.finditer(line)]
    numbers = [m.span() for m in re.finditer(rb"(?<= )-?\d+(?=,|$)", line)]
    if not spans + numbers:
        return None
    a, b = r.choice(spans + numbers)
    if (a, b) in numbers:
        return [line[:a] + b"%d" % (int(line[a:b]) + r.choice([-1, 1, 4])) + line[b:]]
    return [line[:a] + r.choice(sorted(set(REGISTER.findall(text)))) + line[b:]]


KINDS = [swapped, other_slot, dropped, doubled, other_operand]


def edits(r, target, text):
    """Wrong allocations that read: (what was done, text)."""
    lines = text.split(b"\n")
    begin = next((k for k, line in enumerate(lines) if line.startswith(b"body:")), len(lines))
    instrs = [k for k, line in enumerate(lines) if k > begin and line.startswith(b"    ")
              and not line.startswith((b"    liveins:", b"    successors:"))]
    for _ in range(EDITS if instrs else 0):
        kind, k = r.choice(KINDS), r.choice(instrs)
        new = kind(r, lines[k], text)
        if new is None or new == [lines[k]]:
            continue
        changed = b"\n".join(lines[:k] + new + lines[k + 1:])
        try:
            L.read_doc(target, True, 1, changed)
        except Stop:
            continue
        yield kind.__name__, changed


def functions(seed):
    """(sort of the target, target, its text or None, document)."""
    try:
        sort, text, data = made(seed, FILES)
        target = L.mini() if text is None else L.read_target(text)
        doc = L.read_doc(target, True, 1, data)
    except Stop:
        return
    if doc.kind == "function" and not doc.text:
        yield sort, target, text, data


def checked(seed, target, files, word, folder, counts):
    """What is wrong with `check` of an allocation and of others made from it."""
    r = random.Random(seed)
    wrong = list(edits(r, target, files["G"]))
    pairs = [("own", files["G"])] + wrong
    source, allocated = files["F"] * len(pairs), b"".join(text for _, text in pairs)
    for name, content in (("S", source), ("A", allocated)):
        write(os.path.join(folder, name), content)
    words = [b"check", word.encode(), b"S", b"A"]
    want = cli.top(words, cli.MemFiles({b"T": files["T"], b"S": source, b"A": allocated}))
    have = run(folder, *(w.decode() for w in words))
    for (kind, _), line in zip(pairs, have[1].split(b"\n")):
        counts["%s %s" % (kind, line.split(b" ")[0].decode())] += 1
    if have != want:
        return "check differs", want, have
    if not have[1].startswith(b"yes "):
        return "check says no to what was written", want, have
    return None


def main():
    counts, bad = collections.Counter(), 0
    for seed in range(SEED, SEED + COUNT):
        for sort, target, text, data in functions(seed):
            form, word = FORMS[seed % len(FORMS)], "-" if text is None else "T"
            files = {"T": text, "F": data}
            with tempfile.TemporaryDirectory() as folder:
                write(os.path.join(folder, "F"), data)
                if text is not None:
                    write(os.path.join(folder, "T"), text)
                words = form.split(" ") + [word, "F"]
                want = cli.top([w.encode() for w in words], cli.MemFiles({b"T": text, b"F": data}))
                have = run(folder, *words)
                wrong = None if have == want else ("%s differs" % form, want, have)
                if form.startswith("alloc") and have[0] == 0 and not wrong:
                    files["G"] = have[1]
                    wrong = checked(seed, target, files, word, folder, counts)
            counts[form if want[0] == 0 else "refused"] += 1
            if wrong:
                bad += 1
                if bad <= 5:
                    kept = tempfile.mkdtemp(prefix="forms-%d-" % seed)
                    for name, content in (("T", text or MINI_TEXT), ("F", data), ("G", files.get("G", b"")),
                                          ("want", wrong[1][1] + wrong[1][2]), ("got", wrong[2][1] + wrong[2][2])):
                        write(os.path.join(kept, name), content)
                    print("differs: seed %d, %s: %s; in %s" % (seed, sort, wrong[0], kept), flush=True)
    print("compared: %s; differences: %d" % (", ".join("%s %d" % x for x in sorted(counts.items())), bad))
    sys.exit(1 if bad or not counts else 0)


main()
