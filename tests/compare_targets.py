"""Compares `read_target` with the reference model's reader over mutated target files, half of them with opaque opcodes.

Run: tests/compare_targets.py [COUNT [SEED]], with LLRA_ORACLE naming the folder of the reference model (../shared/oracle
beside this repository without it). It builds the program crate bench_programs once by the root script `llra`.
Each target is read by both; the word `ok`, or the line and the kind of the fault, must be equal."""
import os
import random
import subprocess
import sys
import tempfile

ROOT = os.path.dirname(os.path.dirname(os.path.abspath(__file__)))
ORACLE = os.environ.get("LLRA_ORACLE", os.path.join(ROOT, "..", "shared", "oracle"))
sys.path.insert(0, ORACLE)
sys.dont_write_bytecode = True

import llra_ref as L  # noqa: E402
from llra_ref.faults import TargetFault  # noqa: E402
from fuzz_opaque import make_target  # noqa: E402
from generators import MINI_TEXT, MINI2_TEXT, OTHER, mutated_target, odd_target  # noqa: E402

WORDS = [b"target", b"unit", b"reg", b"reserved", b"index", b"class", b"mask", b"op", b"1", b"2", b"3", b"0", b"007", b"128",
         b"129", b"256", b"16", b"15", b"31", b"32", b"99999999999999999999999", b"-1", b"x", b"COPY", b"Xop", b"def:gr32",
         b"early:gr8", b"use:gr32", b"tied:gr32", b"tied:gr8", b"addr:gr32", b"impdef:eflags", b"impuse:eflags", b"impdef:eax",
         b"def:", b":gr32", b"def:gr32:", b"imm:", b"imm", b"target", b"slot", b"lanes", b"sym", b"frame", b"mask", b"any", b"rest",
         b"load/1", b"load/3", b"load", b"store/16", b"cmp", b"jcc", b"zext", b"madd", b"spill", b"\t", b"a\tb", b"#", b"_a", b"a_1"]
OPAQUE_WORDS = [b"opaque", b"opaque/branch", b"opaque/call", b"opaque/ret", b"opaque/", b"opaque/jump", b"form", b"flags", b"offset",
                b"pool", b"noreg", b"open", b"wide", b"hi", b"lo-2", b"x_1", b"-a", b"Hi", b"a.b", b"val", b"val:gr32", b"val:eax",
                b"val:", b"tied/0:gr32", b"tied/1:gr32", b"tied/01:gr32", b"tied/1:low", b"tied/255:gr32", b"tied/256:gr32",
                b"tied/99999999999:gr32", b"tied/:gr32", b"tied/1", b"tied/-1:gr32", b"tied/1/1:gr32", b"use/1:gr32", b"tied/0:nope"]
CLASSES = [b"gr32", b"low", b"gr8", b"grp"]
OPERANDS = [b"use:gr32", b"val", b"val:gr32", b"addr:gr32", b"imm", b"sym", b"frame"]
KINDS = [b"opaque", b"opaque", b"opaque", b"opaque/branch", b"opaque/call", b"opaque/ret"]


def tied_role(r, defined):
    """A role that is mostly tied to a definition that is there, by a class that mostly holds it."""
    n = r.randrange(len(defined) + (r.random() < 0.1)) if defined else 0
    k = defined[n] if n < len(defined) and r.random() < 0.7 else r.choice(CLASSES)
    return b"tied:" + k if n == 0 and r.random() < 0.6 else b"tied/%d:%s" % (n, k)


def opaque_line(r, number):
    """An opcode of an opaque effect, mostly one that keeps the rules."""
    kind = r.choice(KINDS)
    defined = [r.choice(CLASSES) for _ in range(r.randrange(4))] if kind == b"opaque" or r.random() < 0.05 else []
    roles = [r.choice(OPERANDS) for _ in range(r.randrange(4))] + [tied_role(r, defined) for _ in range(r.choice([0, 0, 1, 1, 2]))]
    if r.random() < 0.95:
        roles += {b"opaque/branch": [b"target"], b"opaque/call": [b"mask"], b"opaque/ret": r.choice([[], [b"mask"]])}.get(kind, [])
    r.shuffle(roles)
    roles = [r.choice([b"def:", b"early:"]) + k for k in defined] + roles + r.choice([[]] * 3 + [[b"any"], [b"rest"]])
    roles += [r.choice([b"impdef:eflags", b"impuse:eax", b"impdef:sp"]) for _ in range(r.choice([0, 0, 1, 2]))]
    if roles and r.random() < 0.15:
        roles[r.randrange(len(roles))] = r.choice(OPERANDS + OPAQUE_WORDS + WORDS)
    return b" ".join([b"op", b"N%d" % number, kind] + roles)


def opaque_target(r):
    """A target of opaque opcodes, to some of which further ones are put, and lines of what is opted in."""
    lines = make_target(r)[0].encode().split(b"\n")
    lines[-1:-1] = [opaque_line(r, k) for k in range(r.choice([0, 1, 1, 2]))]
    if r.random() < 0.3:
        words = [r.choice([b"offset", b"pool", b"noreg", b"open", b"hi", b"lo-2", b"x_1"]) for _ in range(r.randrange(4))]
        lines.insert(r.randrange(len(lines)), b" ".join([r.choice([b"form", b"flags"])] + words))
    return b"\n".join(lines)


def mutated(base, r):
    """A target with lines moved, or words put in, taken out or replaced, or bytes changed."""
    if r.random() < 0.5:
        return mutated_target(base, r)
    lines = base.split(b"\n")
    known = WORDS + OPAQUE_WORDS if r.random() < 0.5 else WORDS
    for _ in range(r.randrange(1, 4)):
        a = r.randrange(len(lines))
        words = lines[a].split(b" ")
        k = r.randrange(len(words))
        how = r.random()
        if how < 0.35:
            words[k] = r.choice(known)
        elif how < 0.6:
            words.insert(k, r.choice(known + [b"", b""]))
        elif how < 0.7:
            del words[k]
        elif how < 0.8:
            words[k] = words[k][: r.randrange(len(words[k]) + 1)] + bytes([r.randrange(256)])
        elif how < 0.9:
            words = r.choice(lines).split(b" ")
        else:
            words = [r.choice(known) for _ in range(r.randrange(5))]
        lines[a] = b" ".join(words)
    text = b"\n".join(lines)
    return text[:-1] if r.random() < 0.1 else text


def made(seed):
    """Target number `seed`."""
    r = random.Random("target %d" % seed)
    if r.random() < 0.5:
        base = opaque_target(r)
        return base if r.random() < 0.5 else mutated(base, r)
    base = r.choice([MINI_TEXT, MINI2_TEXT, OTHER, odd_target(seed)])
    return base if r.random() < 0.05 else mutated(base, r)


def expected(data):
    """What the reference model reads."""
    try:
        L.read_target(data)
        return "ok"
    except TargetFault as fault:
        return "%d %s" % (fault.line, fault.kind)


def main():
    count = int(sys.argv[1]) if len(sys.argv) > 1 else 2000
    seed = int(sys.argv[2]) if len(sys.argv) > 2 else 1
    env = dict(os.environ, LLRA_CRATE="bench_programs")
    program = subprocess.run([os.path.join(ROOT, "llra")], env=dict(env, LLRA_WHERE="1"), check=True,
                             capture_output=True, text=True).stdout.strip()
    texts = [made(k) for k in range(seed, seed + count)]
    wrong = 0
    kinds = {}
    with tempfile.TemporaryDirectory() as folder:
        paths = []
        for k, data in enumerate(texts):
            paths.append(os.path.join(folder, "%d.target" % (seed + k)))
            with open(paths[-1], "wb") as f:
                f.write(data)
        answers = []
        for k in range(0, count, 500):
            done = subprocess.run([program, "--targets"] + paths[k:k + 500], check=True, capture_output=True, text=True)
            answers += done.stdout.split("\n")[:-1]
        for k, (data, answer) in enumerate(zip(texts, answers, strict=True)):
            want = expected(data)
            kinds[want.split()[-1]] = kinds.get(want.split()[-1], 0) + 1
            if answer != want:
                wrong += 1
                print("target %d: %s, and the model says %s" % (seed + k, answer, want))
    print("targets by kind:", ", ".join("%s: %d" % x for x in sorted(kinds.items())))
    print("%d targets, %d differ" % (count, wrong))
    return 1 if wrong else 0


if __name__ == "__main__":
    sys.exit(main())
