#!/usr/bin/env python3
"""Counts the instructions of `llra trace` and `llra alloc` over a folder of real functions, beside those of llc's own passes.

    bench/real.py MACHINE TARGET FOLDER [PRINTED]

FOLDER has a file NAME.mir for each function: its module in IR and the function in Machine IR, as llc prints them behind
instruction selection. TARGET is a target file of MACHINE. Where the functions of FOLDER were changed for TARGET, so that llc
doesn't know their opcodes, PRINTED is the folder that holds the same functions as llc printed them: llc reads those.

- A function counts that both take: `llra alloc` with status 0, and llc from detect-dead-lanes to virtregrewriter.
- All are put into one file for each program, so that it starts once. llra gets the functions without the modules; llc gets
  one module, in which symbols, types, attributes and metadata of each function have names of their own.
- Reading and printing are taken off. llc: what `-run-pass=none` counts on the same file. llra: what `run` counts that looks
  for a function which isn't there (it reads the target and all functions, and does nothing else), and of `alloc` also what
  the calls of the printer (`mir_text::print`) count in the same run.

It prints a row: the folder, the functions that were taken and those that were left out, the counts of `trace`, `alloc` and
llc in millions, and the ratios trace/llc and alloc/trace. It needs valgrind and Debian's llvm-19; `LLRA` names another executable.
"""
import os
import re
import shutil
import subprocess
import sys
import tempfile

HERE = os.path.dirname(os.path.abspath(__file__))
PRINTER = "mir_text::print"


def passes(machine):
    """The words of llc for the passes that `llra` stands for; RISC-V's registers are assigned in two runs."""
    last = "virtregrewriter" + (",1" if machine == "riscv64" else "")
    return ["llc-19", "-O2", "-start-before=detect-dead-lanes", "-stop-after=" + last, "-regalloc=greedy", "-enable-misched=0"]


def takes(*words):
    return subprocess.run(words, stdin=subprocess.DEVNULL, stdout=subprocess.DEVNULL, stderr=subprocess.DEVNULL).returncode == 0


def halves(path):
    """The module of a file and the function behind it, with the lines that begin and end them."""
    with open(path, encoding="utf-8") as it:
        text = it.read()
    cut = text.index("\n---\n", 1) + 1 if text.startswith("--- |") else 0
    return text[:cut], text[cut:]


def renamed(k, text):
    """A text in which what functions may have in common has the number of the function in its name."""
    text = re.sub(r"@(?!llvm\.)([\w.$]+)", r"@\1.f%d" % k, text)
    text = re.sub(r"%((?:struct|union)\.[\w.]+)", r"%%\1.f%d" % k, text)
    return re.sub(r"([!#])(\d+)\b", lambda it: "%s%d" % (it[1], 10000 * (k + 1) + int(it[2])), text)


def one_module(files):
    """The text of one module with all functions of the files: for llc."""
    head, declared, functions, seen = [], [], [], set()
    for k, path in enumerate(files):
        module, function = halves(path)
        for line in renamed(k, module).split("\n")[1:]:
            words = line.split()
            intrinsic = re.match(r"  declare .*(@llvm\.[\w.]+)\(", line)
            if line == "..." or not words or words[0] == ";":
                continue
            if words[0] in ("source_filename", "target") or words[0].startswith("!llvm."):
                head += [line] * (k == 0)
            elif not intrinsic or intrinsic[1] not in seen:
                declared.append(line)
                seen.update(intrinsic.groups() if intrinsic else ())
        functions.append(re.sub(r"^(name: *)(\S+)$", r"\1\2.f%d" % k, renamed(k, function), count=1, flags=re.M))
    return "\n".join(["--- |", *head, *declared, "...", ""]) + "".join(functions)


def counted(work, status, *words):
    """The instructions that a run counts, and how many of them the calls of the printer from elsewhere count."""
    out = work + "/calls"
    done = subprocess.run(["valgrind", "--tool=callgrind", "--callgrind-out-file=" + out, *words], stdin=subprocess.DEVNULL,
                          stdout=subprocess.DEVNULL, stderr=subprocess.PIPE, text=True)
    if done.returncode != status:
        sys.exit("real.py: %s: status %d\n%s" % (" ".join(words), done.returncode, done.stderr))
    names, caller, callee, called, printing = {}, "", "", False, 0
    with open(out, encoding="utf-8") as it:
        for line in it:
            named = re.match(r"(c?fn)=\((\d+)\)(?: (.*))?$", line)
            if named:
                name = names.setdefault(named[2], named[3] or "")
                caller, callee = (name, callee) if named[1] == "fn" else (caller, name)
            elif called and callee.startswith(PRINTER) and not caller.startswith(PRINTER):
                printing += int(line.split()[-1])
            called = line.startswith("calls=")
    return int(re.search(r"Collected : (\d+)", done.stderr)[1]), printing


def main(machine, target, folder, printed):
    for word in ("valgrind", "llc-19"):
        if not shutil.which(word):
            sys.exit("real.py: %s isn't installed" % word)
    llra = os.environ.get("LLRA") or subprocess.run([HERE + "/../llra"], env={**os.environ, "LLRA_WHERE": "1"}, stdout=subprocess.PIPE, check=True).stdout.decode().strip()
    names = sorted(it for it in os.listdir(folder) if it.endswith(".mir"))
    taken = [it for it in names if takes(llra, "alloc", target, "%s/%s" % (folder, it))
             and takes(*passes(machine), "%s/%s" % (printed, it), "-o", os.devnull)]
    if not taken:
        sys.exit("real.py: llra and llc both take none of %d functions" % len(names))
    with tempfile.TemporaryDirectory() as work:
        ours, theirs = work + "/ours.mir", work + "/theirs.mir"
        with open(ours, "w", encoding="utf-8") as it:
            it.write("".join(halves("%s/%s" % (folder, name))[1] for name in taken))
        with open(theirs, "w", encoding="utf-8") as it:
            it.write(one_module(["%s/%s" % (printed, name) for name in taken]))
        reading, _ = counted(work, 2, llra, "run", target, ours, "no such function", "0", "0")
        trace, _ = counted(work, 0, llra, "trace", target, ours)
        alloc, printing = counted(work, 0, llra, "alloc", target, ours)
        around, _ = counted(work, 0, "llc-19", "-run-pass=none", theirs, "-o", os.devnull)
        whole, _ = counted(work, 0, *passes(machine), theirs, "-o", os.devnull)
    trace, alloc, llc = trace - reading, alloc - reading - printing, whole - around
    if not printing:
        print("real.py: the executable names no function of %s: printing stays in what alloc counts" % PRINTER, file=sys.stderr)
    print("%-40s %9s %8s %10s %10s %10s %9s %11s" % ("folder", "functions", "left out", "trace", "alloc", "llc", "trace/llc", "alloc/trace"))
    print("%-40s %9d %8d %10.1f %10.1f %10.1f %9.2f %11.2f" % (folder[-40:], len(taken), len(names) - len(taken), trace / 1e6, alloc / 1e6, llc / 1e6, trace / llc, alloc / trace))


if __name__ == "__main__":
    if len(sys.argv) not in (4, 5):
        sys.exit(__doc__)
    main(*sys.argv[1:4], sys.argv[-1])
