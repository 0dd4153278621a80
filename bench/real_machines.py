#!/usr/bin/env python3
"""Runs what `llra` allocated of real functions beside llc's own code of the same functions.

    bench/real_machines.py MACHINE TARGET FOLDER [NAME..]

MACHINE is riscv64, loongarch64, aarch64 or x86_64, TARGET a target file of it, and FOLDER has a file NAME.mir for each
function, as `llc -stop-after=finalize-isel` prints it: its module in IR and the function NAME in Machine IR. Each is

- allocated by `llra alloc`, given the machine's own spill opcodes (spill_names.py), and taken by
  `llc -start-after=virtregrewriter -verify-machineinstrs` to assembly;
- compiled from its IR by llc alone;
- linked twice with one small program that calls it, and run five times each under qemu-user (x86_64: natively), with
  other numbers and other bytes behind its pointers each time. What it returned and what stands in memory is printed.

It prints a line for each function that isn't taken, isn't taken back or differs, and then how many there were. A function
that names symbols which its module doesn't define isn't linked. One that gives no result in either program (inputs are
wild: a list whose links are any bytes) says nothing. It needs Debian's llvm-19, clang-19, lld-19 and qemu-user.
"""
import os
import re
import subprocess
import sys
import tempfile

from spill_names import ready

HERE = os.path.dirname(os.path.abspath(__file__))
CLANG = {
    "riscv64": ["--target=riscv64-unknown-linux-gnu", "-march=rv64im", "-mabi=lp64", "-mcmodel=medany"],
    "loongarch64": ["--target=loongarch64-unknown-linux-gnu", "-mabi=lp64s"],
    "aarch64": ["--target=aarch64-unknown-linux-gnu"],
    "x86_64": ["--target=x86_64-unknown-linux-gnu"],
}
QEMU = {"riscv64": ["qemu-riscv64"], "loongarch64": ["qemu-loongarch64"], "aarch64": ["qemu-aarch64"], "x86_64": []}
SYSTEM = {
    "riscv64": ('register long n __asm__("a7") = number; register long x __asm__("a0") = a; register long y __asm__("a1") = b;'
                ' register long z __asm__("a2") = c; __asm__ volatile("ecall" : "+r"(x) : "r"(n), "r"(y), "r"(z) : "memory"); return x;',
                63, 64, 93),
    "loongarch64": ('register long n __asm__("$a7") = number; register long x __asm__("$a0") = a; register long y __asm__("$a1") = b;'
                    ' register long z __asm__("$a2") = c; __asm__ volatile("syscall 0" : "+r"(x) : "r"(n), "r"(y), "r"(z)'
                    ' : "memory", "$t0", "$t1", "$t2", "$t3", "$t4", "$t5", "$t6", "$t7", "$t8"); return x;', 63, 64, 93),
    "aarch64": ('register long n __asm__("x8") = number; register long x __asm__("x0") = a; register long y __asm__("x1") = b;'
                ' register long z __asm__("x2") = c; __asm__ volatile("svc 0" : "+r"(x) : "r"(n), "r"(y), "r"(z) : "memory"); return x;',
                63, 64, 93),
    "x86_64": ('long x = number; __asm__ volatile("syscall" : "+a"(x) : "D"(a), "S"(b), "d"(c) : "rcx", "r11", "memory"); return x;',
               0, 1, 60),
}
PROGRAM = """
typedef unsigned long word;
static unsigned char bytes[8][4096] __attribute__((aligned(64), section(".bytes")));
static long system_call(long number, long a, long b, long c) { %(system)s }
%(declared)s
static void show(word value) {
    char text[17];
    for (int k = 0; k < 16; k++) text[k] = "0123456789abcdef"[value >> (60 - 4 * k) & 15];
    text[16] = '\\n';
    system_call(%(write)d, 1, (long)text, 17);
}
__attribute__((used)) void start_here(void) {
    char set = '0';
    system_call(%(read)d, 0, (long)&set, 1);
    word k = set - '0', seed = 1 + k;
    for (int i = 0; i < 8; i++)
        for (int j = 0; j < 4096; j++) {
            seed = seed * 6364136223846793005ul + 1442695040888963407ul;
            bytes[i][j] = k == 0 ? 0 : k == 1 ? (j & 63 ? 'a' + (seed >> 60) : 0) : k == 2 ? j & 7 ? 0 : 1 + (seed >> 62) : k == 3 ? seed >> 61 : seed >> 56;
        }
    word result = 0;
    %(called)s;
    show(result);
    word sum = 14695981039346656037ul;
    for (int i = 0; i < 8; i++)
        for (int j = 0; j < 4096; j++) sum = (sum ^ bytes[i][j]) * 1099511628211ul;
    show(sum);
    system_call(%(exit)d, 0, 0, 0);
}
%(entry)s
"""
LATE = "late"
ENTRY = {
    "riscv64": '__asm__(".globl _start\\n_start:\\n andi sp, sp, -16\\n call start_here\\n");',
    "loongarch64": '__asm__(".globl _start\\n_start:\\n bl start_here\\n");',
    "aarch64": '__asm__(".globl _start\\n_start:\\n bl start_here\\n");',
    "x86_64": '__asm__(".globl _start\\n_start:\\n and $-16, %rsp\\n call start_here\\n");',
}


def split(text):
    """The module in IR, by itself."""
    found = re.match(r"--- \|\n(.*?)\n\.\.\.\n", text, re.S)
    return "\n".join(line[2:] if line.startswith("  ") else line for line in found[1].split("\n")) + "\n"


def signature(module, name):
    """The words of a function's result, and those of each parameter; None where it isn't to be called."""
    found = re.search(r"^define ([^@]*)@%s\((.*?)\)[^()]*\{$" % re.escape(name), module, re.M)
    if not found or "..." in found[2]:
        return None
    depth, parts, part = 0, [], ""
    for letter in found[2]:
        depth += letter in "(<{" and 1 or letter in ")>}" and -1 or 0
        if letter == "," and not depth:
            parts.append(part)
            part = ""
        else:
            part += letter
    return found[1].split(), [it.split() for it in parts + [part] if it.strip()]


def type_of(words):
    """The type in C of what these words of IR declare."""
    for word in words:
        if word == "ptr":
            return "void *"
        if word == "void":
            return "void"
        if word in ("i1", "i8", "i16", "i32", "i64"):
            size = {"i1": "char", "i8": "char", "i16": "short", "i32": "int", "i64": "long"}[word]
            return ("signed " if "signext" in words else "unsigned ") + size
    return None


def program(machine, name, module):
    """A program that calls the function; None where none can be written."""
    found = signature(module, name)
    if found is None:
        return None
    result, parts = type_of(found[0]), [type_of(it) for it in found[1]]
    if result is None or None in parts:
        return None
    words, pointers = [], 0
    for k, part in enumerate(parts):
        if part == "void *":
            words.append("bytes[%d] + 64" % (pointers % 8))
            pointers += 1
        else:
            words.append("(%s)(k == 4 ? seed >> %d : %d + k * %d)" % (part, 7 * k, 3 + 2 * k, 5 + k))
    call = "%s(%s)" % (name, ", ".join(words))
    code, read, write, leave = SYSTEM[machine]
    return PROGRAM % {
        "system": code, "read": read, "write": write, "exit": leave, "entry": ENTRY[machine],
        "declared": "extern %s %s(%s);" % (result, name, ", ".join(parts) or "void"),
        "called": call if result == "void" else "result = (word)" + call,
    }


def did(*words, **more):
    return subprocess.run(words, stdout=subprocess.PIPE, stderr=subprocess.PIPE, stdin=subprocess.DEVNULL, **more)


def results(machine, executable):
    """What five runs print; None for one that ends without, LATE for one that doesn't end in five seconds."""
    told = []
    for k in range(5):
        try:
            run = subprocess.run([*QEMU[machine], executable], input=b"%d" % k, stdout=subprocess.PIPE, stderr=subprocess.DEVNULL, timeout=5)
            told.append(run.stdout if run.returncode == 0 else None)
        except subprocess.TimeoutExpired:
            told.append(LATE)
    return told


def linked(machine, at, assembly, main):
    """Links a program; its memory lies at one address in both, since what is stored or returned may be one."""
    words = CLANG[machine]
    return (did("clang-19", *words, "-c", assembly, "-o", at + ".o").returncode == 0
            and did("ld.lld-19", "-static", "--section-start=.bytes=0x40000000", at + ".o", main, "-o", at).returncode == 0)


def compared(machine, target, path, name, work, llra):
    """What came of one function."""
    with open(path, encoding="utf-8") as it:
        text = it.read()
    module = split(text)
    done = did(llra, "alloc", target, path)
    if done.returncode:
        return "refused", done.stderr.decode().strip()
    out, own, ours = work + "/out.mir", work + "/own.s", work + "/ours.s"
    with open(out, "w", encoding="utf-8") as it:
        it.write(ready(machine, done.stdout.decode()))
    after = "-start-after=virtregrewriter" + (",1" if machine == "riscv64" else "")
    back = did("llc-19", "-O2", after, "-verify-machineinstrs", out, "-o", ours)
    if back.returncode:
        return "not taken back", (back.stderr.decode().strip().split("\n") or [""])[0]
    with open(work + "/own.ll", "w", encoding="utf-8") as it:
        it.write(module)
    main = program(machine, name, module)
    if main is None or did("llc-19", "-O2", work + "/own.ll", "-o", own).returncode:
        return "not called", ""
    with open(work + "/main.c", "w", encoding="utf-8") as it:
        it.write(main)
    if did("clang-19", *CLANG[machine], "-O1", "-fno-builtin", "-ffreestanding", "-fno-stack-protector", "-c", work + "/main.c", "-o", work + "/main.o").returncode:
        return "not called", ""
    if not linked(machine, work + "/own", own, work + "/main.o") or not linked(machine, work + "/ours", ours, work + "/main.o"):
        return "not linked", ""
    both = list(zip(results(machine, work + "/own"), results(machine, work + "/ours")))
    other = [k for k, (first, second) in enumerate(both) if first != second and LATE not in (first, second)]
    if other:
        return "differs", str(other)
    return ("equal" if any(first == second and first not in (None, LATE) for first, second in both) else "no result"), ""


def main(machine, target, folder, names):
    llra = os.environ.get("LLRA") or subprocess.run([HERE + "/../llra"], env={**os.environ, "LLRA_WHERE": "1"}, stdout=subprocess.PIPE, check=True).stdout.decode().strip()
    counts = {}
    with tempfile.TemporaryDirectory() as work:
        for name in names or sorted(it[:-4] for it in os.listdir(folder) if it.endswith(".mir")):
            what, more = compared(machine, target, "%s/%s.mir" % (folder, name), name, work, llra)
            counts[what] = counts.get(what, 0) + 1
            if what in ("refused", "not taken back", "differs"):
                print("%s: %s %s" % (name, what, more), flush=True)
    print("%s: %s" % (machine, ", ".join("%s %d" % it for it in sorted(counts.items()))))


if __name__ == "__main__":
    if len(sys.argv) < 4 or sys.argv[1] not in CLANG:
        sys.exit(__doc__)
    main(sys.argv[1], sys.argv[2], sys.argv[3], sys.argv[4:])
