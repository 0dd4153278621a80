#!/usr/bin/env python3
"""Compares the program with a reference model, run by run.

Run: compare_commands.py [--without COMMAND,..] PROGRAM CASES..

Each of CASES is a folder of case folders as the model's `gen_cases.py OUT SEED COUNT --kind KIND` makes them: a file
`words` with one word a line, the files that these name, and what the model answers: `stdout`, `stderr`, `status`.
PROGRAM is run in each case folder; its output, its line and its status must be the model's. It prints the first
differences, how many runs of each command there were with which status, and ends with 1 where there is a
difference. Runs of the commands behind `--without` are passed over: commands of the model that the program hasn't,
as `check` or `alloc cut`."""
import collections
import os
import subprocess
import sys


def read(folder, name):
    with open(os.path.join(folder, name), "rb") as f:
        return f.read()


def command_of(words):
    """The command's words, before those of a target and files."""
    two = words[:1] in ([b"verify"], [b"alloc"], [b"trace"]) and len(words) > 3
    return b" ".join(words[:2] if two else words[:1]).decode(errors="replace")


def main(program, parents, without=()):
    program = os.path.abspath(program)
    seen, wrong, passed_over = collections.Counter(), [], 0
    for parent in parents:
        for name in sorted(os.listdir(parent)):
            folder = os.path.join(parent, name)
            words = read(folder, "words").split(b"\n")
            words = words[:-1] if words and not words[-1] else words
            command = command_of(words)
            if command in without:
                passed_over += 1
                continue
            stdin = open(os.path.join(folder, "stdin"), "rb") if os.path.exists(os.path.join(folder, "stdin")) else subprocess.DEVNULL
            try:
                run = subprocess.run([os.fsencode(program), *words], cwd=folder, stdin=stdin, capture_output=True, timeout=60)
                got = (run.stdout, run.stderr, run.returncode)
            except subprocess.TimeoutExpired:
                got = (b"", b"no end in a minute", -1)
            want = (read(folder, "stdout"), read(folder, "stderr"), int(read(folder, "status")))
            seen[(command[:20], want[2])] += 1
            if got != want:
                wrong.append(folder)
                if len(wrong) <= 10:
                    print(f"differs: {folder}: {b' '.join(words)!r}: status {got[2]}, the model's {want[2]}; "
                          f"line {got[1]!r}, the model's {want[1]!r}")
    for (command, status), n in sorted(seen.items()):
        print(f"{command or '(no word)'}: status {status}: {n}")
    print(f"{sum(seen.values())} runs, {len(wrong)} differences; {passed_over} passed over")
    return 1 if wrong or not seen else 0


if __name__ == "__main__":
    rest, left_out = sys.argv[1:], ()
    if rest[:1] == ["--without"]:
        rest, left_out = rest[2:], rest[1].split(",")
    sys.exit(main(rest[0], rest[1:], left_out))
