#!/usr/bin/env python3
r"""Runs the tables of tests/tables over the built programs, several runs at a time; the last line counts what passed.

    tests/tables.py          the environment variables LLRA and BENCH_PROGRAMS may name the executables; else ./llra says
                             which they are

A table holds cases, each with the files that it needs and what the program must give:

    text RET:                a name for a text, whose lines stand below it
    | ---
    | name: f

    run: alloc - IN          the words of a run (`''` is an empty one), made in a folder that holds the files of its case
                             alone, with no standard input; several such lines share what follows them
    bench: --texts - IN A    the same, of a run of bench_programs, which asks parts of the program alone
    IN: RET RET              a file, made of texts that have names, ..
    | # end                  .. and of lines
    stdout: RET              what must be written, made likewise; nothing where this is left out
    refused 1: IN:7: end     the status, and the line on standard error behind `llra: `; where this is left out, the
                             status is 0 and there is no line

    run: alloc T -           one case for each of many lines:
    T:
    | target t 1
    | <line>                 where the line goes
    lines:
    rule   | index i 16      the kind of the fault of this line (`end`: the line stands, and the fault of the file is
                             behind its last line); `ok` where the file is printed as it is (of a target: read), or
    OP 1   | OP  1           the line that is printed in its place

In a text a line begins with `| ` (`|` alone is an empty one). `512| unit u{k} 8` is 512 lines: {k} counts them from
0, and {2k+1} is twice that and one. Behind a named text `- LINE` takes away the line, which stands in it once, and
`+ LINE` puts a line in its place. `\t` is a tab, `\xff` a byte, `\\` a backslash; a line that ends with `\` has no
newline. Empty lines, and those that begin with `#`, say nothing."""
import concurrent.futures
import dataclasses
import difflib
import glob
import os
import re
import shlex
import subprocess
import sys
import tempfile

ROOT = os.path.dirname(os.path.dirname(os.path.realpath(__file__)))
SECONDS = 60  # that a run may take
HEAD = re.compile(r"(text [A-Z_0-9]+|run|bench|lines|stdout|refused \d+|[A-Z]+):(?: (.*))?$")
TEXT_LINE = re.compile(r"(\d*)\|(?: (.*))?$")
ROW = re.compile(r"(\S.*?) *\| (.*)$")
FAULTS = ("layout", "token", "name", "rule", "end")
HOLE = b"<line>"
PROGRAMS = {"run": "llra", "bench": "bench_programs"}


class Fault(Exception):
    """What is wrong with a table."""


@dataclasses.dataclass
class Item:
    """A line of a table that begins with a key, and the lines below it, each with its place."""
    place: str
    key: str
    value: str
    below: list = dataclasses.field(default_factory=list)


@dataclasses.dataclass
class Entry:
    """Runs that share files and what they must give."""
    runs: list = dataclasses.field(default_factory=list)  # place, program and words
    files: dict = dataclasses.field(default_factory=dict)  # the lines of each
    stdout: bytes = b""
    status: int = 0
    stderr: bytes = b""
    rows: list = dataclasses.field(default_factory=list)  # place, what is wanted, and the line
    keys: set = dataclasses.field(default_factory=set)  # that were entered


@dataclasses.dataclass
class Case:
    """One run: its program, its words, its files, and the status, output and line on standard error that it must give."""
    name: str
    program: str
    words: list
    files: dict
    wanted: tuple


# -- the texts of a table

def byte_of(escape):
    """What stands for an escape; a newline that a backslash stands before is dropped."""
    code = escape[1]
    if re.fullmatch("x[0-9a-f]{2}", code):
        return chr(int(code[1:], 16))
    if code not in ("\\", "t", "\n"):
        raise Fault(f"no escape: \\{code}")
    return {"\\": "\\", "t": "\t", "\n": ""}[code]


def bytes_of(text):
    return re.sub(r"\\(x..|.|\n)", byte_of, text).encode("latin-1")


def repeated(count, line):
    """A line so many times, in which {k} and the like are numbers."""
    for k in range(count):
        yield re.sub(r"\{(\d*)k(?:\+(\d+))?\}", lambda it: str(int(it[1] or 1) * k + int(it[2] or 0)), line)


def put_below(lines, below):
    """Puts the lines below a key behind these lines of a text, or takes them away; all with their newlines."""
    at = None
    for _, line in below:
        plain, changed = TEXT_LINE.match(line), bytes_of(line[2:] + "\n")
        if plain:
            text = (plain[2] or "") + "\n"
            lines += map(bytes_of, repeated(int(plain[1]), text) if plain[1] else [text])
        elif line.startswith("- ") and lines.count(changed) == 1:
            at = lines.index(changed)
            del lines[at]
        elif line.startswith("+ ") and at is not None:
            lines.insert(at, changed)
            at += 1
        else:
            raise Fault(f"no line of a text: {line}")
    return lines


def text_of(item, texts):
    """The lines of the text that an item spells."""
    lines = []
    for name in item.value.split():
        if name not in texts:
            raise Fault(f"no text {name}")
        lines += texts[name]
    return put_below(lines, item.below)


# -- the entries of a table

def items(path):
    found = []
    with open(os.path.join(ROOT, path), encoding="utf-8") as file:
        for number, line in enumerate(file.read().split("\n"), 1):
            place, head = f"{path}:{number}", HEAD.match(line)
            if head:
                found.append(Item(place, head[1], head[2] or ""))
            elif line and not line.startswith("#"):
                if not found:
                    raise Fault(f"{place}: no key stands before it")
                found[-1].below.append((place, line))
    return found


def rows(item):
    """Place, what is wanted, and line of each row."""
    if not item.below:
        raise Fault("no row")
    for place, line in item.below:
        row = ROW.match(line)
        if not row:
            raise Fault(f"no row: {line}")
        yield place, row[1], bytes_of(row[2])


def enter(entry, item, texts):
    """Enters into an entry what an item says of it."""
    if item.key in entry.keys and item.key not in PROGRAMS:
        raise Fault("the key stands twice")
    entry.keys.add(item.key)
    if item.below and item.key.startswith((*PROGRAMS, "refused")):
        raise Fault("lines stand below it")
    if item.key in PROGRAMS:
        entry.runs.append((item.place, PROGRAMS[item.key], shlex.split(item.value)))
    elif item.key == "lines":
        entry.rows += rows(item)
    elif item.key == "stdout":
        entry.stdout = b"".join(text_of(item, texts))
    elif item.key.startswith("refused"):
        entry.status, entry.stderr = int(item.key[8:]), f"llra: {item.value}\n".encode()
    else:
        entry.files[item.key] = text_of(item, texts)


def entries(path):
    """The entries of a table; the first run behind another key begins one."""
    texts, found, last = {}, [], ""
    for item in items(path):
        if item.key in PROGRAMS and last not in PROGRAMS:
            found.append(Entry())
        last = item.key
        try:
            if item.key.startswith("text "):
                texts[item.key[5:]] = text_of(item, texts)
            elif not found:
                raise Fault("no run stands before it")
            else:
                enter(found[-1], item, texts)
        except (Fault, ValueError) as fault:
            raise Fault(f"{item.place}: {fault}") from None
    return found


# -- the cases of an entry

def hole(entry):
    """The file that has the line for rows, and the line's place in it."""
    for name, lines in entry.files.items():
        for at, line in enumerate(lines):
            if HOLE in line:
                return name, at
    raise Fault(f"{entry.runs[0][0]}: no file has <line>")


def with_line(lines, at, line):
    return lines[:at] + [lines[at].replace(HOLE, line)] + lines[at + 1:]


def row_case(entry, program, words, row):
    place, wanted, line = row
    name, at = hole(entry)
    lines = with_line(entry.files[name], at, line)
    if wanted in FAULTS:
        number = len(lines) + 1 if wanted == "end" else at + 1
        kind = "target " + wanted if name == "T" else wanted
        outcome = (1, b"", f"llra: {name}:{number}: {kind}\n".encode())
    elif name == "T":
        outcome = (0, b"", b"")
    else:
        printed = lines if wanted == "ok" else with_line(entry.files[name], at, bytes_of(wanted))
        outcome = (0, b"".join(printed), b"")
    return Case(place, program, words, {**entry.files, name: lines}, outcome)


def cases(path):
    """The cases of a table."""
    for entry in entries(path):
        outcome = (entry.status, entry.stdout, entry.stderr)
        for place, *run in entry.runs:
            made = [row_case(entry, *run, row) for row in entry.rows] or [Case(place, *run, entry.files, outcome)]
            for case in made:
                yield dataclasses.replace(case, files={name: b"".join(it) for name, it in case.files.items()})


def all_cases():
    paths = sorted(glob.glob("tests/tables/*.txt", root_dir=ROOT))
    found = [case for path in paths for case in cases(path)]
    if not found:
        raise Fault("no case in tests/tables")
    return found


# -- running them

def difference(wanted, given):
    lines = [data.decode("ascii", "backslashreplace").splitlines() for data in (wanted, given)]
    return list(difflib.unified_diff(*lines, "wanted", "given", lineterm="", n=2))[:20]


def problem(executables, case, work):
    """What is wrong with what the program gives, as one text; empty where it gives what is wanted."""
    with tempfile.TemporaryDirectory(dir=work) as folder:
        for name, held in case.files.items():
            with open(os.path.join(folder, name), "wb") as file:
                file.write(held)
        try:
            done = subprocess.run([executables[case.program], *case.words], stdin=subprocess.DEVNULL, stdout=subprocess.PIPE,
                                  stderr=subprocess.PIPE, cwd=folder, timeout=SECONDS)
        except subprocess.TimeoutExpired:
            return f"failed: {case.name}: no end after {SECONDS} s"
    given = (done.returncode, done.stdout, done.stderr)
    if given == case.wanted:
        return ""
    lines = [f"failed: {case.name}: status {given[0]}, wanted {case.wanted[0]}"]
    for wanted, seen in zip(case.wanted[1:], given[1:]):
        if wanted != seen:
            lines += difference(wanted, seen) or ["(they differ in the end of the last line)"]
    return "\n".join(lines)


def executable(program):
    """The path of a program, which is built first where it isn't."""
    if os.environ.get(program.upper()):
        return os.path.abspath(os.environ[program.upper()])
    asked = {**os.environ, "LLRA_WHERE": "1", "LLRA_CRATE": program}
    done = subprocess.run([os.path.join(ROOT, "llra")], env=asked, stdout=subprocess.PIPE)
    if done.returncode:
        sys.exit(1)
    return done.stdout.decode().rstrip("\n")


def executables(found):
    """The path of each program that cases ask."""
    return {it: executable(it) for it in sorted({case.program for case in found})}


def main():
    found = all_cases()
    built = executables(found)
    with tempfile.TemporaryDirectory() as work, concurrent.futures.ThreadPoolExecutor(os.cpu_count()) as pool:
        problems = [it for it in pool.map(lambda case: problem(built, case, work), found) if it]
    for it in problems:
        print(it)
    print(f"{len(found) - len(problems)} passed, {len(problems)} failed")
    return 1 if problems else 0


if __name__ == "__main__":
    try:
        sys.exit(main())
    except Fault as fault:
        sys.exit(f"tests/tables.py: {fault}")
