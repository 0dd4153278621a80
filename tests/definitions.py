#!/usr/bin/env python3
"""Compares the tables of docs/DEFINITIONS.md with the definitions in the specs that they list.

    tests/definitions.py            prints what differs, and ends with 1 where something does
    tests/definitions.py --update   adds a row, from the comment above it, for each definition that has none, and takes
                                    away rows of definitions that are gone; rows that stand are left as they are

A table stands under a heading that names its file, as in "## Refinement: `meaning/specs/Refines.antt`".
"""
import os
import re
import sys

ROOT = os.path.dirname(os.path.dirname(os.path.abspath(__file__)))
PAGE = ROOT + "/docs/DEFINITIONS.md"
HEADING = re.compile(r"^## .*: `([\w/]+\.antt)`$")
ROW = re.compile(r"^\| `([^`]+)` \|")
DEFINED = re.compile(r"^ *(?:unfoldable |abbrev )?pub (?:data |record )?(\S+)")


def is_field(line):
    """Whether the line declares a field of a record, which has no row."""
    return re.match(r"^ +pub \S+ :", line) is not None


def comments(path):
    """Each public definition of a file with the comment above it, in order."""
    found, text = {}, []
    with open(path, encoding="utf-8") as it:
        for line in it.read().split("\n"):
            defined = DEFINED.match(line)
            if line.lstrip().startswith("-- "):
                text.append(line.lstrip()[3:])
                continue
            if defined and defined[1] not in ("mod", "use") and not is_field(line):
                found.setdefault(defined[1], " ".join(text))
            text = []
    return found


def sentence(text):
    """A comment as a row says it."""
    text = text.strip()
    if not text:
        return "See its definition."
    text = text[0].upper() + text[1:]
    return text if text.endswith((".", ")")) else text + "."


def main(update):
    with open(PAGE, encoding="utf-8") as it:
        lines = it.read().split("\n")
    made, differs, k = [], 0, 0
    while k < len(lines):
        heading = HEADING.match(lines[k])
        made.append(lines[k])
        k += 1
        if not heading:
            continue
        wanted = comments("%s/crates/%s" % (ROOT, heading[1]))
        seen = set()
        while k < len(lines) and not lines[k].startswith("## "):
            row = ROW.match(lines[k])
            if row and row[1] not in wanted:
                print("%s: `%s` is gone" % (heading[1], row[1]))
                differs += 1
            else:
                seen.add(row[1] if row else "")
                made.append(lines[k])
            k += 1
        missing = [name for name in wanted if name not in seen]
        for name in missing:
            print("%s: `%s` has no row" % (heading[1], name))
            differs += 1
        end = len(made)
        while not made[end - 1].startswith("|"):
            end -= 1
        made[end:end] = ["| `%s` | %s |" % (name, sentence(wanted[name])) for name in missing]
    if update:
        with open(PAGE, "w", encoding="utf-8") as it:
            it.write("\n".join(made))
        return 0
    return 1 if differs else 0


if __name__ == "__main__":
    sys.exit(main(sys.argv[1:] == ["--update"]))
