#!/usr/bin/env python3
"""Counts the lines of definitions that must be read to know what a clause says.

    tests/trusted.py                 a row for each of the statements that matter most
    tests/trusted.py CRATE.FILE.NAME ..   of these definitions, as mir_meaning.Codes.refines, and the files they lie in
    tests/trusted.py --list NAME     each definition that NAME reaches, with its lines

A definition reaches each definition of this repository's specs that it names, and these reach others in turn. Counted are
lines of specs without comments, blanks and imports; and apart from them the lines of the types of the program that they
name (structs and enums in src, without comments). What the kit's library defines isn't counted.
"""
import os
import re
import sys

ROOT = os.path.dirname(os.path.dirname(os.path.abspath(__file__)))
# What is counted where nothing is asked: a name, and the definitions that say it.
STATEMENTS = [
    ("an allocated function does what its source does", ["mir_meaning.Codes.refines"]),
    ("it is right for its source", ["alloc_check.Verdict.IsRight"]),
    ("it is handed out by the guard", ["pipeline.Guarded.Function.IsGuarded"]),
    ("what every form of `alloc` writes", ["ra_top.Commands.Documents.IsAllocation"]),
    ("all that the top call says", None),
]
HEADER = re.compile(r"^(?:unfoldable |abbrev )?(?:pub )?(?:(?:data|record) )?(\S+)")
WORD = re.compile(r"[^\s(){}\[\],;]+")
USE = re.compile(r"^(?:pub )?use Rattle\.([^\s{]+?)(?:\.\{(.*)\}| as (\S+))?$")


def module_of(path):
    """The module of a specs file, as mir_meaning.Codes."""
    parts = path[len(ROOT + "/crates/") : -len(".antt")].split("/")
    return ".".join([parts[0]] + parts[2:])


def short(name):
    """CRATE.specs.A.B as CRATE.A.B; None where it isn't this repository's."""
    parts = name.split(".")
    return ".".join([parts[0]] + parts[2:]) if len(parts) > 2 and parts[1] == "specs" else None


class Module:
    """A file of definitions: the lines of each, and what other names stand for."""

    def __init__(self, path):
        self.definitions, self.names, self.aliases, self.again = {}, {}, {}, []
        current, in_use = None, ""
        with open(path, encoding="utf-8") as it:
            lines = it.read().split("\n")
        for line in lines:
            if line.startswith(("use ", "pub use ")):
                self.use(line)
            elif not line.strip() or line.lstrip().startswith("--") or line.startswith(("pub mod ", "mod ")):
                continue
            elif re.match(r"^(unfoldable |abbrev |pub data |pub record |data |record )", line):
                current = HEADER.match(line)[1]
                self.definitions.setdefault(current, []).append(line)
            elif current:
                self.definitions[current].append(line)
        # (constructors stand for their type)
        self.parts = {}
        for name, body in self.definitions.items():
            if " data " in " " + body[0]:
                for line in body[1:]:
                    begins = re.match(r"^  ((?:\w+ )*\w+) :(?: |$)", line)
                    for part in begins[1].split() if begins else []:
                        self.parts.setdefault(part, name)

    def use(self, line):
        found = USE.match(line.strip())
        if not found:
            return
        of, names, alias = found[1], found[2], found[3]
        if alias:
            self.aliases[alias] = of
            return
        for name in (names or "").split(", "):
            name, _, other = name.partition(" as ")
            self.names[other or name] = (of, name)
            if line.startswith("pub "):
                self.again.append(other or name)


def modules():
    found = {}
    for at, folders, files in os.walk(ROOT + "/crates"):
        folders[:] = [it for it in folders if it not in ("out", "src", "proofs")]
        for name in files:
            if name.endswith(".antt") and "/specs" in at and name != "Lib.antt":
                path = at + "/" + name
                found[module_of(path)] = Module(path)
    return found


def types():
    """The lines of each struct and enum of src, by crate and name."""
    found = {}
    for at, folders, files in os.walk(ROOT + "/crates"):
        folders[:] = [it for it in folders if it not in ("out", "specs", "proofs")]
        for name in files:
            if not name.endswith(".rt"):
                continue
            crate = at[len(ROOT + "/crates/") :].split("/")[0]
            inside = None
            with open(at + "/" + name, encoding="utf-8") as it:
                for line in it:
                    begins = re.match(r"^(?:pub(?:\(crate\))? )?(?:struct|enum|type) (\w+)", line)
                    if begins:
                        inside = found.setdefault((crate, begins[1]), [])
                    if inside is not None and line.strip() and not line.lstrip().startswith(("//", "#[")):
                        inside.append(line)
                    if inside is not None and (line.startswith("}") or re.search(r"[;}]\s*$", line) and begins):
                        inside = None
    return found


class Reach:
    def __init__(self):
        self.modules, self.types = modules(), types()
        self.seen, self.seen_types = {}, {}

    def add(self, module, name):
        """Counts a definition and all that it names."""
        todo = [(module, name)]
        while todo:
            module, name = todo.pop()
            at = self.modules.get(module)
            if at is None:
                continue
            if name not in at.definitions:
                if name in at.parts:
                    todo.append((module, at.parts[name]))
                elif name in at.names:
                    todo += self.imported(*at.names[name])
                continue
            if (module, name) in self.seen:
                continue
            body = at.definitions[name]
            self.seen[module, name] = len(body)
            for line in body:
                for word in WORD.findall(re.sub(r"--.*", "", line)):
                    todo += self.named(module, at, word)

    def named(self, module, at, word):
        first, _, rest = word.partition(".")
        if first in at.definitions or first in at.parts:
            return [(module, first)]
        if first in at.names:
            return self.imported(*at.names[first])
        if first in at.aliases:
            return self.imported(at.aliases[first], rest.partition(".")[0])
        return []

    def imported(self, of, name):
        parts = of.split(".")
        if "declared" in parts:
            # Rattle.CRATE.specs.declared.file.Type[.TheVariants]
            kind = next((it for it in reversed(parts) if it != "TheVariants"), "")
            key = (parts[0], kind)
            if key in self.types and key not in self.seen_types:
                self.seen_types[key] = len(self.types[key])
                for line in self.types[key]:
                    for word in re.findall(r"\b[A-Z]\w+", line):
                        for other in self.types:
                            if other[1] == word and (other[0] == parts[0] or other[0] in ("target_base", "mir_func")):
                                self.imported("%s.specs.declared.x.%s" % other, word)
            return []
        module = short(of)
        return [(module, name)] if module else []

    def lines(self):
        return sum(self.seen.values()), sum(self.seen_types.values())


def top_names():
    """What the clauses of `top` name."""
    path = ROOT + "/crates/ra_top/src/run.rt"
    with open(path, encoding="utf-8") as it:
        text = it.read()
    uses = {}
    for of, names in re.findall(r"ghost use Rattle\.(\S+?)\.\{(.*)\};", text):
        for name in names.split(", "):
            uses[name] = of
    clauses = re.search(r"pub fn top.*?\n\{", text, re.S)[0]
    return [(short(uses[it]), it) for it in set(WORD.findall(clauses)) if it in uses and short(uses[it])]


def main(words):
    if words[:1] == ["--list"]:
        reach = Reach()
        for word in words[1:]:
            reach.add(*word.rpartition(".")[::2])
        for (module, name), count in sorted(reach.seen.items()):
            print("%5d %s.%s" % (count, module, name))
        for (crate, name), count in sorted(reach.seen_types.items()):
            print("%5d type %s::%s" % (count, crate, name))
        return
    rows = [(" ".join(words), words)] if words else STATEMENTS
    print("%-52s %6s %6s" % ("statement", "specs", "types"))
    for title, roots in rows:
        reach = Reach()
        for module, name in [it.rpartition(".")[::2] for it in roots] if roots else top_names():
            reach.add(module, name)
        print("%-52s %6d %6d" % (title, *reach.lines()))


if __name__ == "__main__":
    main(sys.argv[1:])
