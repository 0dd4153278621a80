#!/usr/bin/env python3
"""Draws what is live where in one function, and what the allocator made of it, as SVG.

    bench/draw.py TARGET FILE FUNCTION >PICTURE.svg

It runs `./llra` (`LLRA` names another executable): `intervals` gives the live segments, a column for each range, and `trace`
the registers, splits and spills. TARGET `-` is the built-in target. FILE isn't standard input.

The rows are the instructions of the function made ready for the run, by the numbers of `intervals`. No command prints their
text: the script makes it anew from the source (phis, tied operands and sequences become copies; then copies whose two sides
may be one range are joined, those of the greatest frequency first), and says on standard error where a writing doesn't
stand at a number at which a segment begins.
"""
import os
import re
import subprocess
import sys

HERE = os.path.dirname(os.path.abspath(__file__))
REGISTER = r"%(?!(?:bb|stack|fixed-stack|subreg|const|jump-table|ir)\.)([\w-]+)(?:\.(\w+))?"
OPERAND = re.compile(r"^((?:[a-z-]+ )*)" + REGISTER + r"(?::(\w+))?(?:\(tied-def \d+\))?$")
ROW, COLUMN, LEFT, SIZE = 15, 19, 96, 11
GREY = "#d9d9d9"
MONO = 'font-family="DejaVu Sans Mono, Menlo, Consolas, monospace"'
SANS = 'font-family="DejaVu Sans, Arial, sans-serif"'


class Reg:
    """A virtual register in an operand: its number (its name, until the function is whole), index and flags."""

    def __init__(self, number, index=None, flags=""):
        self.number, self.index, self.flags = number, index, flags

    def text(self):
        return "%s%%%d%s" % (self.flags, self.number, "." + self.index if self.index else "")


class Instr:
    """An instruction: definitions and operands, each a Reg or a text, and the opcode with the flags before it."""

    def __init__(self, defs, opcode, uses):
        self.defs, self.opcode, self.uses = defs, opcode, uses

    def name(self):
        return self.opcode.split()[-1]

    def text(self):
        words = [", ".join(it if isinstance(it, str) else it.text() for it in part) for part in (self.defs, self.uses)]
        return (words[0] + " = " if words[0] else "") + self.opcode + (" " + words[1] if words[1] else "")


def operand(text):
    found = OPERAND.match(text)
    if not found:
        return re.sub(r"\b(killed|dead|renamable) |\(tied-def \d+\)", "", text)
    kept = "".join(it + " " for it in found[1].split() if it not in ("killed", "dead", "renamable"))
    return Reg(found[2].lstrip("0") or "0", found[3], kept)


def operands(text):
    """The operands of a list with commas, which may stand in parentheses and quotes too."""
    return [operand(it.strip()) for it in re.findall(r'(?:"[^"]*"|\([^()]*\)|[^,("])+', text) if it.strip()]


def instruction(line):
    line = re.split(r",? ::|,? debug-location", line)[0].strip()
    before, _, after = line.rpartition(" = ") if '"' not in line else line.partition(" = ") if " = " in line.split('"')[0] else ("", "", line)
    opcode = re.match(r"(?:[a-z][\w-]* )*\w+", after)[0]
    return Instr(operands(before), opcode, operands(after[len(opcode):]))


class Function:
    """A function: its blocks in layout, (number, instructions), what each goes to, and the classes of its registers."""

    def __init__(self, path, name, target):
        with open(path, encoding="utf-8") as it:
            documents = re.split(r"^---.*$", it.read(), flags=re.M)
        document = next((it for it in documents if re.search(r"^name: *'?%s'? *$" % re.escape(name), it, re.M)), None)
        if document is None:
            sys.exit("draw.py: %s has no function %s" % (path, name))
        head, body = re.split(r"^body:.*$", document, flags=re.M)
        self.blocks, self.to = [], {}
        named = dict(re.findall(r"- \{ id: (\d+), class: (\w+)", head))
        named.update((v.lstrip("0") or "0", c) for v, _, c in re.findall(REGISTER + r":(\w+)", body))
        for line in body.split("\n...")[0].split("\n"):
            block = re.match(r"\s+bb\.(\d+)[.: (]", line)
            if block:
                self.blocks.append((int(block[1]), []))
            elif line.strip().startswith("successors:"):
                self.to[self.blocks[-1][0]] = [int(it) for it in re.findall(r"%bb\.(\d+)", line)]
            elif line.strip() and not re.match(r"\s*(;|liveins:)", line):
                self.blocks[-1][1].append(instruction(line))
        self.number(named)
        for k, (number, instrs) in enumerate(self.blocks):
            if number not in self.to:
                self.to[number] = [int(it) for i in instrs if i.name() != "PHI" for o in i.uses if isinstance(o, str) for it in re.findall(r"^%bb\.(\d+)", o)]
                if (not instrs or instrs[-1].name() not in target.leaves) and k + 1 < len(self.blocks):
                    self.to[number].append(self.blocks[k + 1][0])

    def number(self, named):
        """Gives registers numbers by their first appearance, as llra does."""
        numbers = {}
        for o in (o for _, instrs in self.blocks for it in instrs for o in it.defs + it.uses if isinstance(o, Reg)):
            o.number = numbers.setdefault(o.number, len(numbers))
        self.classes = {number: named[name] for name, number in numbers.items()}

    def fresh(self, named):
        number = 1 + max(self.classes, default=-1)
        self.classes[number] = named
        return number


class Target:
    """What of a target file lowering and joins ask: units, classes, indexes, ties, and which opcodes end blocks."""

    def __init__(self, path):
        self.units, self.classes, self.indexes, self.ties, self.defs = {}, {}, {}, {}, {}
        self.ends, self.leaves = set(), set()
        with open(path, encoding="utf-8") as it:
            for words in (line.split() for line in it):
                kind = words[0] if words else ""
                if kind == "reg":
                    self.units[words[1]] = tuple(words[2:])
                elif kind == "class":
                    self.classes[words[1]] = words[2:]
                elif kind == "index":
                    self.indexes[words[1]] = tuple(map(int, words[2:]))
                elif kind == "op":
                    self.opcode(words[1], words[2], words[3:])
        self.whole = set(self.units.values())

    def opcode(self, name, effect, roles):
        self.defs[name] = [it.split(":")[1] for it in roles if it.startswith(("def:", "early:"))]
        first = len(self.defs[name])
        self.ties[name] = {k - first: int(it[5:].split(":")[0]) if it[4] == "/" else 0 for k, it in enumerate(roles) if it.startswith("tied")}
        if effect in ("jump", "ret", "opaque/ret"):
            self.leaves.add(name)
        if effect in ("jump", "jcc", "jnz", "ret", "opaque/branch", "opaque/ret"):
            self.ends.add(name)

    def lanes(self, named, index=None):
        """The lanes of a register of a class, or those that an index picks."""
        return self.indexes[index] if index else tuple(range(len(self.units[self.classes[named][0]])))

    def part(self, register, index):
        """The units of a part of a register; None where it hasn't so many lanes."""
        units, lanes = self.units[register], self.indexes[index]
        return tuple(units[k] for k in lanes) if max(lanes) < len(units) else None

    def composed(self, outer, inner):
        """The index of the part of a part; None where there is none."""
        if inner is None or outer is None:
            return inner or outer
        lanes, within = self.indexes[outer], self.indexes[inner]
        want = tuple(lanes[k] for k in within) if max(within) < len(lanes) else None
        return next((name for name, it in self.indexes.items() if it == want), None)

    def fits(self, named, index):
        return all(self.part(it, index) in self.whole for it in self.classes[named])


class Lowering:
    """Phis, tied operands and sequences become copies."""

    def __init__(self, function, target):
        self.function, self.blocks, self.target = function, function.blocks, target

    @staticmethod
    def copy(to, index, source):
        """A copy; of an undefined source, a definition of no value."""
        if isinstance(source, Reg) and "undef" in source.flags:
            return Instr([Reg(to, index)], "IMPLICIT_DEF", [])
        return Instr([Reg(to, index)], "COPY", [source])

    def phis(self):
        by_number = dict(self.blocks)
        for _, instrs in self.blocks:
            for k, it in enumerate(instrs):
                if it.name() != "PHI":
                    break
                value = self.function.fresh(self.function.classes[it.defs[0].number])
                for source, block in zip(it.uses[::2], it.uses[1::2]):
                    into = by_number[int(re.match(r"%bb\.(\d+)", block)[1])]
                    at = next((j for j, other in enumerate(into) if other.name() in self.target.ends), len(into))
                    into.insert(at, self.copy(value, None, source))
                instrs[k] = self.copy(it.defs[0].number, None, Reg(value))

    def sequence(self, it):
        to, made = it.defs[0].number, []
        uses = it.uses if it.name() == "REG_SEQUENCE" else it.uses[1:]
        pairs = list(zip(uses[::2], (word.split(".")[-1] for word in uses[1::2])))
        aside = any(isinstance(use, Reg) and use.number == to for use, _ in pairs)
        named = self.function.classes[to]
        into = self.function.fresh(named) if aside else to
        if it.name() == "INSERT_SUBREG":
            made.append(self.copy(into, None, it.uses[0]))
        elif len({k for _, index in pairs for k in self.target.indexes[index]}) < len(self.target.lanes(named)):
            made.append(Instr([Reg(into)], "IMPLICIT_DEF", []))
        made += [self.copy(into, index, use) for use, index in pairs]
        return made + ([self.copy(to, None, Reg(into))] if aside else [])

    def tied(self, it):
        before, behind = [], []
        for d in it.defs:
            if isinstance(d, Reg) and "undef" in d.flags:
                before.append(Instr([Reg(d.number)], "IMPLICIT_DEF", []))
                d.flags = d.flags.replace("undef ", "")
        if it.name() in ("REG_SEQUENCE", "INSERT_SUBREG"):
            return before + self.sequence(it)
        if it.name() == "COPY" and isinstance(it.uses[0], Reg) and "undef" in it.uses[0].flags:
            return before + [Instr(it.defs, "IMPLICIT_DEF", [])]
        for k, at in self.target.ties.get(it.name(), {}).items():
            use, d = it.uses[k], it.defs[at]
            if not isinstance(use, Reg) or "undef" in use.flags or (use.number, use.index) == (d.number, d.index):
                continue
            others = [o for j, o in enumerate(it.uses) if j != k and isinstance(o, Reg) and "undef" not in o.flags and o.number == d.number]
            if others:
                aside = self.function.fresh(self.target.defs[it.name()][at])
                before.append(self.copy(aside, None, use))
                behind.append(self.copy(d.number, d.index, Reg(aside)))
                it.defs[at], it.uses[k] = Reg(aside, None, d.flags), Reg(aside)
            else:
                before.append(self.copy(d.number, d.index, use))
                it.uses[k] = Reg(d.number, d.index)
        return before + [it] + behind

    def done(self):
        self.phis()
        self.function.blocks = [(number, [made for it in instrs for made in self.tied(it)]) for number, instrs in self.blocks]


class Ranges:
    """What `intervals` prints of a function: frequencies, and of each range its class, weight and segments by lane."""

    def __init__(self, lines):
        self.blocks, self.ranges = [], {}
        for line in lines:
            words = line.split()
            if words[0].startswith("bb."):
                self.blocks.append((int(words[0][3:]), int(words[2])))
            elif words[0].startswith("%"):
                last = self.ranges.setdefault(int(words[0][1:]), (words[1], int(words[3]), []))
            else:
                last[2].append([re.match(r"\[(\d+)([Ber]),(\d+)([Brd])\)", it).groups() for it in words[2:]])
        self.writings = {v: {int(it[0]) for lane in lanes for it in lane if it[1] != "B"} for v, (_, _, lanes) in self.ranges.items()}
        self.edges = {int(n) for _, _, lanes in self.ranges.values() for lane in lanes for it in lane
                      for n, mark in ((it[0], it[1]), (it[2], it[3])) if mark == "B"}


class Live:
    """The lanes of virtual registers that are live behind each instruction."""

    def __init__(self, function, target):
        self.function, self.target = function, target
        into = {number: set() for number, _ in function.blocks}
        changed = True
        while changed:
            changed = False
            for number, instrs in reversed(function.blocks):
                live = self.leaving(number, into)
                for it in reversed(instrs):
                    live = live - self.lanes(it.defs) | self.lanes(it.uses)
                if live != into[number]:
                    into[number], changed = live, True
        self.into = into

    def leaving(self, number, into):
        return set().union(*(into[it] for it in self.function.to[number]))

    def lanes(self, part):
        """The lanes that a list of operands writes or reads."""
        return {(o.number, k) for o in part if isinstance(o, Reg) and "undef" not in o.flags for k in self.target.lanes(self.function.classes[o.number], o.index)}

    def points(self):
        """Each instruction with what is live before and behind it."""
        for number, instrs in self.function.blocks:
            live = self.leaving(number, self.into)
            for it in reversed(instrs):
                before = live - self.lanes(it.defs) | self.lanes(it.uses)
                yield it, before, live
                live = before


class Joined:
    """The lowered function with the copies joined whose two sides may be one range."""

    def __init__(self, function, target, ranges):
        self.function, self.target = function, target
        often = dict(ranges.blocks)
        copies = [(-often[number], k, j, it) for k, (number, instrs) in enumerate(function.blocks) for j, it in enumerate(instrs) if self.moves(it)]
        for *_, it in sorted(copies, key=lambda it: it[:3]):
            join = self.join(it) if it.opcode and self.moves(it) else None
            if join and self.quiet(*join):
                self.fold(*join)
        self.wrong = self.differences(ranges)

    @staticmethod
    def moves(it):
        return it.name() == "COPY" and isinstance(it.defs[0], Reg) and isinstance(it.uses[0], Reg)

    def join(self, it):
        """What may become one: the range that is kept, the one that goes, and the part of the former that it becomes."""
        d, s, classes, regs = it.defs[0], it.uses[0], self.function.classes, self.target.classes
        if d.number == s.number or d.index and s.index:
            return None
        if not d.index and not s.index:
            a, b = set(regs[classes[d.number]]), set(regs[classes[s.number]])
            return (min(d.number, s.number), max(d.number, s.number), None) if a <= b or b <= a else None
        a, b = (d, s) if d.index else (s, d)
        kept, whole = classes[a.number], {self.target.units[it] for it in regs[classes[b.number]]}
        used = {o.index for _, instrs in self.function.blocks for i in instrs for o in i.defs + i.uses if isinstance(o, Reg) and o.number == b.number and o.index}
        inner = [self.target.composed(a.index, it) for it in used]
        if all(self.target.part(it, a.index) in whole for it in regs[kept]) and all(it and self.target.fits(kept, it) for it in inner):
            return a.number, b.number, a.index
        return None

    def image(self, lane, keep, gone, index):
        return (keep, self.target.indexes[index][lane[1]] if index else lane[1]) if lane[0] == gone else lane

    def quiet(self, keep, gone, index):
        """Whether no writing of one range destroys what the other still holds."""
        live = Live(self.function, self.target)
        for it, before, behind in live.points():
            written = {lane for lane in live.lanes(it.defs) if lane[0] in (keep, gone)}
            early = any(isinstance(o, Reg) and "early-clobber" in o.flags and o.number in (keep, gone) for o in it.defs)
            held = {lane for lane in behind | written | (before if early else set()) if lane[0] in (keep, gone)}
            for lane in written:
                others = {x for x in held if x != lane and self.image(x, keep, gone, index) == self.image(lane, keep, gone, index)}
                if others and not (self.moves(it) and self.image(self.source(it, lane), keep, gone, index) == self.image(lane, keep, gone, index)):
                    return False
        return True

    def source(self, it, lane):
        """The lane that a copy moves to a lane."""
        d, s, classes = it.defs[0], it.uses[0], self.function.classes
        at = self.target.lanes(classes[d.number], d.index).index(lane[1])
        return s.number, self.target.lanes(classes[s.number], s.index)[at]

    def same(self, it):
        d, s = it.defs[0], it.uses[0]
        return d.number == s.number and len({self.target.lanes(self.function.classes[o.number], o.index) for o in (d, s)}) == 1

    def fold(self, keep, gone, index):
        classes, regs = self.function.classes, self.target.classes
        if not index and set(regs[classes[gone]]) < set(regs[classes[keep]]):
            classes[keep] = classes[gone]
        for _, instrs in self.function.blocks:
            for it in list(instrs):
                touched = [o for o in it.defs + it.uses if isinstance(o, Reg) and o.number == gone]
                was = self.moves(it) and self.same(it)
                for o in touched:
                    o.number, o.index = keep, self.target.composed(index, o.index)
                if touched and not was and self.moves(it) and self.same(it):
                    instrs.remove(it)
                    it.opcode = ""  # (it isn't there any more)

    def numbered(self):
        """(number, block) for each start and (number, instruction) for each instruction; at the end (number, -1)."""
        number = 0
        for block, instrs in self.function.blocks:
            yield number, block
            for k, it in enumerate(instrs):
                yield number + 16 * (k + 1), it
            number += 16 * (len(instrs) + 1)
        yield number, -1

    def differences(self, ranges):
        """How many writings don't stand where segments begin, and borders of segments where no block begins."""
        written, starts = {}, set()
        for number, what in self.numbered():
            if isinstance(what, int):
                starts.add(number)
            else:
                for v in {o.number for o in what.defs if isinstance(o, Reg)}:
                    written.setdefault(v, set()).add(number)
        return len(ranges.edges - starts) + sum(len(ranges.writings.get(v, set()) ^ written.get(v, set())) for v in {*ranges.writings, *written})


class Steps:
    """What `trace` tells of a function: where each range ended."""

    def __init__(self, lines):
        self.register, self.pieces, self.how, self.evicted, self.counts = {}, {}, {}, set(), ""
        for line in lines:
            words = line.split()
            numbers = [int(it[1:]) for it in words if it.startswith("%")]
            if re.match(r"assign \d", line):
                self.counts = line
            elif words[0] in ("assign", "evict"):
                self.register[numbers[0]] = words[2]
                self.evicted.update(numbers[1:])
                for it in numbers[1:]:
                    self.register.pop(it, None)
            elif words[0] == "place":
                self.register.update((int(a[1:]), b) for a, b in zip(words[1::2], words[2::2]))
            elif words[0] in ("split", "spill"):
                self.register.pop(numbers[0], None)
                self.pieces[numbers[0]] = numbers[1:]
                self.how[numbers[0]] = "spill" if words[0] == "spill" else words[2]

    def leaves(self, v):
        """The registers of a range or of all that became of it, in order."""
        if v in self.pieces:
            return [it for piece in self.pieces[v] for it in self.leaves(piece)]
        return [self.register[v]] if v in self.register else []

    def spilled(self, v):
        return self.how.get(v) == "spill" or any(self.spilled(it) for it in self.pieces.get(v, []))

    def told(self, v):
        """What became of a range, in words."""
        if v not in self.pieces:
            return "%%%d %s" % (v, self.register.get(v, "no register"))
        parts = ", ".join(self.told(it) for it in self.pieces[v])
        if self.how[v] == "spill":
            return "%%%d in a slot%s" % (v, " (%s)" % parts if parts else "")
        return "%%%d split by %s into [%s]" % (v, self.how[v], parts)


# (twenty colours that can be told apart, the strong ones first)
COLORS = ("#4e79a7 #f28e2b #59a14f #e15759 #b07aa1 #edc948 #76b7b2 #9c755f #ff9da7 #1b6f3a "
          "#a0cbe8 #ffbe7d #8cd17d #d4a6c8 #6b4c9a #499894 #f1ce63 #d37295 #79706e #d7b5a6").split()


def escaped(text):
    return text.replace("&", "&amp;").replace("<", "&lt;").replace(">", "&gt;")


class Picture:
    def __init__(self, title, joined, ranges, steps):
        self.title, self.joined, self.ranges, self.steps, self.out, self.defs = title, joined, ranges, steps, [], []
        self.rows = list(joined.numbered())
        self.columns = {v: k for k, v in enumerate(ranges.ranges)}
        used = sorted({it for v in self.columns for it in steps.leaves(v)}, key=lambda it: (re.sub(r"\d+", "", it), len(it), it))
        self.colors = {it: COLORS[k % len(COLORS)] for k, it in enumerate(used)}
        self.labels = max([5] + [len("%%%d  %s" % (v, self.mark(v))) for v in self.columns]) * 6.4 + 12
        self.top = 54 + self.labels
        self.right = LEFT + COLUMN * len(self.columns) + 22
        self.at = {number: self.top + ROW * k for k, (number, _) in enumerate(self.rows)}
        texts = [it.text() for _, it in self.rows if not isinstance(it, int)]
        self.told = [steps.told(v) for v in self.columns if v in steps.pieces]
        self.width = max(self.right + 6.7 * max([46] + [len(it) for it in texts]) + 20, 40 + 6.4 * max(map(len, self.told), default=0), 760)

    def mark(self, v):
        if v not in self.steps.pieces:
            return self.steps.register.get(v, "")
        return "spilled" if self.steps.how[v] == "spill" else "split, spilled" if self.steps.spilled(v) else "split"

    def text(self, x, y, words, size=SIZE, font=MONO, more=""):
        self.out.append('<text x="%.1f" y="%.1f" font-size="%d" %s %s xml:space="preserve">%s</text>' % (x, y, size, font, more, escaped(words)))

    def fill(self, v):
        """A range's colour: its register's, or stripes of those of its parts, grey where they lie in a slot."""
        leaves = list(dict.fromkeys(self.steps.leaves(v)))
        parts = [self.colors[it] for it in leaves] + ([GREY] * max(1, len(leaves)) if self.steps.spilled(v) else [])
        if len(parts) < 2:
            return parts[0] if parts else GREY
        if not any('id="p%d"' % v in it for it in self.defs):
            high = 6 * len(parts)
            stripes = "".join('<rect y="%d" width="40" height="6" fill="%s"/>' % (6 * k, it) for k, it in enumerate(parts))
            self.defs.append('<pattern id="p%d" width="40" height="%d" patternUnits="userSpaceOnUse" patternTransform="rotate(35)">%s</pattern>' % (v, high, stripes))
        return "url(#p%d)" % v

    def place(self, number, mark, start):
        """Where a segment's end lies: at a border, or at the exit or entry of an instruction."""
        shift = {"B": 0, "r": ROW * (.62 if start else .5), "e": ROW * .3, "d": ROW * .95}[mark]
        return self.at[int(number)] + shift

    def range(self, v):
        x, lanes = LEFT + COLUMN * self.columns[v], self.ranges.ranges[v][2]
        shown = [lanes[0]] if all(it == lanes[0] for it in lanes) else lanes
        wide = (COLUMN - 5) / len(shown)
        for k, lane in enumerate(shown):
            joined = []
            for a, am, b, bm in lane:
                if joined and am == "B" and joined[-1][2:] == (a, "B"):
                    joined[-1] = joined[-1][:2] + (b, bm)
                else:
                    joined.append((a, am, b, bm))
            for a, am, b, bm in joined:
                y, end = self.place(a, am, True), self.place(b, bm, False)
                self.out.append('<rect x="%.1f" y="%.1f" width="%.1f" height="%.1f" rx="2.5" fill="%s" stroke="#333" stroke-width="0.5"><title>%%%d</title></rect>'
                                % (x + 2 + k * wide, y, wide - 0.6, max(end - y, 3), self.fill(v), v))
        label = '<tspan font-weight="bold">%%%d</tspan>  %s' % (v, escaped(self.mark(v)))
        self.out.append('<text transform="translate(%.1f %.1f) rotate(-90)" font-size="%d" %s>%s</text>' % (x + COLUMN / 2 + 3, self.top - 6, SIZE, MONO, label))
        if v in self.steps.pieces:
            self.badge(x + COLUMN / 2 - .5, self.top - 0.5, self.steps.how[v])

    def badge(self, x, y, how):
        """A mark at the head of a column: a red diamond for a spill, a blue bar with a gap for a split."""
        if how == "spill":
            self.out.append('<path d="M%.1f %.1f l5 5 l-5 5 l-5 -5 z" fill="#c00" stroke="#fff" stroke-width="0.8"/>' % (x, y - 5))
        else:
            self.out.append('<path d="M%.1f %.1f h4.5 v7 h-4.5 z m7 0 h4.5 v7 h-4.5 z" fill="#05c" stroke="#fff" stroke-width="0.8"/>' % (x - 6, y - 3.5))

    def row(self, number, what):
        y = self.at[number]
        if isinstance(what, int) and what < 0:
            return
        if isinstance(what, int):
            often = dict(self.ranges.blocks)[what]
            first = self.ranges.blocks[0][1]
            self.out.append('<rect x="8" y="%.1f" width="%.1f" height="%d" fill="#e9edf3"/><line x1="8" x2="%.1f" y1="%.1f" y2="%.1f" stroke="#7a8699"/>' % (y, self.width - 16, ROW, self.width - 8, y, y))
            self.text(14, y + 11, "%5d  bb.%d" % (number, what), more='font-weight="bold" fill="#123"')
            self.text(self.right, y + 11, "bb.%d   runs %.2f times (frequency %d)" % (what, often / first, often), font=SANS, more='font-weight="bold" fill="#123"')
        else:
            self.text(14, y + 11, "%5d" % number, more='fill="#888"')
            self.text(self.right, y + 11, what.text())
            self.out.append('<line x1="%d" x2="%.1f" y1="%.1f" y2="%.1f" stroke="#eef0f3"/>' % (LEFT - 6, self.right - 10, y + ROW / 2, y + ROW / 2))

    def legend(self, y):
        x = 14
        for register, fill in self.colors.items():
            wide = 26 + 7 * len(register)
            if x + wide > self.width - 14:
                x, y = 14, y + 20
            self.out.append('<rect x="%.1f" y="%.1f" width="14" height="12" rx="2.5" fill="%s" stroke="#333" stroke-width="0.5"/>' % (x, y - 10, fill))
            self.text(x + 18, y, register)
            x += wide
        y += 22
        self.badge(20, y - 4, "spill")
        self.text(30, y, "the range was spilled to a slot", font=SANS)
        self.badge(238, y - 4, "split")
        self.text(250, y, "it was split; stripes: the registers of its parts, grey for a slot", font=SANS)
        y += 8
        for words in self.told:
            y += 15
            self.text(14, y, words)
        return y

    def svg(self):
        bottom = self.top + ROW * (len(self.rows) - 1)
        self.text(14, 24, self.title, 16, SANS, 'font-weight="bold"')
        self.text(14, 42, self.steps.counts, SIZE, MONO, 'fill="#555"')
        for number, what in self.rows:
            self.row(number, what)
        for v in self.columns:
            self.range(v)
        end = self.legend(bottom + 28) + 16
        return '\n'.join(['<svg xmlns="http://www.w3.org/2000/svg" width="%d" height="%d" viewBox="0 0 %d %d">' % (self.width, end, self.width, end),
                          '<rect width="100%" height="100%" fill="#fff"/>', "<defs>" + "".join(self.defs) + "</defs>", *self.out, "</svg>", ""])


def lines_of(llra, command, target, path):
    """What a command prints, in parts that each begin with a line `function ..`."""
    done = subprocess.run([llra, command, target, path], stdout=subprocess.PIPE, stderr=subprocess.PIPE, text=True)
    if done.returncode:
        sys.exit("draw.py: " + done.stderr.strip())
    parts = []
    for line in done.stdout.splitlines():
        if line.startswith("function "):
            parts.append([])
        parts[-1].append(line)
    return parts


def main(target, path, name):
    llra = os.environ.get("LLRA") or HERE + "/../llra"
    intervals, traces = lines_of(llra, "intervals", target, path), lines_of(llra, "trace", target, path)
    at = next((k for k, it in enumerate(intervals) if it[0] == "function " + name), None)
    if at is None:
        sys.exit("draw.py: %s has no function %s" % (path, name))
    ranges = Ranges(intervals[at][1:])
    asked = Target(HERE + "/../examples/mini.target" if target == "-" else target)
    function = Function(path, name, asked)
    Lowering(function, asked).done()
    joined = Joined(function, asked, ranges)
    if joined.wrong:
        print("draw.py: %d writings don't stand where the text has them: instructions may lie beside their numbers" % joined.wrong, file=sys.stderr)
    steps = Steps(traces[at][1:])
    sys.stdout.write(Picture("%s, over %s" % (name, "the built-in target" if target == "-" else os.path.basename(target)), joined, ranges, steps).svg())


if __name__ == "__main__":
    if len(sys.argv) != 4:
        sys.exit(__doc__)
    main(*sys.argv[1:])
