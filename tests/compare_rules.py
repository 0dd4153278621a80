#!/usr/bin/env python3
"""Sees that the cases of the validity rules are what their names say.

Run: compare_rules.py [--write] MODEL [CASES]

MODEL is the folder of a reference model (the package `llra_ref`), CASES that of the cases (tests/cases/rules). Each file
rule_NN_FORM_breaks.. of CASES holds a function `f` that breaks rule NN and no other in the form FORM (source or
allocated), and each rule_NN_FORM_edge.. one at the edge of rule NN that is valid in the form; its run is `verify FORM`.
Here each rule is asked on its own at each place, as it is defined, also where another fails: the rules that fail
somewhere must be just NN, or none. But where an allocated function names a virtual register V14 can't hold, though it
isn't asked where another rule fails, and may fail beside NN. The model's answer must be that of the case: `valid f`, or
a line that names rule NN. Each rule must have its two cases without a further word in each form.

With --write what the model answers is written into each case first."""
import itertools
import os
import sys

import case_files

TESTS = os.path.dirname(os.path.abspath(__file__))


class Rules:
    """Each rule of a function in a form, on its own. Blocks are named by their place in layout."""

    def __init__(self, model, target, f, allocated):
        self.m, self.t, self.f, self.allocated = model, target, f, allocated
        self.numbers = [b.number for b in f.blocks]
        self.reserved = target.reserved_set

    # -- how operands meet roles

    def registers(self, operands):
        return [o for o in operands if isinstance(o, self.m.RegOp)]

    def are(self, operands, *kinds):
        """The first operands are of these kinds."""
        return len(operands) >= len(kinds) and all(map(isinstance, operands, kinds))

    def implicit(self, o):
        return isinstance(o, self.m.RegOp) and o.implicit

    def effect(self, i):
        return None if i.excluded else self.t.ops[i.op].effect

    def takes(self, o, role):
        return not o.virtual and role == ("impdef" if o.defn else "impuse", o.num)

    def bound(self, i):
        """Pairs of a role or None and an operand: explicit operands one after the other, then implicit ones."""
        if i.excluded:
            return [(None, o) for o in i.operands]
        desc, out, k = self.t.ops[i.op], [], 0
        for o in i.operands:
            if not self.implicit(o):
                role = desc.explicit[k] if k < len(desc.explicit) else None
                out.append((role, o))
                k += role is not None and role[0] not in ("any", "rest")
        for o in i.operands:
            if self.implicit(o):
                out.append((next((r for r in desc.implicit if self.takes(o, r)), None), o))
        return out

    def is_opaque(self, i):
        return self.effect(i) in ("opaque", "obranch", "ocall", "oret")

    def tie(self, role):
        """The place of the definition to which a role ties its use, or None."""
        if not role or role[0] != "tied":
            return None
        return role[2] if len(role) > 2 else 0

    def tied_pairs(self, i):
        return [(i.operands[self.tie(r)], o) for r, o in self.bound(i) if self.tie(r) is not None]

    # -- lanes

    def has_lanes(self, o):
        c = self.f.classes[o.num] if o.virtual else None
        return not o.virtual or (c is not None and self.t.fits(c, o.index))

    def range_widths(self, v):
        return [] if self.f.classes[v] is None else list(self.t.widths(self.f.classes[v]))

    def lanes(self, o, index=None):
        """The lanes of an operand, or of another index of its register."""
        x = o.index if index is None else index
        if not o.virtual:
            return [("u", u) for u in self.t.units_of(o.num)]
        return [("v", o.num, k) for k in (range(len(self.range_widths(o.num))) if x is None else self.t.indexes[x][1])]

    def widths(self, o, index=None):
        if not o.virtual:
            return [self.t.units[u][1] for u in self.t.units_of(o.num)]
        all_widths = self.range_widths(o.num)
        return [all_widths[k] if k < len(all_widths) else None for _, _, k in self.lanes(o, index)]

    def same_widths(self, a, b, index=None):
        """Of b, or of another index of its register, where the lanes of both are known."""
        if index is not None:
            c = self.f.classes[b.num]
            if c is None or not self.t.fits(c, index):
                return True
        elif not self.has_lanes(b):
            return True
        return not self.has_lanes(a) or self.widths(a) == self.widths(b, index)

    def is_reserved(self, o):
        return not o.virtual and set(self.t.units_of(o.num)) <= set(self.reserved)

    def clashing(self, o, with_reserved=False):
        lanes = self.lanes(o) if self.has_lanes(o) else []
        return {l for l in lanes if with_reserved or not (l[0] == "u" and l[1] in self.reserved)}

    # -- rules of an instruction

    def fits_role(self, role, o, is_opaque):
        m, kind = self.m, role[0]
        if is_opaque and kind in ("any", "val") and isinstance(o, (m.Imm, m.Stk, m.Fix, m.Sym, m.Idx)):
            return True
        if kind == "val":
            return isinstance(o, m.RegOp) and not o.defn and not o.implicit and (len(role) > 1 or self.is_reserved(o))
        if isinstance(o, m.RegOp):
            if kind in ("def", "early"):
                return o.defn and not o.implicit
            return kind in ("use", "tied", "addr", "any", "rest") and not o.defn and not o.implicit \
                and not (kind == "rest" and o.virtual)
        kinds = {m.Imm: ("imm", "lanes"), m.Blk: ("target",), m.Stk: ("slot", "frame", "addr"), m.Fix: ("frame", "addr"),
                 m.Idx: ("lanes",), m.Sym: ("sym", "addr"), m.Msk: ("mask",)}
        return kind in kinds[type(o)]

    def put_together(self, effect, os):
        """V1 of the five opcodes that every target has."""
        m = self.m

        def is_def(o):
            return isinstance(o, m.RegOp) and o.defn and not o.implicit

        def is_use(o):
            return isinstance(o, m.RegOp) and not o.defn and not o.implicit
        if effect == "copy":
            return len(os) == 2 and is_def(os[0]) and is_use(os[1])
        if effect == "implicit_def":
            return len(os) == 1 and is_def(os[0])
        if not os or not is_def(os[0]) or not os[0].virtual or os[0].index is not None:
            return False
        if effect == "insert_subreg":
            return len(os) == 4 and all(is_use(o) and o.virtual for o in os[1:3]) and isinstance(os[3], m.Idx)
        other = m.Blk if effect == "phi" else m.Idx
        return len(os) % 2 == 1 and all(is_use(a) and a.virtual and isinstance(b, other) for a, b in zip(os[1::2], os[2::2]))

    def v1(self, i):
        os, m, desc = i.operands, self.m, self.t.ops[i.op]
        if desc.effect in ("copy", "implicit_def", "phi", "reg_sequence", "insert_subreg"):
            return self.put_together(desc.effect, os)
        plain = [o for o in os if not self.implicit(o)]
        if any(self.implicit(o) for o in os[:len(plain)]):
            return False
        roles, k = desc.explicit, 0
        for o in plain:
            if k == len(roles) or not self.fits_role(roles[k], o, self.is_opaque(i)):
                return False
            k += roles[k][0] not in ("any", "rest")
        if any(r[0] not in ("any", "rest") for r in roles[k:]):
            return False
        further = [o for o in os if self.implicit(o)]
        if any(o.virtual or desc.silent for o in further):
            return False
        if any(sum(self.takes(o, r) for o in further) != desc.implicit.count(r) for r in desc.implicit):
            return False
        if desc.effect == "jcc":
            return next(o.value for o in os if isinstance(o, m.Imm)) in (2, 3, 4, 5, 12, 13)
        if desc.effect in ("spill", "reload"):
            o, x = os[0], os[2]
            if isinstance(x, m.Imm):
                return x.value == 0
            return not self.has_lanes(o) or len(self.t.indexes[x.index][1]) == len(self.widths(o))
        return True

    def v2(self, i):
        t, m = self.t, self.m
        for role, o in self.bound(i):
            if isinstance(o, m.RegOp) and role and len(role) > 1 and role[0] in ("def", "early", "use", "tied", "addr", "val") \
                    and self.has_lanes(o) and not (self.is_opaque(i) and role[0] in ("addr", "val") and self.is_reserved(o)):
                named = [t.sub_of(r, o.index) for r in t.class_regs(self.f.classes[o.num])] if o.virtual else [o.num]
                if not set(named) <= set(t.class_regs(role[1])):
                    return False
        os, effect, reg = i.operands, self.effect(i), m.RegOp
        if effect == "copy" and self.are(os, reg, reg):
            d, s = os[:2]
            return self.same_widths(d, s) and all(
                a.virtual or not b.virtual or t.home(a.num) is not None for a, b in ((d, s), (s, d)))
        if effect == "phi" and self.are(os, reg):
            return all(self.same_widths(os[0], o) for o in self.registers(os[1:]))
        if effect == "reg_sequence" and self.are(os, reg):
            picked = [k for o in os[1:] if isinstance(o, m.Idx) for k in t.indexes[o.index][1]]
            pairs = itertools.takewhile(lambda p: self.are(p, reg, m.Idx), zip(os[1::2], os[2::2]))
            return len(set(picked)) == len(picked) and all(self.same_widths(s, os[0], x.index) for s, x in pairs)
        if effect == "insert_subreg" and self.are(os, reg, reg, reg, m.Idx):
            return self.same_widths(os[1], os[0]) and self.same_widths(os[2], os[0], os[3].index)
        return True

    def v3(self, i):
        return all(not o.virtual or self.f.classes[o.num] is not None for o in self.registers(i.operands))

    def index_fits(self, o, x):
        if not o.virtual:
            return x is None
        return self.f.classes[o.num] is None or self.t.fits(self.f.classes[o.num], x)

    def v4(self, i):
        if not all(self.index_fits(o, o.index) for o in self.registers(i.operands)):
            return False
        return self.effect(i) not in ("reg_sequence", "insert_subreg") or all(
            self.index_fits(i.operands[0], o.index) for o in i.operands[1:] if isinstance(o, self.m.Idx))

    def v7(self, k, j, i):
        b = self.f.blocks[k]
        if self.allocated:
            return self.effect(i) not in ("phi", "reg_sequence", "insert_subreg")
        return self.effect(i) != "phi" or (k > 0 and all(self.effect(x) == "phi" for x in b.instrs[:j])
                                           and sorted(self.named(i)) == sorted(self.predecessors(b.number)))

    def terminates(self, i):
        return self.effect(i) in ("jump", "jcc", "jnz", "ret", "obranch", "oret")

    def v8(self, k, j, i):
        return self.terminates(i) or not any(self.terminates(x) for x in self.f.blocks[k].instrs[:j])

    def v11(self, i):
        for role, o in self.bound(i):
            if isinstance(o, self.m.RegOp):
                if o.early and not (role and role[0] == "early"):
                    return False
                if o.tie is not None and o.tie != self.tie(role):
                    return False
        if self.allocated:
            return all(d.loc == u.loc and d.index == u.index for d, u in self.tied_pairs(i))
        return all(self.same_widths(d, u) if d.virtual and u.virtual else d.loc == u.loc for d, u in self.tied_pairs(i))

    def v12(self, i):
        regs, is_opaque = self.registers(i.operands), self.is_opaque(i)
        defs = [o for o in regs if o.defn]
        for d in defs:
            if d.undef and (self.allocated or not d.virtual or sum(o.loc == d.loc for o in regs if o.defn or not o.undef) > 1):
                return False
        if any(self.clashing(a, is_opaque) & self.clashing(b, is_opaque) for k, a in enumerate(defs) for b in defs[:k]):
            return False
        uses = [(self.tie(r), o) for r, o in self.bound(i) if isinstance(o, self.m.RegOp) and not o.defn]
        early = [(n, d) for n, (r, d) in enumerate(self.bound(i)) if r and r[0] == "early"]
        if is_opaque and early and any(o.undef and tie is None for tie, o in uses):
            return False
        return not any(self.clashing(d) & self.clashing(u) for n, d in early for tie, u in uses if tie != n and not u.undef)

    def v15(self, i):
        if not self.allocated:
            return self.effect(i) not in ("spill", "reload")
        slots = {n for n, spill in self.f.frames if spill}
        return all(bool(r and r[0] == "slot") == (isinstance(o, self.m.Stk) and o.number in slots) for r, o in self.bound(i))

    # -- rules of a block

    def named(self, i):
        return [o.number for o in i.operands if isinstance(o, self.m.Blk)]

    def successors(self, b):
        return [n for n, _ in b.successors]

    def predecessors(self, n):
        return [b.number for b in self.f.blocks if n in self.successors(b)]

    def falls(self, b):
        return not b.instrs or self.effect(b.instrs[-1]) not in ("jump", "ret", "oret")

    def is_open(self, b):
        return b"open" in self.t.forms and not b.successors and not (b.instrs and self.terminates(b.instrs[-1]))

    def v5(self, k, b):
        named = self.successors(b) + [n for i in b.instrs for n in self.named(i)]
        return b.number not in self.numbers[:k] and set(named) <= set(self.numbers)

    def v6(self, k, b):
        return k > 0 or not self.predecessors(b.number)

    def v9(self, k, b):
        branches = [i for i in b.instrs if self.effect(i) in ("jump", "jcc", "jnz", "obranch")]
        if not all(self.v1(i) for i in branches) or self.is_open(b):
            return True
        due = {n for i in branches for n in self.named(i)} | set(self.numbers[k + 1:k + 2] if self.falls(b) else [])
        return sorted(self.successors(b)) == sorted(due)

    def v10(self, k, b):
        return k + 1 < len(self.numbers) or not self.falls(b) or self.is_open(b)

    def v15_frame(self, k):
        return k > 0 or self.allocated or not any(spill for _, spill in self.f.frames)

    def v16(self, b):
        return not any(word in (b.attributes or b"") for word in (b"landing-pad", b"ehfunclet-entry"))

    # -- live lanes at the starts of blocks, by plain iteration

    def acts(self, i):
        """(lanes read, moves as pairs of a lane that is filled and its source, lanes written)."""
        m, effect, os = self.m, self.effect(i), i.operands
        if effect in (None, "phi"):
            return [], [], [l for o in os[:1] for l in self.lanes(o)] if effect else []
        defs = [o for o in self.registers(os) if o.defn]
        uses = [o for o in self.registers(os) if not o.defn and not o.undef]
        written = [l for d in defs for l in self.lanes(d)]
        written += [("v", d.num, k) for d in defs if d.undef and d.virtual for k in range(len(self.range_widths(d.num)))]
        if effect in ("spill", "reload") and self.are(os, m.RegOp, m.Stk, (m.Imm, m.Idx)):
            ks = self.t.indexes[os[2].index][1] if isinstance(os[2], m.Idx) else range(len(self.widths(os[0])))
            slot = [("s", os[1].number, k) for k in ks]
            if effect == "reload":
                return [], list(zip(self.lanes(os[0]), slot)), written
            return [], [] if os[0].undef else list(zip(slot, self.lanes(os[0]))), slot
        if effect == "copy" and self.are(os, m.RegOp, m.RegOp):
            return [], [] if os[1].undef else list(zip(self.lanes(os[0]), self.lanes(os[1]))), written
        read = []
        if self.t.ops[i.op].silent and effect not in ("reg_sequence", "insert_subreg"):
            uses = []
        for o in uses:
            lanes = self.lanes(o)
            if effect == "jcc" and o.implicit and self.takes(o, self.t.ops[i.op].implicit[0]):
                condition = next(x.value for x in os if isinstance(x, m.Imm))
                lanes = lanes[{2: 2, 3: 2, 4: 0, 5: 0, 12: 1, 13: 1}.get(condition, 0):][:1]
            read += lanes
        if effect in ("call", "ocall"):
            kept = {u for o in os if isinstance(o, m.Msk) for u in self.t.mask_units[o.mask]}
            written += [("u", u) for u in range(len(self.t.units)) if u not in kept]
        return read, [], written

    def live_starts(self):
        """The lanes that are live at the start of each block, reserved units left out."""
        f = self.f
        first = {n: k for k, n in reversed(list(enumerate(self.numbers)))}

        def is_free(l):
            return not (l[0] == "u" and l[1] in self.reserved)
        starts, changed = [set() for _ in f.blocks], True
        while changed:
            changed = False
            for k, b in enumerate(f.blocks):
                leaving = set()
                for n in self.successors(b):
                    if n in first:
                        leaving |= starts[first[n]]
                        for i in f.blocks[first[n]].instrs:
                            if self.effect(i) == "phi":
                                pairs = zip(i.operands[1::2], i.operands[2::2])
                                leaving |= {l for o, x in pairs if getattr(x, "number", None) == b.number and not o.undef
                                            for l in self.lanes(o)}
                now = set(leaving)
                for i in reversed(b.instrs):
                    now |= leaving if self.terminates(i) else set()
                    read, moves, written = self.acts(i)
                    filled = {s for d, s in moves if d in now or not is_free(d)}
                    now = {l for l in (now - set(written)) | set(read) | filled if is_free(l)}
                if now != starts[k]:
                    starts[k], changed = now, True
        return starts

    def cover(self, units):
        chosen = set()
        for u in units:
            holding = [r for r in range(len(self.t.regs)) if self.t.unreserved(r) and u in self.t.units_of(r)]
            whole = [r for r in holding if set(self.t.units_of(r)) <= units]
            chosen |= set((whole or holding)[:1])
        return sorted(chosen)

    def v13(self, k, b, live):
        units = {l[1] for l in live if l[0] == "u"}
        if self.allocated and k > 0:
            return list(b.liveins) == self.cover(units)
        listed = {u for r in b.liveins for u in self.t.units_of(r)}
        return units <= listed and not listed & self.reserved and (k == 0 or self.t.version == 2 or not b.liveins)

    def v14(self, live):
        if self.allocated:
            return not any(o.virtual for b in self.f.blocks for i in b.instrs for o in self.registers(i.operands))
        return not any(l[0] == "v" for l in live)

    # -- all of them

    def faults(self):
        """Each (block, place, rule) that fails."""
        out, starts = set(), self.live_starts()
        for k, b in enumerate(self.f.blocks):
            holds = {5: self.v5(k, b), 6: self.v6(k, b), 9: self.v9(k, b), 10: self.v10(k, b), 15: self.v15_frame(k),
                     16: self.v16(b), 13: self.v13(k, b, starts[k]), 14: k > 0 or self.v14(starts[0])}
            out |= {(k, 0, rule) for rule, is_held in holds.items() if not is_held}
            for j, i in enumerate(b.instrs):
                holds = {3: self.v3(i), 4: self.v4(i), 16: not i.excluded}
                if not i.excluded:
                    holds |= {1: self.v1(i), 2: self.v2(i), 7: self.v7(k, j, i), 8: self.v8(k, j, i), 11: self.v11(i),
                              12: self.v12(i), 15: self.v15(i)}
                out |= {(k, j, rule) for rule, is_held in holds.items() if not is_held}
        return out


def read(path):
    with open(path, "rb") as f:
        return f.read()


def target_text(case, word):
    """The text of the target that a run names, or None for the built-in one."""
    return None if word == "-" else case.parts["target"] if word == "%t" else read(os.path.join(TESTS, "..", word))


def answer(cli, words, files):
    """The run of these words over these files as the model answers it."""
    status, out, line = cli.top([w.encode() for w in words], cli.MemFiles(files))
    return case_files.Run(" ".join(words), status, line.decode().splitlines(), out)


def check(model, cli, L, path, is_written):
    """What is wrong with a case, as lines, and the rules that fail beside its own."""
    _, number, form, kind = os.path.basename(path)[:-len(".mir")].split("_")[:4]
    case = case_files.read(read(path))
    run, = case.runs()
    word = run.words.split()[2]
    text = target_text(case, word)
    wanted = answer(cli, ["verify", form, word, "%s"], {b"%s": case.parts["input"], word.encode(): text or b""})
    if is_written:
        case.head = [wanted if item is run else item for item in case.head]
        run = wanted
        with open(path, "wb") as f:
            f.write(case_files.text(case))
    wrong = [] if run == wanted else [f"{run}, the model's {wanted}"]
    target = L.mini() if text is None else L.read_target(text)
    pieces = [L.read_doc(target, n == 0, 1, piece) for n, piece in enumerate(L.pieces(case.parts["input"]))]
    f, = [doc.func for doc in pieces if doc.kind == "function"]
    rules = Rules(model, target, f, form == "allocated")
    found = rules.faults()
    failing = {rule for _, _, rule in found}
    due = {int(number)} if kind == "breaks" else set()
    if failing != due and not (form == "allocated" and kind == "breaks" and failing == due | {14}):
        wrong.append(f"fails: {sorted(found)}")
    told = min((x for x in found if x[2] in due), default=None)
    line = [] if told is None else ["llra: f: bb.%d:%d: V%d" % (f.blocks[told[0]].number, told[1], told[2])]
    if wanted.lines != line or wanted.output != (b"" if line else b"valid f\n"):
        wrong.append(f"the model says {wanted.output!r} {wanted.lines}")
    first = L.first_fault(target, f, form == "allocated")
    if first != told:
        wrong.append(f"the model's first fault: {first}")
    return wrong, failing - due


def main(words):
    is_written = words[:1] == ["--write"]
    folder, cases = (words[is_written:] + [os.path.join(TESTS, "cases/rules")])[:2]
    sys.path.insert(0, folder)
    import llra_ref as L
    from llra_ref import cli, model
    names = sorted(n[:-len(".mir")] for n in os.listdir(cases) if n.startswith("rule_"))
    count = failed = 0
    beside = []
    for name in names:
        wrong, more = check(model, cli, L, os.path.join(cases, name + ".mir"), is_written)
        beside += [name] if more else []
        count, failed = count + 1, failed + bool(wrong)
        for line in wrong:
            print(f"{name}: {line}")
    due = [f"rule_{k:02}_{form}_{kind}" for k in range(1, 17) for form in ("source", "allocated") for kind in ("breaks", "edge")]
    lacking = sorted(set(due) - set(names))
    print(f"{count} cases, {failed} wrong, {len(lacking)} lacking {' '.join(lacking)}")
    print(f"V14 isn't asked and would fail too: {' '.join(beside)}")
    return 1 if failed or lacking else 0


if __name__ == "__main__":
    sys.exit(main(sys.argv[1:]))
