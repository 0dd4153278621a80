"""Functions to compare with a reference model. The folder of the model (the package `llra_ref` and the module
`generators`) must be on the path before this is imported."""
import random
import re

import llra_ref as L
from generators import Gen, MINI2_TEXT, OTHER, Other, mutated_function, odd_target


class Wide:
    """A random function over any target, straight from the roles of its opcodes: phis, loops, calls, tied and
    early-clobber definitions, sequences, and many values at once."""

    def __init__(self, target, seed):
        self.t, self.r, self.classes = target, random.Random(seed), []
        t = target
        self.fit = [[(c, i) for c in range(len(t.classes)) for i in [None] + list(range(len(t.indexes)))
                     if t.fits(c, i) and all(t.sub_of(x, i) in t.class_regs(k) for x in t.class_regs(c))]
                    for k in range(len(t.classes))]
        free = [o for o in t.ops if all(x[0] == "impdef" or not t.unreserved(x[1]) for x in o.implicit)]
        self.plain = [o for o in free if not o.terminator
                      and o.effect not in ("phi", "spill", "reload", "insert_subreg")]
        self.of = {e: [o for o in t.ops if o.effect == e] for e in ("jump", "jcc", "jnz", "ret", "cmp", "const", "obranch")}

    def name(self, v, i=None):
        t = self.t
        return "%%%d%s:%s" % (v, "" if i is None else "." + t.indexes[i][0].decode(), t.classes[self.classes[v]][0].decode())

    def fresh(self, c):
        self.classes.append(c)
        return len(self.classes) - 1

    def use(self, k):
        pool = [(v, i) for v in self.vars for c, i in self.fit[k] if c == self.classes[v]]
        return self.name(*self.r.choice(pool)) if pool else None

    def defn(self, k, used):
        """A definition of a register that no use of the instruction names."""
        r = self.r
        pool = [(v, i) for v in self.vars if "%%%d" % v not in used for c, i in self.fit[k] if c == self.classes[v]]
        if pool and r.random() < 0.5:
            return self.name(*r.choice(pool))
        c, i = r.choice(self.fit[k])
        v = self.fresh(c)
        self.new.append(v)
        return ("undef " if i is not None else "") + self.name(v, i)

    def sequence(self, out):
        r, t = self.r, self.t
        c = r.randrange(len(t.classes))
        parts, taken = [], set()
        for i in r.sample(range(len(t.indexes)), len(t.indexes)):
            if t.fits(c, i) and not taken & set(t.indexes[i][1]):
                u = self.use(t.part(c, i))
                if u:
                    taken |= set(t.indexes[i][1])
                    parts.append("%s, %%subreg.%s" % (u, t.indexes[i][0].decode()))
        if parts:
            v = self.fresh(c)
            out.append("    %s = REG_SEQUENCE %s" % (self.name(v), ", ".join(parts)))
            self.vars.append(v)

    def operand(self, role):
        r, t = self.r, self.t
        if role[0] in ("use", "tied") or (role[0] == "addr" and r.random() < 0.8):
            return self.use(role[1])
        if role[0] == "val" and role[1:] and r.random() < 0.7:
            return self.use(role[1])
        return {"addr": lambda: r.choice(["%stack.0", "%fixed-stack.1", "@x"]), "imm": lambda: str(r.randrange(-40, 70000)),
                "val": lambda: str(r.randrange(-40, 70000)),
                "frame": lambda: "%stack.0", "sym": lambda: r.choice(["@x", "&y"]),
                "mask": lambda: r.choice(t.masks)[0].decode() if t.masks else None}[role[0]]()

    def instr(self, out):
        t, r = self.t, self.r
        o = r.choice(self.plain)
        if o.effect == "call" and r.random() < 0.6:
            return
        if o.effect == "reg_sequence":
            return self.sequence(out)
        self.new = []
        if o.effect in ("copy", "implicit_def"):
            k = r.randrange(len(t.classes))
            a = self.use(k)
            if a:
                out.append("    %s = %s" % (self.defn(k, ""), "COPY " + a if o.effect == "copy" else "IMPLICIT_DEF"))
                self.vars += self.new
            return
        uses = []
        for role in o.explicit:
            if role[0] == "any":
                uses += [self.use(r.randrange(len(t.classes))) for _ in range(r.randrange(0, 4))]
            elif role[0] not in ("rest", "def", "early"):
                uses.append(self.operand(role))
        if None in uses:
            return
        used, defs = set(re.findall(r"%\d+", " ".join(uses))), []
        for role in o.explicit:
            if role[0] in ("def", "early"):
                defs.append(self.defn(role[1], used))
                used |= set(re.findall(r"%\d+", defs[-1]))
        d = ", ".join(defs) + " = " * bool(defs)
        uses += ["implicit%s $%s" % ("-def" if role[0] == "impdef" else "", t.regs[role[1]][0].decode())
                 for role in o.implicit]
        out.append("    " + d + o.name.decode() + " " * bool(uses) + ", ".join(uses))
        self.vars += self.new

    def branches(self, body, targets):
        """Branches to blocks."""
        r, t = self.r, self.t
        for b in targets:
            flags = [(c, j) for c in self.of["cmp"] for j in self.of["jcc"] if c.implicit[0][1] == j.implicit[0][1]]
            if flags and not any("J" == l[4:5] for l in body) and r.random() < 0.5 and not self.branched:
                c, j = r.choice(flags)
                uses = [self.use(x[1]) if x[0] == "use" else "7" for x in c.explicit]
                if None not in uses:
                    uses += ["implicit-def $" + t.regs[x[1]][0].decode() for x in c.implicit]
                    body.append("    %s %s" % (c.name.decode(), ", ".join(uses)))
                    body.append("    %s %%bb.%d, %d, implicit $%s" % (
                        j.name.decode(), b, r.choice([2, 3, 4, 5, 12, 13]), t.regs[j.implicit[0][1]][0].decode()))
                    self.branched = True
                    continue
            some = [o for o in self.of["jnz"] if all(x[0] == "impdef" for x in o.implicit)]
            if some:
                o = r.choice(some)
                u = self.use(o.explicit[0][1])
                if u:
                    imp = "".join(", implicit-def $" + t.regs[x[1]][0].decode() for x in o.implicit)
                    body.append("    %s %s, %%bb.%d%s" % (o.name.decode(), u, b, imp))
                    self.branched = True
            opaque = [o for o in self.of["obranch"] if not o.implicit]
            if opaque:
                o = r.choice(opaque)
                uses = ["%%bb.%d" % b if x[0] == "target" else self.operand(x) for x in o.explicit]
                if None not in uses:
                    body.append("    %s %s" % (o.name.decode(), ", ".join(uses)))
                    self.branched = True

    def function(self):
        r, t = self.r, self.t
        count = r.randrange(1, 7)
        self.vars, self.new = [], []
        entry = []
        for _ in range(r.choice([3, 8, 20, 40])):
            c = r.randrange(len(t.classes))
            some = [o for o in self.of["const"] if self.t.class_regs(o.explicit[0][1]) == t.class_regs(c)]
            v = self.fresh(c)
            entry.append("    %s = %s" % (self.name(v), "%s %d" % (r.choice(some).name.decode(), r.randrange(9000))
                                          if some and r.random() < 0.8 else "IMPLICIT_DEF"))
            self.vars.append(v)
        shared, bodies = list(self.vars), []
        for b in range(count):
            body, self.branched = [], False
            self.vars = list(shared)
            for _ in range(r.choice([3, 6, 14, 25])):
                self.instr(body)
            if b < count - 1:
                self.branches(body, [r.randrange(1, count) for _ in range(r.choice([0, 1, 1, 2]))])
                if self.of["jump"] and r.random() < 0.2:
                    body.append("    %s %%bb.%d" % (self.of["jump"][0].name.decode(), r.randrange(1, count)))
            else:
                o = self.of["ret"][0]
                k = r.randrange(len(t.classes))
                u, some = self.use(k), t.domain(k)
                imp = ["implicit%s $%s" % ("-def" if x[0] == "impdef" else "", t.regs[x[1]][0].decode()) for x in o.implicit]
                if u and some:
                    p = t.regs[r.choice(some)][0].decode()
                    body.append("    $%s = COPY %s" % (p, u))
                    imp.append("implicit $" + p)
                body.append("    %s %s" % (o.name.decode(), ", ".join(imp)))
            bodies.append(body)
        jumps = {o.name.decode() for o in self.of["jump"]}
        into = {b: set() for b in range(count)}
        for b, body in enumerate(bodies):
            for line in body:
                into_these = re.findall(r"%bb\.(\d+)", line)
                for x in into_these:
                    into[int(x)].add(b)
            if b + 1 < count and not (body and body[-1].split()[0] in jumps):
                into[b + 1].add(b)
        out = ["---", "name: w", "body: |"]
        for b, body in enumerate(bodies):
            out.append("  bb.%d:" % b)
            if b > 0 and into[b] and r.random() < 0.6:
                for _ in range(r.randrange(1, 4)):
                    c = self.classes[r.choice(shared)]
                    same = [v for v in shared if self.classes[v] == c]
                    d = self.fresh(c)
                    out.append("    %s = PHI %s" % (self.name(d), ", ".join(
                        "%s, %%bb.%d" % (self.name(r.choice(same)), p) for p in sorted(into[b]))))
                    if r.random() < 0.7:
                        body.insert(0, "    %s = COPY %s" % (self.name(r.choice(same)), self.name(d)))
            out += (entry if b == 0 else []) + body
        return ("\n".join(out + ["..."]) + "\n").encode()


def crowded(data, r):
    """The document with a NOP that reads several registers which were named before it in its block."""
    lines, seen, at = data.split(b"\n"), [], []
    for k, line in enumerate(lines):
        if line.startswith(b"  bb."):
            seen = []
        elif line.startswith(b"    ") and b"PHI" not in line and not re.match(rb"    (successors|liveins):", line):
            if len(set(seen)) >= 3:
                at.append((k, sorted(set(seen))))
            seen += re.findall(rb"%\w+", line.split(b"::")[0].split(b"=")[0]) if b"=" in line else []
    if not at:
        return data
    k, names = r.choice(at)
    count = min(len(names), r.choice([3, 4, 4, 5, 5, 6, 7]))
    lines.insert(k, b"    NOP " + b", ".join(r.sample(names, count)))
    return b"\n".join(lines)


def made(seed, files):
    """(sort of the target, its text or None, the text of a function); `files` are texts of targets."""
    r = random.Random(seed)
    sort = r.choice(["mini", "mini 2", "mini", "other", "odd", "odd"] + ["file"] * (6 * bool(files)))
    s = r.randrange(2 ** 30)
    if sort.startswith("mini"):
        data = Gen(s).function()
        text = None if sort == "mini" and Gen(s).kept is None else MINI2_TEXT
        sort = "mini" if text is None else "mini 2"
    else:
        text = OTHER if sort == "other" else odd_target(s) if sort == "odd" else r.choice(files)
        target = L.read_target(text)
        if sort == "file":
            sort = target.name.decode()
        data = (Other if sort in ("other", "odd") and r.random() < 0.5 else Wide)(target, s).function()
    change = r.random()
    if change < 0.1:
        data = mutated_function(data, r)
    elif change < 0.25:
        data = crowded(data, r)
    return sort, text, data
