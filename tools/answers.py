#!/usr/bin/env python3
"""Turns proofs/F/Proof.antt, which walked the code through `tie`, into Invariants.antt and Answers.antt.

usage: python3 tools/answers.py NAMES CRATE [FUNCTION..]
   NAMES is the names.json of `rt check --generated DIR --old-names` in the crate.
"""
import json, os, re, sys

W = r"[^\s(){}.;,@\"«»\[\]\\:|]+"
TOKEN = re.compile(r"--[^\n]*|\"(?:[^\"\\]|\\.)*\"|«[^»]*»|" + W + r"(?:\.(?:" + W + r"|«[^»]*»))*")
norm = lambda s: s.replace("_", "-")


def blocks(text):
    """The top-level declarations: (name, lines)."""
    out, cur, lead = [], None, []
    for line in text.split("\n"):
        if not line.strip():
            if cur: cur[1].append(line)
            continue
        if line.startswith("--"):
            lead.append(line); 
            if cur: out.append(cur); cur = None
            continue
        if not line[0].isspace():
            m = re.match(r"(?:(?:pub|abbrev|unfoldable|opaque)\s+)*(" + W + r")", line)
            name = m.group(1) if m else line
            if re.match(r"(?:(?:pub|abbrev|unfoldable|opaque)\s+)*" + W + r"\s*:", line) or line.startswith(("use ", "module ", "mod ", "data ", "record ", "infix")):
                if cur: out.append(cur)
                cur = (name if not line.startswith("use ") else "use", lead + [line]); lead = []
                continue
            if line.startswith("unfolding") or (cur and name == cur[0]):
                cur[1].append(line); continue
            if cur: out.append(cur)
            cur = (name, lead + [line]); lead = []
        else:
            if cur is None:
                cur = ("?", lead); lead = []
            cur[1].append(line)
    if cur: out.append(cur)
    if lead: out.append(("--", lead))
    return out


class Fn:
    def __init__(self, rec):
        self.rec = rec
        self.parent, self.own, self.callee = {}, {}, {}
        self.newplace = {}
        self.renamed = {}
        self.arms = {}
        self.clauses = {}
        for p, q in zip(rec["places"], rec["places_by_name"]):
            t, parent, (of, nf) = p[0], p[1], p[2]
            self.parent[t] = parent
            self.own[t] = (of, nf)
            self.newplace[t] = q
            self.callee[t] = p[3]
            self.renamed[t] = dict(p[4]) if p[4] else {}
        for p, a, c in zip(rec["places"], rec["arms"], rec["clauses"]):
            if a:
                self.arms[p[0]] = a
            if c:
                self.clauses[p[0]] = c
        # lookup by normalised name too
        self.byn = {}
        for t in self.parent: self.byn.setdefault(norm(t), t)
        for t, n in list(self.newplace.items()): self.byn.setdefault(norm(n), t)
        self.needs = {}
        for (o, n), a in zip(rec["needs"], rec["asked_at"] if len(rec.get("asked_at", [])) == len(rec["needs"]) else [None] * len(rec["needs"])):
            self.needs[norm(o)] = (n, a[0] if a else None)
            self.needs.setdefault(norm(n), (n, a[0] if a else None))
        self.loops = rec["loops"]
        self.changed = rec["changed"]

    def place(self, name):
        n = norm(name)
        if n in self.byn: return self.byn[n]
        return None

    def up(self, t, k):
        for _ in range(k):
            if t is None: return None
            t = self.parent.get(t)
        return t

    def arm(self, t, name, rest):
        """What a `match` told under an older name, by its arm: (new name, what is left of the path)."""
        x = t
        while x is not None:
            a = self.arms.get(x)
            if a:
                for new, step, path in a[2]:
                    if norm(step) == norm(name) and path and rest[: len(path)] == path:
                        return [a[0], new] + rest[len(path) :]
            x = self.parent.get(x)
        return None

    def at_field(self, t, name):
        """The place at which the step `name` was taken, as seen from t."""
        n = norm(name)
        x = t
        while x is not None:
            o, nw = self.own[x]
            if norm(o) == n or norm(nw) == n:
                return x
            x = self.parent.get(x)
        return None

    def field(self, t, name):
        """the new name of the step `name` as seen from place t"""
        n = norm(name)
        x = t
        first = True
        while x is not None:
            o, nw = self.own[x]
            if norm(o) == n or norm(nw) == n: return nw
            if first and n in ("loop-test",) and nw.endswith("-test"): return nw
            if n == "loop-test" and nw.endswith("-test"): return nw
            x = self.parent.get(x); first = False
        return None


SUB = {"inv": "invariant", "taken": None, "left": None, "measured": None, "pre": "requires", "kept": "auto", "last": "new", "came": None}


def rewrite(text, env, fn, notes):
    """env: variable -> (place, depth) where depth is 1 for a goal's c (its own record lies one below), 0 for a helper's."""
    env = dict(env)

    def one(m):
        t = m.group(0)
        if t.startswith("--") or t[0] == '"': return t
        parts = re.findall(r"«[^»]*»|" + W, t)
        v = parts[0]
        if v not in env or t.startswith("."): return t
        place, deep = env[v]
        i = 1
        n = 0
        while i < len(parts) and parts[i] == "before": n += 1; i += 1
        at = fn.up(place, n)
        if i == len(parts):
            # passed to a helper: the place that it takes decides how far back it lies
            head = re.search(r"(" + W + r") \(?$", text[max(0, m.start() - 80) : m.start()])
            to = fn.params.get(head.group(1)) if head else None
            if to is None:
                to = fn.goal_place
            if to is not None:
                k, x = 0, place
                while x is not None and x != to:
                    x = fn.parent.get(x)
                    k += 1
                if x is not None:
                    n = k
            return v + ".before" * (n + deep) if (n or deep) else v
        f = parts[i]
        rest = parts[i + 1 :]
        if f == "pre":
            pre = fn.rec.get("pre")
            if pre and rest and rest[0].isdigit() and int(rest[0]) < len(pre["fields"]):
                return ".".join([v, "requires", pre["fields"][int(rest[0])]] + rest[1:])
            return ".".join([v, "requires"] + rest)
        if at and deep:
            told = fn.arm(at, f, rest)
            if told:
                return ".".join([v] + told)
        if at and rest and rest[0] == "ensures" and len(rest) > 1 and rest[1].isdigit():
            where = fn.at_field(at, f)
            names = fn.clauses.get(where)
            if isinstance(names, dict):
                names = names.get("fields")
            if isinstance(names, list) and int(rest[1]) < len(names) and isinstance(names[int(rest[1])], str):
                rest[1] = names[int(rest[1])]
        f = {"is_IsWord": "is_word"}.get(f, f)
        new = fn.field(at, f) if at else None
        if new is None and place:
            new = fn.field(place, f)
        if new is None and f in ("args", "requires", "lifetimes", "ranges", "well_formed"): new = f
        if new is None:
            notes.append(f"no step {f} at {at} in {t}")
            new = f.replace("-", "_") if not f.startswith(("if", "loop", "in")) else f
        # old words of a step's fields
        if rest and (new.startswith("if-") or new.endswith("-test")):
            rest[0] = {"taken": "true", "left": "false"}.get(rest[0], rest[0])
        if rest and rest[0] == "inv":
            rest[0] = "invariant"
        return ".".join([v, new] + rest)

    out, last = [], 0
    # lets: track types as they come
    pos = 0
    LET = re.compile(r"\blet\s+(" + W + r")\s*=\s*([^\n]*?)\s+in\b")
    # process sequentially: find lets binding places
    lets = []
    for m in LET.finditer(text):
        e = m.group(2).strip()
        mm = re.match(r"^(" + W + r")((?:\.before)*)$", e)
        if mm and mm.group(1) in env:
            p, d = env[mm.group(1)]
            env[m.group(1)] = (fn.up(p, len(re.findall(r"\.before", mm.group(2)))), 0)
            continue
        mm = re.match(r"^(" + W + r")\s+(" + W + r"(?:\.before)*)((?:\.before)*)$", e)
        if mm and mm.group(1) in fn.results:
            env[m.group(1)] = (fn.results[mm.group(1)], 0)
    # a call of a point function followed by a path: (at-turn c).loop..  left alone
    return TOKEN.sub(one, text)


def args_of(sig):
    """explicit arguments of a signature: list of (names or None, type text)"""
    out, depth, start = [], 0, 0
    i = 0
    parts = []
    for i, ch in enumerate(sig):
        if ch in "({[": depth += 1
        elif ch in ")}]": depth -= 1
        elif ch == "→" and depth == 0:
            parts.append(sig[start:i].strip()); start = i + 1
    parts.append(sig[start:].strip())
    for p in parts[:-1]:
        # may be several groups: (a : A) (b : B)
        pos = 0
        groups = []
        depth = 0; st = None
        for j, ch in enumerate(p):
            if ch in "({":
                if depth == 0: st = j
                depth += 1
            elif ch in ")}":
                depth -= 1
                if depth == 0: groups.append((p[st], p[st + 1 : j]))
        bare = re.sub(r"\s+", "", p)
        if groups and p.startswith(("(", "{")) and all(re.match(r"\s*[^:()]+:", g[1]) for g in groups):
            for br, g in groups:
                names, ty = g.split(":", 1)
                for nm in names.split():
                    if br == "(": out.append((nm, ty.strip()))
                    else: out.append((None, "{}"))
        else:
            out.append((None, p))
    return [o for o in out if o[1] != "{}"], parts[-1]


def as_record(b, fields):
    """A tuple for several clauses, as a record by their names."""
    s = b.strip()
    if s.endswith(")") and not s.startswith("(") and s.startswith("let "):
        depth = 0
        for at in range(len(s) - 1, -1, -1):
            depth += (s[at] == ")") - (s[at] == "(")
            if depth == 0:
                break
        tail = as_record(s[at:], fields)
        return s[:at] + tail if tail.startswith("record") and s[:at].rstrip().endswith("in") else b
    if not s.startswith("("):
        return b
    depth, cuts = 0, [0]
    for at, ch in enumerate(s):
        depth += (ch in "([{") - (ch in ")]}")
        if depth == 0 or (depth == 1 and ch == ","):
            cuts.append(at)
        if depth == 0:
            break
    if at != len(s) - 1:
        return b
    each = [s[x + 1 : y].strip() for x, y in zip(cuts, cuts[1:])]
    each = [e for e in each if e]
    if len(each) != len(fields):
        return b
    bare = lambda it: f"({it})" if re.match(r"λ|let ", it) else it
    return "record { " + "; ".join(f"{f} = {bare(e)}" for f, e in zip(fields, each)) + " }"


TIE = re.compile(r"tie\.(" + W + r")((?:\s+(?:invariant|decreases|inv|μ|measure|the-)[-\w₀-₉]*)*)")


def many_clauses(path, crate):
    """Whether the function has clauses with names."""
    name = os.path.basename(path.rstrip("/"))
    src = os.path.join(path.split("/proofs/")[0], "src")
    for f in os.listdir(src):
        m = re.search(r"fn " + re.escape(name) + r"\(.*?\n\s*\{\n", open(os.path.join(src, f), encoding="utf-8").read(), re.S)
        if m:
            return bool(re.search(r"(?m)^\s*(requires|ensures) [a-z_0-9]+ \{", m.group(0)))
    return False


def convert(path, rec, crate):
    notes = []
    fn = Fn(rec)
    fn.results = {}
    fn.params = {}
    fn.goal_place = None
    fn.many = many_clauses(path, crate)
    text = open(os.path.join(path, "Proof.antt"), encoding="utf-8").read()
    bl = blocks(text)
    rel = path.split("/proofs/")[1].rstrip("/").replace("/", ".")
    head, uses, inv, ans = [], [], [], []
    usedplaces = set()
    # first pass: results of helpers
    for name, lines in bl:
        s = "\n".join(l for l in lines if not l.startswith("--"))
        m = re.match(r"(?:(?:pub|abbrev|unfoldable)\s+)*" + W + r"\s*:(.*?)(?=\n\S|\Z)", s, re.S)
        if not m: continue
        a, res = args_of(m.group(1))
        mm = TIE.fullmatch(res.strip())
        if mm and fn.place(mm.group(1)): fn.results[name] = fn.place(mm.group(1))
        for _, ty in a:
            mm = TIE.fullmatch(ty.strip())
            if mm and fn.place(mm.group(1)):
                fn.params.setdefault(name, fn.place(mm.group(1)))
    invnames = {}
    for name, lines in bl:
        comments = [l for l in lines if l.startswith("--")]
        body = [l for l in lines if not l.startswith("--")]
        s = "\n".join(body).rstrip()
        if name == "use":
            if ".Tie as" in s or ".Statement." in s: continue
            uses.append(s); continue
        if name in ("?", "--"):
            head += lines; continue
        if re.match(r"pub \S+[-_]spec\s*:", s): continue
        sig = re.match(r"((?:(?:pub|abbrev|unfoldable)\s+)*)(" + W + r")\s*:(.*?)(?=\n\S|\Z)", s, re.S)
        if not sig:
            ans.append("\n".join(comments + [s])); notes.append(f"block {name} kept as it is"); continue
        rest = s[sig.end():].lstrip("\n")
        ty = sig.group(3).strip()
        lm = re.match(r"tie\.(invariant|decreases)-(" + W + r")\s*$", ty)
        if lm:
            kind, lp = lm.groups()
            lp = lp if lp.startswith("loop") or True else lp
            # which loop
            found = None
            for k, (names, vars_) in enumerate(fn.loops):
                if norm(names[0]) == norm(lp) or norm(names[1]) == norm(lp): found = k
            if found is None:
                notes.append(f"loop {lp} not found"); inv.append("-- " + s.replace("\n", "\n-- ")); continue
            names, vars_ = fn.loops[found]
            changed = fn.changed[found]
            order = [(v, ("initial." if ch else "") + v) for v, ch in zip(vars_, changed)] + [(v, v) for v, ch in zip(vars_, changed) if ch]
            em = re.match(re.escape(sig.group(2)) + r"((?:\s+\S+)*?)\s*=\s*(.*)\Z", rest, re.S)
            unf = ""
            if not em:
                notes.append(f"equation of {name} not read"); inv.append("-- " + s.replace("\n", "\n-- ")); continue
            binders = em.group(1).split()
            if len(binders) != len(order):
                notes.append(f"{name}: {len(binders)} binders for {[o[1] for o in order]}")
            sub = {b: "l." + o[1] for b, o in zip(binders, order)}
            def binder(m):
                t = m.group(0)
                if t.startswith("--") or t[0] == '"': return t
                parts = t.split(".")
                if parts[0] in sub: return ".".join([sub[parts[0]]] + parts[1:])
                return t
            b = TOKEN.sub(binder, em.group(2))
            new = f"{kind}-{names[1]}"
            invnames[name] = new
            inv.append("\n".join(comments + [f"abbrev pub {new} : goal.{new}", f"{new} l = {b.strip()}"]))
            continue
        nm = re.match(r"tie\.Need-(" + W + r")", ty)
        if nm:
            need = fn.needs.get(norm(nm.group(1)))
            if need is None:
                # `overflow-add-i` for add-i, and the like
                alt = re.sub(r"^(overflow|nonzero|bounds|loop)-", "", norm(nm.group(1)))
                need = fn.needs.get(alt)
            if need is None:
                notes.append(f"need {nm.group(1)} is gone"); continue
            new, place = need
            unf = ""
            um = re.match(r"((?:unfolding[^\n]*\n(?:[ \t]+[^\n]*\n)*)*)", rest)
            unf = um.group(1); rest2 = rest[um.end():]
            em = re.match(r"(" + W + r")((?:\s+[^\s=]+)*)\s*=\s*(.*)\Z", rest2, re.S)
            if not em:
                notes.append(f"equation of {name} not read"); ans.append("\n".join(comments + [s])); continue
            binders = em.group(2).split()
            b = em.group(3).strip()
            if not unf and re.fullmatch(r"search rules|tt|omega arith|\(tt, tt\)", b):
                continue
            c = binders[0] if binders else "c"
            eq = ""
            if not binders:
                notes.append(f"{name} takes no c")
            env = {c: (place, 1)} if place else {}
            b = rewrite(b, env, fn, notes)
            fields = fn.rec.get("asked", {}).get(new)
            if fields:
                b = as_record(b, fields)
            more = "".join(" " + x for x in binders[1:] if not x.startswith("κs"))
            ans.append("\n".join(comments + [f"pub {new} : goal.{new}", (unf + f"{new} {c}{more} = {b}" if binders else unf + f"{new} = {b}")]))
            continue
        # a helper
        a, res = args_of(sig.group(3))
        env = {}
        for n, t in a:
            mm = TIE.fullmatch(t.strip())
            if mm and n and fn.place(mm.group(1)): env[n] = (fn.place(mm.group(1)), 0)
        def tie(m):
            p = fn.place(m.group(1))
            if p is None:
                notes.append(f"tie.{m.group(1)} in {name}"); return m.group(0)
            usedplaces.add(p); return p
        newsig = rewrite(TIE.sub(tie, sig.group(3)), env, fn, notes)
        um = re.match(r"((?:unfolding[^\n]*\n(?:[ \t]+[^\n]*\n)*)*)", rest)
        unf = um.group(1); rest2 = rest[um.end():]
        # each equation of the helper
        eqs = re.split(r"(?m)^(?=" + re.escape(sig.group(2)) + r"(?=[\s=]))", rest2)
        outeq = []
        for e in eqs:
            if not e.strip(): continue
            em = re.match(r"(" + W + r")((?:\s+[^\s=]+)*?)\s*=(?=\s)(.*)\Z", e, re.S)
            if not em:
                outeq.append(e.rstrip()); continue
            binders = em.group(2).split()
            en = {}
            for (n, t), b in zip(a, binders):
                mm = TIE.fullmatch(t.strip())
                if mm and fn.place(mm.group(1)): en[b] = (fn.place(mm.group(1)), 0)
            if re.fullmatch(r"\s*" + W + r"(?:\.before)*\s*", em.group(3)):
                fn.goal_place = fn.results.get(name)
            outeq.append(em.group(1) + em.group(2) + " =" + rewrite(TIE.sub(tie, em.group(3)), en, fn, notes).rstrip())
            fn.goal_place = None
        ans.append("\n".join(comments + [sig.group(1) + sig.group(2) + " :" + newsig.rstrip()] + ([unf.rstrip()] if unf else []) + outeq))
    # write
    mod = f"Rattle.{crate}.proofs.{rel}"
    if inv:
        t = "\n".join(head + uses + [f"use {mod}.Given as goal"]) + "\n\n" + "\n\n".join(inv) + "\n"
        open(os.path.join(path, "Invariants.antt"), "w", encoding="utf-8").write(t)
    if ans:
        pl = []
        extra = []
        if usedplaces:
            extra = ([f"use {mod}.Tie as tie"] if fn.rec.get("pre") or fn.many or fn.rec.get("asked") or any(fn.rec["clauses"]) or any(x and "::" in x for x in fn.callee.values()) else []) + [f"use {mod}.Lts as lts", f"use {mod}.Reads as reads"]
            it = ""
            for names, _ in fn.loops: it += f" goal.the-invariant-{names[1]} goal.the-decreases-{names[1]}"
            handed = " tie.handed_clauses" if fn.rec.get("pre") or fn.many or fn.rec.get("asked") or any(fn.rec["clauses"]) else ""
            claims = " tie.the-claims" if any(x and "::" in x for x in fn.callee.values()) else ""
            for p in sorted(usedplaces): pl.append(f"abbrev {p} : Type 0\n{p} = lts.{p}{claims} reads.Pre reads.Post{it}{handed}")
        t = "\n".join(([] if inv else head) + uses + [f"use {mod}.Goals as goal"] + extra) + "\n\n" + "\n\n".join(pl + ans) + "\n"
        open(os.path.join(path, "Answers.antt"), "w", encoding="utf-8").write(t)
    os.remove(os.path.join(path, "Proof.antt"))
    if not os.listdir(path): os.rmdir(path)
    return notes


def main(argv):
    names = json.load(open(argv[0]))
    crate_dir = argv[1].rstrip("/")
    crate = os.path.basename(crate_dir)
    only = argv[2:]
    for key, rec in sorted(names.items()):
        m = re.match(r"Rattle-" + re.escape(crate) + r"-proofs\.(.*)\.Lts(.*)$", key)
        if not m: continue
        f = m.group(1)
        if only and f not in only: continue
        path = os.path.join(crate_dir, "proofs", *f.split("."))
        if not os.path.isfile(os.path.join(path, "Proof.antt")): continue
        for n in convert(path, rec, crate): print(f"{f}: {n}")


main(sys.argv[1:])
