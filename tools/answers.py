#!/usr/bin/env python3
"""Turns the older form of a function's proof, proofs/F/Proof.antt over the module Tie, to Invariants.antt and Answers.antt.

usage: python3 tools/answers.py CRATE..     at the top of the repository, once port.py and tools/respell.py have run over it

For each folder that has such a Proof.antt: its loops' invariants and measures, and an answer for each goal that it answers, with the places of the old
form (`c.before.before.loop`) as the names of today's (`c.loop-i`), which `rt check --generated DIR --old-names` lists. Helpers along the code that call
one another are stated over the records of the function's Lts. Then it checks the crate, and mends what the check says of places. What stays open is for a
person, with what the old proof says: it stands in the folder that is printed, beside all answers made and what could not be turned (`problems`).
"""
import json, os, re, shutil, subprocess, sys, tempfile

WORK = os.path.join(tempfile.gettempdir(), "answers")

RT = "rt"
NAME = r"[^\s(){}.;,@\"«»`]+"

def sh(*a, cwd=None):
    return subprocess.run(a, cwd=cwd, stdout=subprocess.PIPE, stderr=subprocess.STDOUT, text=True, errors="replace").stdout

def norm(n):
    n = n.replace("_", "-")
    n = re.sub(r"(?<=[a-zA-Z])(\d+)$", r"\1", n)
    return n

def norm_need(n):
    n = norm(n)
    n = re.sub(r"^overflow-", "", n)
    n = re.sub(r"^slice-bounds-", "part-", n) if n.startswith("slice-bounds-") else n
    n = n.replace("-holds", "-init").replace("-again", "-preserved").replace("-falls", "-smaller")
    return n

class Names:
    def __init__(self, d):
        self.places = [p[0] for p in d["places"]]
        self.parent = [self.places.index(p[1]) if p[1] is not None else None for p in d["places"]]
        self.step = [(p[2][0], p[2][1]) for p in d["places"]]
        self.callee = [p[3] for p in d["places"]]
        self.new = d["places_by_name"]
        self.arms = d["arms"]
        self.needs = d["needs"]
        self.asked = d["asked_at"]
        self.loops = d["loops"]
        self.changed = d["changed"]
        self.params = d["params"]
        self.normal = {norm(p): i for i, p in enumerate(self.places)}
    def place(self, name):
        return self.normal.get(norm(name))
    def up(self, i, k):
        for _ in range(k):
            if i is None: return None
            i = self.parent[i]
        return i

class Odd(Exception):
    pass

def split_decls(text):
    """[(comment, kind, name, lines)]; kind: use, decl, module"""
    lines = text.rstrip("\n").split("\n")
    out, i, comment = [], 0, []
    while i < len(lines):
        l = lines[i]
        if l.startswith("--"):
            comment.append(l); i += 1; continue
        if not l.strip():
            i += 1; continue
        j = i + 1
        if l.startswith("use "):
            while j < len(lines) and lines[j][:1] in (" ", "}") and "}" not in "".join(lines[i:j]):
                j += 1
            out.append((comment, "use", "", lines[i:j])); comment = []; i = j; continue
        if l.startswith("module _"):
            while j < len(lines) and (lines[j][:1] == " " or not lines[j].strip()):
                j += 1
            out.append((comment, "module", "", lines[i:j])); comment = []; i = j; continue
        m = re.match(rf"(?:(?:abbrev|pub|unfoldable) )*({NAME})(?: |$)", l)
        name = m[1]
        while j < len(lines):
            n = lines[j]
            if n[:1] in (" ", ")", "}") or n.startswith("unfolding ") or re.match(rf"{re.escape(name)}( |$)", n):
                j += 1; continue
            if not n.strip():
                k = j
                while k < len(lines) and not lines[k].strip(): k += 1
                if k < len(lines) and (lines[k][:1] == " " or lines[k].startswith("unfolding ") or re.match(rf"{re.escape(name)}( |$)", lines[k])):
                    j = k; continue
            break
        out.append((comment, "decl", name, lines[i:j])); comment = []; i = j
    return out

def matching(s, i):
    d = 0
    for k in range(i, len(s)):
        if s[k] == "(": d += 1
        elif s[k] == ")":
            d -= 1
            if d == 0: return k
    raise Odd("parens")

def args_of(s):
    """splits an application's arguments at top level"""
    out, i = [], 0
    while i < len(s):
        if s[i].isspace(): i += 1; continue
        if s[i] == "(":
            j = matching(s, i) + 1
            while j < len(s) and not s[j].isspace() and s[j] not in "()": j += 1
            out.append(s[i:j]); i = j
        else:
            j = i
            while j < len(s) and not s[j].isspace() and s[j] not in "()": j += 1
            out.append(s[i:j]); i = j
    return out

class Conv:
    def __init__(self, names, crate, path, helpers):
        self.n, self.crate, self.path, self.helpers = names, crate, path, helpers
        self.problems = []
        self.lts = False
        self.ways = set()
        self.at = 0
        self.placed = {}
        self.raw = False
        self.bare = set()
        self.mods = {}

    def new_path(self, place, fields):
        """fields after the place: a step and what follows; at the place itself or above (flat)"""
        n = self.n
        if not fields: return None
        step, rest = fields[0], fields[1:]
        if step == "fits" and rest: return ".".join(["ranges", rest[0], "fits"] + rest[1:])
        if step in ("args", "requires", "pre", "ranges", "well_formed", "lifetimes", "items_fit"):
            return ".".join([{"pre": "requires"}.get(step, step)] + rest)
        # the place (this or an ancestor, or one above c) whose step it is
        want = norm(step)
        want2 = want[:-4] if want.endswith("-lem") else want
        hit = None
        for start in (place, self.at):
            i = start
            while i is not None:
                if norm(n.step[i][0]) in (want, want2) and n.step[i][0]: hit = i; break
                i = n.parent[i]
            if hit is not None: break
        if hit is None:
            hit = next((i for i in range(len(n.places)) if norm(n.step[i][0]) in (want, want2) and n.step[i][0]), None)
        i = hit
        if i is None: raise Odd(f"no step {step} at {n.places[place]}")
        old, new = n.step[i]
        # arms
        p = None if self.lts and self.raw else self.at
        best = None
        while p is not None:
            a = n.arms[p] if p < len(n.arms) else None
            if a:
                for f, o, oldpath in a[2]:
                    if norm(o) == norm(old) and rest[:len(oldpath)] == oldpath and oldpath:
                        if best is None or len(oldpath) > best[0]:
                            best = (len(oldpath), ".".join([a[0], f] + rest[len(oldpath):]))
            p = n.parent[p]
        if best: return best[1]
        # calls: new values and lengths by name
        if rest and rest[0] in ("new", "last", "auto", "kept") and n.callee[i] and len(rest) > 1:
            k = 0
            r = rest[1:]
            while r and r[0] == "1": k += 1; r = r[1:]
            if r and r[0] == "0": r = r[1:]
            ps = n.params.get(n.callee[i])
            if ps and k < len(ps):
                return ".".join([new, {"last": "new", "kept": "auto"}.get(rest[0], rest[0]), ps[k]] + r)
        if old.startswith("loop") and rest and rest[0] in ("new", "last", "auto", "kept") and not old.endswith("-test"):
            return ".".join([new, {"new": "last", "auto": "kept"}.get(rest[0], rest[0])] + rest[1:])
        rest = [{"taken": "true", "left": "false", "inv": "invariant", "came": "branch", "pre": "requires", "last": "new", "kept": "auto"}.get(x, x) if k == 0 else x for k, x in enumerate(rest)]
        if new == "loop-test" or new.endswith("-test"):
            rest = rest
        return ".".join([new] + rest)

    def sums(self, text):
        """⊎_elim (λ w. A) (λ w. B) PATH.branch to an elim of the branch"""
        while True:
            m = re.search(r"⊎_elim\b", text)
            if not m: return text
            i = m.end()
            got = []
            while len(got) < 3:
                while text[i].isspace(): i += 1
                if text[i] == "(":
                    j = matching(text, i) + 1
                    while j < len(text) and text[j] not in " \n(){},;": j += 1
                else:
                    j = i
                    while j < len(text) and text[j] not in " \n(){},;": j += 1
                got.append(text[i:j]); i = j
            pm = re.match(r"([^\s()]*?)\.?(if\d+)\.(branch|came)$", got[2])
            if not pm: raise Odd(f"⊎_elim at {got[2][:40]}")
            step = pm[2]
            k = next((i2 for i2 in range(len(self.n.places)) if self.n.step[i2][0] == step), None)
            if k is None: raise Odd(f"no {step}")
            new = self.n.step[k][1]
            arms = []
            for side, a in zip(("then", "else"), got[:2]):
                lm = re.match(r"\(λ (\w+)((?: \w+)*)\.(.*)\)$", a, re.S)
                if not lm: raise Odd(f"⊎_elim with {a[:40]}")
                w, more, b = lm[1], lm[2], lm[3]
                b = re.sub(rf"(?<![\w.]){w}\.0\.(taken|true)\b", f"{w}.{new}.true", b)
                b = re.sub(rf"(?<![\w.]){w}\.0\.(left|false)\b", f"{w}.{new}.false", b)
                b = re.sub(rf"(?<![\w.]){w}\.1\b", f"{w}.IS", b)
                arms.append(f"{side}{new[2:]} {w} ↦ {'λ' + more + '.' if more else ''}{b}")
                self.ways.add(f"{side}{new[2:]}")
            text = text[:m.start()] + f"elim {got[2]} [ {arms[0]} | {arms[1]} ]" + text[i:]

    def partial(self, place, fields):
        """whether the fields begin an arm's path and are not a whole one"""
        if not fields: return False
        step, rest = fields[0], fields[1:]
        hit = False
        p = None if self.lts and self.raw else self.at
        while p is not None:
            a = self.n.arms[p] if p < len(self.n.arms) else None
            if a:
                for f, o, oldpath in a[2]:
                    if norm(o) == norm(step) and oldpath:
                        if rest[:len(oldpath)] == oldpath: return False
                        if oldpath[:len(rest)] == rest: hit = True
            p = self.n.parent[p]
        return hit

    def body(self, text, env, goal, at):
        """text with paths turned; env: variable -> place index; at: place index of c"""
        env = dict(env)
        self.at = at
        self.raw = goal is None
        for _ in range(6):
            was = text
            for h, (pl, inner) in self.placed.items():
                dist, q = 0, at
                while q is not None and q != pl: q = self.n.parent[q]; dist += 1
                if q is None: dist = 0
                root = next((v for v, x in env.items() if len(x) == 2), "c")
                path = root + ".before" * dist
                text = re.sub(rf"\({re.escape(h)} [\w]+(?:\.before)*\)", path, text)
                text = re.sub(rf"(?<![\w'.-]){re.escape(h)} [a-z](?:\.before)*(?![\w.-])", path, text)
                if inner and h in self.bare:
                    text = re.sub(rf"(?<![\w'.-]){re.escape(h)}(?![\w'-])(?! :)(?! \(| [a-z](?:\.before)*(?![\w.-]))", path, text)
            if text == was: break
        text = self.sums(text)
        out, i = [], 0
        tok = re.compile(r"[^\s(){},;]+|\s+|[(){},;]")
        pos = 0
        while pos < len(text):
            m = re.compile(r"let ([\w'-]+) = ([^\s(){},;]+) in\b[ \n]*").match(text, pos)
            if m and (pos == 0 or text[pos - 1] in " \n("):
                parts = m[2].split(".")
                if parts[0] in env and all(x == "before" for x in parts[1:]) and not env[parts[0]][2:]:
                    q = self.n.up(env[parts[0]][0], len(parts) - 1)
                    env[m[1]] = (0 if q is None else q, env[parts[0]][1])
                    pos = m.end(); continue
                if parts[0] in env:
                    k = 1
                    while k < len(parts) and parts[k] == "before": k += 1
                    q = self.n.up(env[parts[0]][0], k - 1)
                    if q is None: q = 0
                    fl = list(env[parts[0]][2] if env[parts[0]][2:] else []) + parts[k:]
                    if q is not None and self.partial(q, fl):
                        env[m[1]] = (q, env[parts[0]][1], fl)
                        pos = m.end(); continue
            m = tok.match(text, pos)
            t = m[0]
            pos = m.end()
            if t.isspace() or t in "(){},;":
                out.append(t); continue
            h = re.match(r"^(\()?(.*)$", t)
            parts = t.split(".")
            if parts[0] in env and (len(parts) > 1 and parts[1] or len(parts) == 1):
                place, root = env[parts[0]][:2]
                pre = env[parts[0]][2] if env[parts[0]][2:] else None
                k = 1
                if pre is not None:
                    if len(parts) == 1: raise Odd(f"{t} alone")
                    out.append(f"{root}.{self.new_path(place, pre + parts[1:])}")
                    continue
                while k < len(parts) and parts[k] == "before": k += 1
                p = self.n.up(place, k - 1)
                if p is None: p = 0
                if k == len(parts):
                    # a place itself, an argument of a helper
                    prev = "".join(out).rstrip()
                    hm = re.search(r"([^\s(){},;]+)$", prev)
                    hn = hm[1] if hm else ""
                    if hn in self.helpers:
                        hp = self.helpers[hn]
                        steps, q = 0, at
                        while q is not None and q != hp: q = self.n.parent[q]; steps += 1
                        if self.lts:
                            if q is None: self.problems.append(f"helper {hn} at {self.n.places[hp]}, from {self.n.places[at]}"); steps = 0
                            out.append(root + ".before" * (steps + (1 if goal else 0)))
                        elif hp == at: out.append(root)
                        elif goal: out.append(f"(goal.at.{goal} {root}).{self.n.new[hp]}")
                        else:
                            self.problems.append(f"helper {hn} in a helper")
                            out.append(f"⟪{hn}⟫{root}")
                    else:
                        out.append(root)
                    continue
                new = self.new_path(p, parts[k:])
                if re.match(r"if-not-[^.]*\.(true|false)$", new): out.append(f"⟨ap not {root}.{new}⟩")
                else: out.append(f"{root}.{new}")
            else:
                out.append(t)
        r = "".join(out)
        r = re.sub(r"\(not-(?:true|false) _ ⟨ap not ([^⟩]*)⟩\)", r"\1", r)
        r = re.sub(r"not-(?:true|false) _ ⟨ap not ([^⟩]*)⟩", r"\1", r)
        r = re.sub(r"⟨ap not ([^⟩]*)⟩", r"(ap not \1)", r)
        r = re.sub(r"\(not-(?:true|false) _ ([^\s()]+\.(?:true|false))\)", r"\1", r)
        r = re.sub(r"not-(?:true|false) _ ([^\s()]+\.(?:true|false))\b", r"\1", r)
        return r

def uses_for(body, uses):
    """the use lines whose names the body needs"""
    toks = set(re.findall(NAME, body))
    flat = set()
    for t in toks: flag = flat.add(t)
    lines = []
    for u in uses:
        m = re.match(r"use (\S+?)\.\{(.*)\}$", u)
        if not m:
            am = re.match(r"use \S+ as (\S+)$", u)
            if not am or re.search(rf"(?<![\w.-]){re.escape(am[1])}\.", body): lines.append(u)
            continue
        keep = []
        for part in re.split(r",\s*", m[2].strip()):
            if not part: continue
            nm = part.split(" as ")[-1].strip()
            if "◌" in nm:
                pieces = [x for x in nm.split("◌") if x]
                if all(x in toks for x in pieces) or nm in toks: keep.append(part)
            elif nm in toks or nm.strip("«»") in toks: keep.append(part)
        if keep: lines.append(f"use {m[1]}.{{{', '.join(keep)}}}")
    return lines

def convert(crate, folder, names, root):
    """returns (invariants text or None, [answers], problems)"""
    path = os.path.join(root, "crates", crate, "proofs", folder)
    text = open(os.path.join(path, "Proof.antt")).read()
    mod = f"Rattle.{crate}.proofs." + folder.replace("/", ".")
    decls = split_decls(text)
    uses, problems = [], []
    head = []
    for k, (c, kind, name, lines) in enumerate(decls):
        if kind == "use":
            if k == 0: head = c
            u = " ".join(x.strip() for x in lines)
            u = re.sub(r"\{ +", "{", re.sub(r",? *\}", "}", u))
            if re.search(r"\.(Statement|Tie)\b", u): continue
            if "Author.Rules" in u: 
                uses.append(u); continue
            uses.append(u)
    helpers, flat = {}, []
    # flatten modules
    for c, kind, name, lines in decls:
        if kind == "module":
            m = re.match(r"module _ (.*) where", lines[0])
            params = m[1]
            pm = re.match(r"\((\w+) : tie\.(\S+?)((?: [^()]*)?)\)$", params.strip())
            inner = split_decls("\n".join(l[2:] if l.startswith("  ") else l for l in lines[1:]))
            for ic, ikind, iname, il in inner:
                if ikind == "use":
                    uses.append(" ".join(x.strip() for x in il)); continue
                flat.append((ic, "in", iname, il, params))
        elif kind == "decl":
            flat.append((c, "decl", name, lines, None))
    def place_of_type(t):
        m = re.match(r"tie\.([^\s()]+)", t)
        return names.place(m[1]) if m else None
    for c, kind, name, lines, params in flat:
        sig = "\n".join(lines)
        if kind == "in":
            m = re.match(r"\((\w+) : (tie\.[^()]*)\)$", params.strip())
            if m:
                p = place_of_type(m[2])
                if p is not None: helpers[name] = p
                else: problems.append(f"module {params}")
            else: problems.append(f"module {params}")
        else:
            m = re.match(rf"(?:(?:abbrev|pub) )*{re.escape(name)} : \((\w+) : (tie\.[^()]*)\)", sig)
            if m:
                p = place_of_type(m[2])
                if p is not None: helpers[name] = p
                else: problems.append(f"helper {name}: {m[2]}")
        if kind == "decl" and name not in helpers:
            m = re.match(rf"(?:(?:abbrev|pub) )*{re.escape(name)} : tie\.([^\s()]+)((?: (?:invariant|decreases)-\S+)*) →", sig)
            if m and not m[1].startswith("Need-") and names.place(m[1]) is not None:
                helpers[name] = names.place(m[1])
    cv = Conv(names, crate, path, helpers)
    for c, kind, name, lines, params in flat:
        t = "\n".join(lines)
        pm = re.search(rf"^(?:(?:abbrev|pub) )*{re.escape(name)} :(?: .*→)? tie\.([^\s()]+)((?: (?:invariant|decreases)-\S+)*)\s*\n", t, re.M)
        if pm and not pm[1].startswith("Need-") and names.place(pm[1]) is not None:
            cv.placed[name] = (names.place(pm[1]), kind == "in")
            if kind == "in": cv.mods.setdefault(params, set()).add(name)
    for h in cv.placed: helpers.pop(h, None)
    flat = [x for x in flat if x[2] not in cv.placed]
    lts = False
    alltext = {name: "\n".join(lines) for c, kind, name, lines, params in flat}
    for c, kind, name, lines, params in flat:
        if name not in helpers: continue
        t = "\n".join(lines)

        for h, hp in helpers.items():
            if h != name and re.search(rf"(?<![\w'.-]){re.escape(h)}(?![\w'-])", t) and hp != helpers[name]: lts = True
    cv.lts = lts
    if not lts:
        for h, hp in list(helpers.items()):
            nn = names.new[hp]
            m = re.match(r"(In.*)-\d+$", nn)
            if m and m[1] in names.new: helpers[h] = names.new.index(m[1])
    else: problems.append("lts")
    def tname(p):
        if not cv.lts:
            nn = names.new[p]
            m = re.match(r"(In.*)-\d+$", nn)
            return m[1] if m and m[1] in names.new else nn
        return names.places[p]
    inv_out, answers, helper_out = [], {}, {}
    named = {}
    spec_args = None
    spec_unf = []
    measures = {}
    for c, kind, name, lines, params in flat:
        sig = "\n".join(lines)
        if re.match(r"(abbrev |pub )*(invariant|decreases)-\S+ : tie\.", sig):
            measures[name] = (c, lines); continue
        if "tie.close" in sig or "statement M" in sig:
            um = re.search(r"\n(unfolding .*?)\n" + re.escape(name), sig, re.S)
            spec_unf = [um[1]] if um else []
            m = re.search(r"\(tie\.spec\b(.*)\)\s*$", sig, re.S)
            if m:
                s = m[1]
                m2 = re.search(r"tie\.close\s*", sig)
                inside = sig[m2.end():].strip()
                if inside.startswith("("):
                    e = matching(inside, 0)
                    inner = inside[1:e].strip()
                    spec_args = args_of(inner[len("tie.spec"):])
            elif re.search(r"tie\.close\s+tie\.spec", sig): spec_args = []
            continue
        m = re.match(rf"(?:(?:abbrev|pub) )*{re.escape(name)} : tie\.Need-(\S+)", sig)
        if m and not params:
            named[name] = (m[1], c, lines); continue
        # a helper or a plain local lemma
        helper_out[name] = (c, lines, params)
    # loops
    for lp, (pair, live) in enumerate(names.loops):
        old, new = pair
        changed = names.changed[lp] if lp < len(names.changed) else []
        for what in ("invariant", "decreases"):
            nm = f"{what}-{old}"
            got = measures.get(nm)
            if got is None:
                got = next((v for k2, v in measures.items() if norm(k2) == norm(nm)), None)
            if got is None: problems.append(f"no {nm}"); continue
            c, lines = got
            text2 = "\n".join(lines)
            m = re.search(rf"^{re.escape(lines[0].split(' : ')[0].replace('abbrev ', '').replace('pub ', '').strip())} ([^=]*?)=(.*)$", text2, re.M | re.S)
            if not m: problems.append(f"{nm} has no clause"); continue
            ps = m[1].split()
            want = [("l.initial." + v if ch else "l." + v) for v, ch in zip(live, changed)] + ["l." + v for v, ch in zip(live, changed) if ch]
            if len(ps) != len(want):
                problems.append(f"{nm}: {ps} for {want}")
            sub = dict(zip(ps, want))
            b = m[2].strip("\n").rstrip()
            def rep(mm):
                t = mm[0]
                before, after = mm.string[:mm.start()].rstrip(), mm.string[mm.end():]
                if before[-1:] in ("{", ";") and re.match(r"\s*=(?![^\s])", after): return t
                hd, dot, tl = t.partition(".")
                if hd in sub and hd != "_":
                    return sub[hd] + dot + tl
                return t
            b2 = re.sub(r"[^\s(){},;]+", rep, b)
            if re.search(r"λ \(?(" + "|".join(re.escape(x) for x in ps if x != "_") + r")\b", b): problems.append(f"{nm}: a binder")
            unf = [l for l in lines if l.startswith("unfolding")]
            inv_out.append(("\n".join(c + [f"abbrev pub {what}-{new} : goal.{what}-{new}"] + unf + [f"{what}-{new} l ={b2}"])))
    # needs
    byold = {}
    for k, (o, nw) in enumerate(names.needs):
        byold[norm_need(o)] = k
    def find_need(suffix, own):
        for cand in (suffix, own):
            k = byold.get(norm_need(cand))
            if k is not None: return k
        return None
    where = {}
    for name, (suffix, c, lines) in named.items():
        k = find_need(suffix, name)
        where[name] = k
    inline = []
    if spec_args is not None:
        nl = len(names.loops) * 2
        a = spec_args
        # drop invariants and measures
        while a and re.match(r"(invariant|decreases)-", a[0]): a = a[1:]
        seq = []
        for x in a:
            seq.append(x)
        trivial = re.compile(r"\(λ c( κs)?\.\s+search rules\)$")
        def consistent(x, k):
            pl = names.asked[k][0]
            p0 = names.places.index(pl) if pl in names.places else names.place(pl)
            good = bad = 0
            for m in re.finditer(r"(?<![\w.])c((?:\.before)*)\.([^\s().,]+)", x):
                st = m[2]
                n0 = m[1].count(".before")
                want = norm(st)
                if st == "before":
                    hm = re.search(r"([^\s(){},;]+)\s$", x[:m.start()])
                    if hm and hm[1] in helpers:
                        q, d = p0, 0
                        while q is not None and q != helpers[hm[1]]: q = names.parent[q]; d += 1
                        n1 = n0 + 1
                        if q is None: bad += 3
                        elif d == n1: good += 3
                        elif abs(d - n1) <= 1: good += 1
                        else: bad += 1
                    continue
                if st in ("args", "requires", "pre"):
                    q = names.up(p0, n0)
                    if q == 0: good += 2
                    elif q is None: bad += 1
                    continue
                hitd = None
                q, d = p0, 0
                while q is not None:
                    if norm(names.step[q][0]) == want: hitd = d; break
                    q = names.parent[q]; d += 1
                if hitd is None: bad += 3
                elif hitd == n0: good += 3
                elif abs(hitd - n0) <= 1: good += 1
                else: bad += 1
            return good - 2 * bad
        def score(i, k):
            x = seq[i]
            if x in where: return 1000 if where[x] == k else -1000
            if trivial.match(x): return 0.5
            return 1 + consistent(x, k)
        I, K = len(seq), len(names.needs)
        best = [[(0, None)] * (K + 1) for _ in range(I + 1)]
        for i in range(I - 1, -1, -1): best[i][K] = (best[i + 1][K][0] - 0.4, (1, 0))
        for k in range(K - 1, -1, -1): best[I][k] = (best[I][k + 1][0] - 0.4, (0, 1))
        for i in range(I - 1, -1, -1):
            for k in range(K - 1, -1, -1):
                best[i][k] = max([(best[i + 1][k + 1][0] + score(i, k), (1, 1)), (best[i + 1][k][0] - 0.4, (1, 0)), (best[i][k + 1][0] - 0.4, (0, 1))], key=lambda t: t[0])
        filled = [None] * I
        i = k = 0
        while i < I or k < K:
            st = best[i][k][1]
            if st == (1, 1): filled[i] = k
            i += st[0]; k += st[1]
        for i, x in enumerate(seq):
            if filled[i] is None and x not in where and not trivial.match(x): problems.append(f"unplaced answer {x[:80]}")
        for i, x in enumerate(seq):
            if x in named:
                if where[x] is None and filled[i] is not None: where[x] = filled[i]
            elif filled[i] is not None and x.startswith("(λ"):
                if re.match(r"\(λ c( κs)?\. search rules\)$", x): continue
                inline.append((filled[i], x))
            elif filled[i] is not None and x not in ("_",):
                inline.append((filled[i], x))
    def emit(k, c, unf, param, body):
        goal = names.needs[k][1]
        pl = names.asked[k][0]
        p = names.places.index(pl) if pl in names.places else names.place(pl)
        try:
            b = cv.body(body, {param: (p, "c")}, goal, p)
        except Odd as e:
            problems.append(f"{goal}: {e}")
            b = body + "  -- ⟪" + str(e) + "⟫"
        answers[goal] = "\n".join(c + [f"pub {goal} : goal.{goal}"] + unf + [f"{goal} c ={b}"])
    for name, (suffix, c, lines) in named.items():
        k = where[name]
        text2 = "\n".join(lines)
        if k is None:
            if not re.match(r"(enum|cast|known)", name): problems.append(f"no need for {name} ({suffix})")
            continue
        m = re.search(rf"^{re.escape(name)}((?: [^\s=]+)*) =(.*)$", text2, re.M | re.S)
        if not m: problems.append(f"{name} has no clause"); continue
        ps = m[1].split()
        unf = []
        mm = re.search(r"^unfolding .*?(?=^\S+ ?[^=\n]*=)", text2, re.M | re.S)
        sigend = text2.find("\nunfolding ")
        if sigend >= 0:
            unf = [text2[sigend + 1: text2.find("\n" + name, sigend)].rstrip()]
        if not ps: ps = ["c"]; b = m[2]; b = " " + b.strip() + " c"
        else: b = m[2].rstrip()
        if len(ps) > 1 and any(x not in ("κs",) for x in ps[1:]): problems.append(f"{name}: parameters {ps}")
        emit(k, c, unf, ps[0], b)
    for k, x in inline:
        m = re.match(r"\(λ (\w+)( κs)?\.(.*)\)$", x, re.S)
        if m: emit(k, [], spec_unf, m[1], m[3].rstrip())
        else: emit(k, [], spec_unf, "c", f" {x} c")
    hs = {}
    for name, (c, lines, params) in helper_out.items():
        text2 = "\n".join(lines)
        p = helpers.get(name)
        if p is None:
            hs[name] = "\n".join(c) + ("\n" if c else "") + text2
            continue
        if params:
            v = re.match(r"\((\w+) :", params.strip())[1]
            # inner names get the parameter
            hm0 = re.match(r"(.*?) :(?=\s)", text2, re.S)
            hd0, rest = hm0[1], text2[hm0.end():].lstrip(" ")
            t = f"{hd0} : ({v} : {tname(p)}) → {rest}"
            t = re.sub(rf"^{re.escape(name)}( |$)", rf"{name} {v} ", t, flags=re.M)
            t = t.replace(f"{name} {v}  =", f"{name} {v} =")
            t = re.sub(rf"^{re.escape(name)} {v} : ", f"{name} : ", t)
            for other, (oc, ol, op) in helper_out.items():
                if op == params and other != name:
                    t = re.sub(rf"(?<![\w'.-]){re.escape(other)}(?![\w'-])", f"({other} {v})", t)
            text2 = t
        else:
            vm = re.match(rf"(?:(?:abbrev|pub) )*{re.escape(name)} : \((\w+) :", text2)
            v = vm[1] if vm else re.search(rf"^{re.escape(name)} (\w+)", text2, re.M)[1]
            text2 = re.sub(r"\(" + v + r" : tie\.[^()]*\)", f"({v} : {tname(p)})", text2, count=1)
            text2 = re.sub(r"tie\.([^\s()]+)((?: (?:invariant|decreases)-\S+)*)", lambda m: tname(names.place(m[1])) if names.place(m[1]) is not None else m[0], text2)
        # the clause's parameter
        m = re.search(rf"^{re.escape(name)} (\w+)", text2, re.M)
        v2 = m[1] if m and m[1] != ":" else v
        pv = re.search(r"(?:→| :) tie\.([^\s()]+)((?: (?:invariant|decreases)-\S+)*)\s*$", "\n".join(lines).split("\n" + name)[0])
        try:
            if pv and names.place(pv[1]) is not None and re.search(rf"^{re.escape(name)}(?: \w+)? =\s+[\w.]+$", "\n".join(lines), re.M):
                steps, q = 0, p
                while q is not None and q != names.place(pv[1]): q = names.parent[q]; steps += 1
                text2 = re.sub(rf"^({re.escape(name)} (\w+)) =\s+[\w.]+$", lambda m: f"{m[1]} = {m[2]}" + ".before" * steps, text2, flags=re.M)
                hs[name] = "\n".join(c) + ("\n" if c else "") + text2
                continue
            cv.bare = cv.mods.get(params, set()) if params else set()
            b2 = cv.body(text2, {v: (p, v), v2: (p, v2)}, None, p)
            cv.bare = set()
        except Odd as e:
            problems.append(f"helper {name}: {e}")
            b2 = text2
        hs[name] = "\n".join(c) + ("\n" if c else "") + b2
    problems += cv.problems
    inv = None
    if inv_out:
        body = "\n\n".join(inv_out)
        inv = "\n".join(uses_for(body, uses)) + ("\n" if uses_for(body, uses) else "") + f"use {mod}.Given as goal\n\n" + body + "\n"
    have = " ".join(uses)
    if not re.search(r"[{ ]ap[,}]", have): uses.append("use mathlib.Core.Path.{ap}")
    if not re.search(r"[{ ]not[,}]", have): uses.append("use mathlib.Core.Bool.{not}")
    if lts:
        args = ""
        invs = [f"goal.the-{w}-{pair[1]}" for w in ("invariant",) for pair, live in names.loops] + [f"goal.the-{w}-{pair[1]}" for w in ("decreases",) for pair, live in names.loops]
        if len(names.loops) == 1: pass
        for pl in names.places:
            used = any(re.search(rf"(?<![\w.-]){re.escape(pl)}(?![\w-])", t) for t in hs.values())
            if used:
                hs = {pl: f"abbrev {pl} : Type 0\n{pl} = lts.{pl} ⟦ARGS⟧", **hs}
        uses += [f"use {mod}.Lts as lts", f"use {mod}.Reads as reads"]
    return inv, answers, hs, uses, head, mod, problems

def answers_text(goals, answers, hs, uses, head, mod):
    """Answers.antt with these goals"""
    body_parts, need = [], set()
    texts = {g: answers.get(g, f"pub {g} : goal.{g}\n{g} c = ?") for g in goals}
    todo = list(texts.values())
    while todo:
        t = todo.pop()
        toks = set(re.findall(NAME, t))
        for h in hs:
            if h in toks and h not in need:
                need.add(h); todo.append(hs[h])
    for h in hs:
        if h in need: body_parts.append(hs[h])
    # answers cited by answers
    for g in goals: body_parts.append(texts[g])
    body = "\n\n".join(body_parts)
    u = uses_for(body, uses)
    extra = sorted(set(re.findall(r"(?<![\w.-])((?:then|else)-[^\s(){}.,;]+)", body)))
    found = set(re.findall(r"\(\w+ : ((?:At|In|After|Then|Else|Joined|Start|In_)[^\s()]*)\)", body)) if "lts." not in body else set()
    if "lts." not in body: found |= set(re.findall(r" : ((?:At|In|After|Then|Else|Joined|Start|In_)[^\s()]*) →", body))
    found |= set(extra)
    more = [f"use {mod}.Goals.{{{', '.join(sorted(found))}}}"] if found else []
    lines = "\n".join(u + [f"use {mod}.Goals as goal"] + more)
    h = "\n".join(head) + "\n" if head else ""
    return h + lines + "\n\n" + body + "\n"

def names_of(crate, root):
    out = f"{WORK}/names/{crate}"
    shutil.rmtree(out, ignore_errors=True)
    said = sh(RT, "check", "--generated", out, "--old-names", cwd=os.path.join(root, "crates", crate))
    try:
        return json.load(open(out + "/names.json"))
    except OSError:
        print(said[-3000:]); raise SystemExit(f"no names of {crate}")

def folder_key(crate, folder, d):
    k = f"Rattle-{crate}-proofs." + folder.replace("/", ".") + ".Lts"
    return k if k in d else None

def open_goals(said):
    """{function: [goals]} of a check"""
    out = {}
    for m in re.finditer(r"^fn (\S+): no proof: (.*)$", said, re.M):
        gs = re.findall(r"`([^`]+)`", m[2].split("did not prove")[1].split("; it calls")[0]) if "did not prove" in m[2] else []
        out[m[1]] = (gs, m[2])
    return out

def main(argv):
    root = os.getcwd()
    for crate in argv:
        d = names_of(crate, root)
        proofs = os.path.join(root, "crates", crate, "proofs")
        store = f"{WORK}/{crate}"
        shutil.rmtree(store, ignore_errors=True)
        os.makedirs(store, exist_ok=True)
        kept = {}
        for folder, dirs, files in os.walk(proofs):
            if "Proof.antt" in files:
                rel = os.path.relpath(folder, proofs)
                key = folder_key(crate, rel, d)
                if not key:
                    print(f"{crate} {rel}: no names; left"); continue
                try:
                    r = convert(crate, rel, Names(d[key]), root)
                except Exception as e:
                    import traceback; traceback.print_exc()
                    print(f"{crate} {rel}: {e!r}; left"); continue
                kept[rel] = r
        largs = all_lts_args(crate, root, [rel for rel, r in kept.items() if any("⟦ARGS⟧" in t for t in r[2].values())])
        json.dump(largs, open(f"{store}/largs.json", "w"))
        for rel, (inv, answers, hs, uses, head, mod, problems) in kept.items():
            os.makedirs(f"{store}/{rel}", exist_ok=True)
            shutil.move(f"{proofs}/{rel}/Proof.antt", f"{store}/{rel}/Proof.antt")
            if inv:
                open(f"{proofs}/{rel}/Invariants.antt", "w").write(inv)
            good = [g for g in answers if "⟪" not in answers[g]]
            text = with_args(answers_text(good, answers, hs, uses, head, mod), largs.get(rel), mod)
            open(f"{store}/{rel}/Answers.antt", "w").write(text)
            if good: open(f"{proofs}/{rel}/Answers.antt", "w").write(text)
            if problems:
                open(f"{store}/{rel}/problems", "w").write("\n".join(problems) + "\n")
                print(f"{crate} {rel}: " + "; ".join(problems)[:300])
            json.dump([inv, answers, hs, uses, head, mod], open(f"{store}/{rel}/conv.json", "w"))
        print(f"{crate}: {store}")
        said = sh(RT, "check", cwd=os.path.join(root, "crates", crate))
        open(f"{store}/check1.txt", "w").write(said)
        fill(crate, root, said)

def with_args(text, la, mod):
    if "⟦ARGS⟧" not in text: return text
    la = la or "?ARGS"
    text = text.replace("⟦ARGS⟧", la)
    text = text.replace("use " + mod + ".Reads as reads\n", "")
    more = [x for w, x in (("reads.", f"use {mod}.Reads as reads"), ("tie.", f"use {mod}.Tie as tie")) if w in la]
    return text.replace("use " + mod + ".Lts as lts", "\n".join(["use " + mod + ".Lts as lts"] + more))

def all_lts_args(crate, root, rels):
    if not rels: return {}
    d = f"{WORK}/goals/{crate}"
    shutil.rmtree(d, ignore_errors=True)
    words = []
    for rel in rels: words += ["--start", crate + "::" + rel.replace("/", "::").replace("+", "")]
    sh(RT, "check", "--generated", d, *words, "--allow-holes", cwd=os.path.join(root, "crates", crate))
    out = {}
    for rel in rels:
        try: t = open(f"{d}/Rattle-{crate}-proofs/{rel}/Goals.antt").read()
        except OSError: continue
        m = re.search(r"\n(\S+) =\s+View\.In-\1((?:\s+[^\s]+)*?)\n\n", t)
        if not m: continue
        a = [f"goal.{x}" if x.startswith("the-") else x.replace("Tie.", "tie.").replace("Reads.", "reads.") for x in m[2].split()]
        out[rel] = " ".join(a)
    return out

def fill(crate, root, said, rounds=6):
    proofs = os.path.join(root, "crates", crate, "proofs")
    store = f"{WORK}/{crate}"
    done, largs = {}, json.load(open(f"{store}/largs.json"))
    for r in range(rounds):
        og = open_goals(said)
        changed = False
        for fn, (goals, msg) in og.items():
            rel = "/".join(fn.split("::")[1:])
            cj = f"{store}/{rel}/conv.json"
            if not os.path.exists(cj) or not goals: continue
            inv, answers, hs, uses, head, mod = json.load(open(cj))
            have = done.setdefault(rel, [g for g in answers if "⟪" not in answers[g]])
            new = [g for g in goals if g not in have]
            # a whole goal open by clauses: answer whole
            new2 = []
            for g in new:
                base = re.sub(r"-clause-.*$", "", g)
                gg = g if g in answers else (base if base in answers else None)
                if gg and gg not in have and gg not in new2: new2.append(gg)
            if not new2: continue
            have += new2
            order = [g for g in answers if g in have] + [g for g in have if g not in answers]
            text = answers_text(order, answers, hs, uses, head, mod)
            text = with_args(text, largs.get(rel), mod)
            os.makedirs(f"{proofs}/{rel}", exist_ok=True)
            open(f"{proofs}/{rel}/Answers.antt", "w").write(text)
            changed = True
        for m in re.finditer(r"^\./proofs/(\S+)/Answers\.antt:\d+:\d+: error: .*has no field `IS` \(nearest: ([^)]*)\)", said, re.M):
            cand = [x.strip().lstrip(".") for x in m[2].split(",") if x.strip().endswith("-is")]
            f = f"{proofs}/{m[1]}/Answers.antt"
            t = open(f).read()
            if len(cand) == 1 and ".IS" in t:
                open(f, "w").write(t.replace(".IS", "." + cand[0])); changed = True
                cj = f"{store}/{m[1]}/conv.json"
                j = json.load(open(cj)); j[1] = {g: v.replace(".IS", "." + cand[0]) for g, v in j[1].items()}; j[2] = {g: v.replace(".IS", "." + cand[0]) for g, v in j[2].items()}
                json.dump(j, open(cj, "w"))
        if not changed: break
        said = sh(RT, "check", cwd=os.path.join(root, "crates", crate))
        open(f"{store}/check{r + 2}.txt", "w").write(said)
    said = adjust(crate, root, said)
    summary(crate, said)

def adjust(crate, root, said):
    """counts of `.before` by what the check says of the records"""
    d = json.load(open(f"{WORK}/names/{crate}/names.json"))
    proofs = os.path.join(root, "crates", crate, "proofs")
    for r in range(6):
        changed = False
        seen = set()
        for line in said.split("\n"):
            m = re.match(r"^\./proofs/(\S+)/Answers\.antt:(\d+):(\d+): error: (.*)", line)
            if not m or (m[1], m[2]) in seen: continue
            key = folder_key(crate, m[1], d)
            if not key: continue
            n = Names(d[key])
            want = have = None
            a = re.search(r"expected type `([^` ]+)[^`]*`, but this has type `(lts|goal)\.([^` ]+)", m[4])
            b = re.search(r"only where one has `lts\.([^` ]+)`? ?\(expected\) and the other has `lts\.([^` ]+)", m[4]) or re.search(r"only where one has `lts\.([^` ]+)[^`]*` \(expected\) and the other has `lts\.([^` ]+)", m[4])
            extra = 0
            if a:
                want = n.place(a[1].replace("lts.", ""))
                if a[2] == "lts": have = n.place(a[3])
                else:
                    have = n.new.index(a[3]) if a[3] in n.new else None; extra = 1
            elif b: want, have = n.place(b[1]), n.place(b[2])
            if want is None or have is None: continue
            dist, q = 0, have
            while q is not None and q != want: q = n.parent[q]; dist += 1
            if q is None:
                dist, q = 0, want
                while q is not None and q != have: q = n.parent[q]; dist -= 1
                if q is None: continue
            delta = dist + extra
            if not delta: continue
            f = f"{proofs}/{m[1]}/Answers.antt"
            ls = open(f).read().split("\n")
            l = ls[int(m[2]) - 1]; c = int(m[3]) - 1
            t = re.match(r"(\w+)((?:\.before)*)(?![\w.])", l[c:])
            if not t: continue
            k = t[2].count(".before") + delta
            if k < 0: continue
            ls[int(m[2]) - 1] = l[:c] + t[1] + ".before" * k + l[c + t.end():]
            open(f, "w").write("\n".join(ls)); changed = True; seen.add((m[1], m[2]))
        if not changed: break
        said = sh(RT, "check", cwd=os.path.join(root, "crates", crate))
    return said

def summary(crate, said):
    bad = [l for l in said.split("\n") if re.match(r"^(fn|struct) .*: no proof|.*error", l)]
    print(crate, "PROVED" if re.search(r"^logic=proved", said, re.M) else "not proved", f"{len(re.findall(r': proved$', said, re.M))} proved")
    for l in bad[:60]: print("   ", l[:260])

if __name__ == "__main__":
    main(sys.argv[1:]) if sys.argv[1:] and sys.argv[1] not in ("-h", "--help") else print(__doc__)
