#!/usr/bin/env python3
"""Turns the proof files of the older Rattle (one Proof.antt a function, which put a whole walk together) into today's Invariants.antt and Answers.antt.

usage: answers.py CRATE [FUNCTION..]   at the top. The old files are read from the commit in which the spelling was turned (docs/PORT.md, line 2).
1. the invariants and measures of loops; 2. a check says which goals stay open; A function that has its files already is left alone unless it is named. 3. for these the old answers, under today's names, without the chains of
`.before` that led to a fact. What stays open after that is printed, and is for a reader."""

import json
import os
import re
import subprocess
import sys
import tempfile

PATHTOK = re.compile(r"(?<![\w.'?-])([A-Za-zκ_][\w'₀₁₂?-]*)((?:\.[\w'?₀-]+)+)")


def run(*words, where="."):
    return subprocess.run(words, cwd=where, stdout=subprocess.PIPE, stderr=subprocess.STDOUT, text=True).stdout


def at_commit():
    with open("docs/PORT.md", encoding="utf-8") as f:
        return f.read().split("\n")[1].strip()


def decls(text):
    """The declarations of a file: (head comment, imports, [(name, type, lines)])."""
    head, uses, out, cur = [], [], [], None
    pre = []
    for l in text.split("\n"):
        if not l.strip():
            if cur:
                out.append(cur)
                cur = None
            pre = [] if out or cur else pre
            continue
        if l.startswith("--") and not cur:
            if not uses and not out:
                head.append(l)
            else:
                pre.append(l)
            continue
        if l.startswith("use ") and not cur:
            uses.append(l)
            continue
        if cur is None:
            cur = {"sig": l, "lines": [], "pre": pre}
            pre = []
        else:
            cur["lines"].append(l)
    if cur:
        out.append(cur)
    return head, uses, out


def split_args(text):
    """The arguments of an application: words, or what stands in parentheses."""
    args, i, n = [], 0, len(text)
    while i < n:
        if text[i].isspace():
            i += 1
            continue
        if text[i] == "(":
            deep, k = 0, i
            while True:
                deep += (text[k] == "(") - (text[k] == ")")
                k += 1
                if not deep:
                    break
            args.append(text[i:k])
            i = k
        else:
            k = i
            while k < n and not text[k].isspace():
                k += 1
            args.append(text[i:k])
            i = k
    return args


class Fields:
    """Old names of steps and today's, of all places of a function, or of those on the way to one place."""

    def __init__(self, info, place=None):
        self.to, self.arms = {}, {}
        rows = {}
        for k, (name, parent, (old, new), callee, _) in enumerate(info["places"]):
            rows.setdefault(name, []).append((parent, old, new))
            if place is None and old:
                self.to.setdefault(self.key(old), new)
        self.arm = None
        while place is not None and place in rows:
            parent, old, new = rows[place][0]
            if new.startswith("in-") and self.arm is None:
                self.arm = new
            if old:
                self.to[self.key(old)] = new
            place = parent
        for (old, new), _ in info.get("loops", []):
            self.to.setdefault(self.key(old), new)

    @staticmethod
    def key(x):
        return re.sub(r"_lem$", "", x.replace("-", "_").lower())

    def path(self, parts, last=""):
        out = []
        if parts[-2:] == ["given", "1"] and getattr(self, "arm", None):
            return [self.arm, "is"]
        for i, p in enumerate(parts):
            if p == "before":
                continue
            p = "invariant" if p == "inv" else p
            if i and re.fullmatch(r"\d+", p):
                out.append(p)
            elif out and out[-1].startswith("in") and re.fullmatch(r"keys\d*", p):
                out.append("is")
            elif out and (out[-1].startswith("if-") or out[-1].endswith("-test")) and p in ("left", "taken"):
                out.append({"left": "false", "taken": "true"}[p])
            elif out and out[-1].startswith("in_default") and p == "rest":
                out += [out[-1] + "-own", "rest"]
            elif out or last not in ("", "c"):
                # below a step its own fields' names stand
                out.append(p)
            else:
                out.append(self.to.get(self.key(p), p))
        return out


def convert(term, fields):
    """A term over c without `.before`, and without the names of what stood between."""
    alias = {"c": "c"}

    def path(m):
        root, parts = m[1], m[2].split(".")[1:]
        if root in alias:
            return ".".join([alias[root]] + fields.path(parts, alias[root].split(".")[-1]))
        return m[0]

    out, pos = [], 0
    let = re.compile(r"let ([\w'-]+) = ([\w'₀-]+)((?:\.[\w'?-]+)*) in\b[ \n]*")
    while True:
        m = let.search(term, pos)
        if not m:
            out.append(PATHTOK.sub(path, term[pos:]))
            break
        out.append(PATHTOK.sub(path, term[pos:m.start()]))
        root, parts = m[2], [p for p in m[3].split(".") if p]
        if root in alias:
            p = fields.path(parts, alias[root].split(".")[-1])
            if not p and alias[root] == "c":
                alias[m[1]] = "c"
            else:
                full = ".".join([alias[root]] + p)
                alias[m[1]] = full
        else:
            out.append(m[0])
        pos = m.end()
    text = "".join(out)
    # a bare alias, as an argument of its own
    for a, full in sorted(alias.items(), key=lambda x: -len(x[0])):
        if a != "c":
            text = re.sub(r"(?<![\w.'?{-])" + re.escape(a) + r"(?![\w'?.-]|\s*[:=]|\})", full, text)
    return text


APPLIED = r"(?:\((?:[^()]|\([^()]*\))*\)|[\w'][\w'.-]*)"


def known(ds):
    """What an old file showed of a place past a test, by name: (its fact, its proof, what it unfolds), each over c."""
    out, places = {}, set()
    for d in ds:
        name = d["sig"].replace("abbrev ", "").replace("pub ", "").split(" :")[0].strip()
        text = "\n".join([d["sig"]] + d["lines"])
        if "tie." not in d["sig"] and "tie." not in " ".join(d["lines"][:2]):
            continue
        if re.search(r"tie\.(Need|invariant|decreases)", d["sig"]) or "statement" in d["sig"]:
            continue
        m = re.match(r"(?:abbrev )?\S+ : tie\.[\w-]+(?: invariant\S* decreases\S*)? → tie\.[\w-]+", d["sig"])
        if m:
            places.add(name)
            continue
        m = re.match(r"\S+ : \((\w+) : tie\.[\w-]+(?: invariant\S* decreases\S*)?\)\s*→\s*(.*?)\n(?:(unfolding [^\n]*)\n)?" + re.escape(name) + r" (\w+) =(.*)$", text, re.S)
        if not m:
            print(f"look: a fact past a test that is not read: {text[:200]!r}")
            continue
        fact = m[2].strip()
        lets = re.match(r"let (\w+) = (.*?) in\s+(.*)$", fact, re.S)
        if lets:
            root = "c.args" if lets[2].endswith(".args") else "c"
            fact = re.sub(r"(?<![\w.'-])" + lets[1] + r"(?![\w'-])", root, lets[3])
        else:
            fact = re.sub(r"(?<![\w.'-])" + m[1] + r"(?![\w'-])", "c", fact)
        proof = re.sub(r"(?<![\w.'-])" + m[4] + r"(?![\w'-])", "c", m[5].strip())
        out[name] = (" ".join(fact.split()), proof, m[3])
    return out, places


def with_facts(term, facts, places):
    """A term with what it uses of the facts past tests said before it."""
    used, more = [], []

    def take(text):
        for n in facts:
            pat = re.compile(r"(?<![\w.'-])" + re.escape(n) + r"(?:\s+" + APPLIED + r")?(?![\w'-])")
            if pat.search(text):
                if n not in used:
                    inner = take(facts[n][1])
                    if facts[n][2]:
                        more.extend(facts[n][2].split()[1:])
                    if n not in used:
                        used.append((n, facts[n][0], inner)) if n not in [u[0] for u in used] else None
                text = pat.sub(n, text)
        return text

    if places:
        each = "|".join(re.escape(n) for n in sorted(places, key=len, reverse=True))
        whole = re.compile(r"\((?:%s)\s+[\w'][\w'.-]*\)" % each)

        def drop(text):
            while True:
                new = whole.sub("c", text)
                if new == text:
                    return re.sub(r"(?<![\w.'-])(?:%s)\s+[\w'][\w'.-]*(?![\w'-])" % each, "c", text)
                text = new

        facts = {n: (drop(a), drop(b), u) for n, (a, b, u) in facts.items()}
        term = drop(term)
    term = take(term)
    lets = "".join(f"\n    let {n} : {fact} = {proof} in" for n, fact, proof in used)
    return lets + ("\n    " if lets else "") + term.strip("\n") if lets else term, more


def invariants(ds, info, crate, place):
    """Invariants.antt of the old declarations, or None."""
    out = []
    for (old, new), names in info.get("loops", []):
        for kind in ("invariant", "decreases"):
            d = next((x for x in ds if x["sig"].startswith(f"abbrev {kind}-{old} :") or x["sig"].startswith(f"abbrev pub {kind}-{old} :") or x["sig"].startswith(f"{kind}-{old} :")), None)
            if d is None:
                continue
            body = "\n".join(d["lines"])
            unfolding = ""
            if body.startswith("unfolding"):
                unfolding, body = body.split("\n", 1)
                unfolding += "\n"
            left, right = re.split(r"\s=(?=\s)", body, maxsplit=1)
            params = left.split()[1:]
            words = {}
            for p in params:
                if p.endswith("₀"):
                    words[p] = "l.initial." + p[:-1].replace("-", "_")
                else:
                    words[p] = "l." + p.replace("-", "_")
            right = re.sub(r"(?<![\w.'?-])([A-Za-z_][\w'-]*₀?)(?![\w'-])", lambda m: words.get(m[1], m[1]), right)
            out.append(f"abbrev pub {kind}-{new} : goal.{kind}-{new}\n{unfolding}{kind}-{new} l ={right}")
    return out


def shared(ds, inv):
    """The file's own definitions that an invariant names, for Invariants.antt; the answers import them from there."""
    out, text = [], "\n".join(inv)
    for d in reversed(ds):
        name = d["sig"].replace("abbrev ", "").replace("pub ", "").split(" :")[0].strip()
        if "tie." in d["sig"] or "statement" in d["sig"] or not re.search(r"(?<![\w.'-])" + re.escape(name) + r"(?![\w'-])", text):
            continue
        sig = d["sig"] if d["sig"].startswith("abbrev pub") else re.sub(r"^(abbrev )?(pub )?", "abbrev pub ", d["sig"])
        d = "\n".join(d["pre"] + [sig] + d["lines"])
        out.insert(0, d)
        text += d
    return out


def main():
    crate, only = sys.argv[1], sys.argv[2:]
    top = f"crates/{crate}"
    commit = at_commit()
    old = {}
    for p in run("git", "ls-tree", "-r", "--name-only", commit, f"{top}/proofs").split():
        if p.endswith("/Proof.antt"):
            fn = p[len(top) + 8:-11]
            if only and fn not in only:
                continue
            new = [f"{top}/proofs/{fn}/{x}.antt" for x in ("Answers", "Invariants")]
            if not only and any(os.path.exists(x) for x in new):
                continue
            for x in new:
                if os.path.exists(x):
                    os.remove(x)
            old[fn] = run("git", "show", f"{commit}:{p}")
            here = f"{top}/proofs/{fn}/Proof.antt"
            if os.path.exists(here):
                os.remove(here)
    names = os.path.join(tempfile.gettempdir(), f"names-{crate}")
    run("rt", "check", "--generated", names, "--old-names", where=top)
    with open(f"{names}/names.json", encoding="utf-8") as f:
        info = json.load(f)

    def of(fn):
        return info.get(f"Rattle-{crate}-proofs.{fn.replace('/', '.')}.Lts")

    def clean(uses):
        return [u for u in uses if not re.search(r"\.(Tie|Statement|Lts|Contract)\b", u) and "borrow.Author.Rules" not in u and "borrow.Author.Needs" not in u]

    for fn, text in old.items():
        i = of(fn)
        if not i or not i.get("loops"):
            continue
        head, uses, ds = decls(text)
        inv = invariants(ds, i, crate, fn)
        if inv:
            mine = shared(ds, inv)
            inv = mine + inv
            os.makedirs(f"{top}/proofs/{fn}", exist_ok=True)
            with open(f"{top}/proofs/{fn}/Invariants.antt", "w", encoding="utf-8") as f:
                f.write("\n".join(head + clean(uses) + [f"use Rattle.{crate}.proofs.{fn.replace('/', '.')}.Given as goal", ""]) + "\n" + "\n\n".join(inv) + "\n")
    said = run("rt", "check", where=top)
    openly = {}
    for m in re.finditer(r"(?m)^fn (\S+): no proof: expected answers in \./proofs/(\S+)/Answers\.antt; `search` did not prove ([^\n]*)", said):
        openly[m[2]] = re.findall(r"`([^`]+)`", m[3].split("; it calls")[0])
    for fn, goals in openly.items():
        if only and fn not in only:
            continue
        i = of(fn)
        if fn not in old or not i:
            print(f"{crate}: {fn}: no old proof for {goals}")
            continue
        head, uses, ds = decls(old[fn])
        spec = next((d for d in ds if re.match(r"pub \S+[-_]spec :", d["sig"])), None)
        body = "\n".join(spec["lines"])
        unfolding = re.match(r"unfolding ([^\n]*)\n", body)
        m = re.search(r"\(tie\.spec\b(.*)\)\s*$", body, re.S)
        args = split_args(m[1]) if m else []
        if not m:
            m = re.search(r"tie\.spec\b(.*)$", body, re.S)
            args = split_args(m[1]) if m else []
        args = [a for a in args if not re.match(r"(invariant|decreases)-", a)]
        needs = i["needs"]
        if len(args) != len(needs):
            print(f"{crate}: {fn}: {len(args)} old answers, {len(needs)} goals")
        by = {d["sig"].replace("pub ", "").replace("abbrev ", "").split(" :")[0].strip(): d for d in ds}
        facts, places = known(ds)
        out = []
        for g in goals:
            k = next((k for k, (o, n) in enumerate(needs) if n == g), None)
            a = args[k] if k is not None and len(args) == len(needs) else None
            if a is None and k is not None and needs[k][0].startswith("returns"):
                ours = [j for j, (o, n) in enumerate(needs) if o.startswith("returns")]
                theirs = [x for x in args if x.startswith("(λ") or (x in by and re.search(r"tie\.Need-returns(-\d+)?(\s|$)", by[x]["sig"]))]
                if len(ours) == len(theirs):
                    a = theirs[ours.index(k)]
            if a is None and k is not None:
                # by its name: `returns-2` and its like
                o = needs[k][0].replace("_", "-")
                d = next((n for n, d in by.items() if re.search(r"tie\.Need-(overflow-)?" + re.escape(o) + r"(\s|$)", d["sig"].replace("_", "-"))), None)
                a = d
            if a is None:
                out.append(f"pub {g} : goal.{g}\n{g} c = ?")
                continue
            opens = ""
            if a in by:
                d = by[a]
                b = "\n".join(d["lines"])
                if b.startswith("unfolding"):
                    opens, b = b.split("\n", 1)
                    opens += "\n"
                left, right = re.split(r"\s=(?=\s)", b, maxsplit=1)
                var = left.split()[1:]
            else:
                mm = re.match(r"\(λ ([^.]*)\.(.*)\)$", a, re.S)
                if not mm:
                    out.append(f"pub {g} : goal.{g}\n{g} c = ?")
                    continue
                var, right = mm[1].split(), mm[2]
                if unfolding:
                    opens = unfolding[0]
            pats = [v for v in var if v not in ("κs", "κ")]
            c = pats[-1] if pats else "c"
            if c != "c":
                right = re.sub(r"(?<![\w.'-])" + re.escape(c) + r"(?![\w'-])", "c", right)
            right, more = with_facts(right, facts, places)
            right = convert(right, Fields(i, i['asked_at'][k][0]))
            if more:
                opens = "unfolding " + " ".join(dict.fromkeys((opens.split()[1:] if opens else []) + more)) + "\n"
            out.append(f"pub {g} : goal.{g}\n{opens}{g} c ={right}")
        own = []
        inside = f"{top}/proofs/{fn}/Invariants.antt"
        moved = []
        if os.path.exists(inside):
            with open(inside, encoding="utf-8") as f:
                moved = re.findall(r"(?m)^abbrev pub (\S+) :", f.read())
        for d in ds:
            if "tie." in d["sig"] or "statement" in d["sig"] or d is spec:
                continue
            name = d["sig"].replace("abbrev ", "").replace("pub ", "").split(" :")[0].strip()
            if name in moved:
                if re.search(r"(?<![\w.'-])" + re.escape(name) + r"(?![\w'-])", "\n".join(out)):
                    uses.append(f"use Rattle.{crate}.proofs.{fn.replace('/', '.')}.Invariants.{{{name}}}")
                continue
            own.append("\n".join(d["pre"] + [d["sig"]] + d["lines"]))
        os.makedirs(f"{top}/proofs/{fn}", exist_ok=True)
        with open(f"{top}/proofs/{fn}/Answers.antt", "w", encoding="utf-8") as f:
            rules = ["use Rattle.std.proofs.Common.{rules}"] if re.search(r"\brules\b", "\n".join(own + out)) else []
            f.write("\n".join(head + clean(uses) + rules + [f"use Rattle.{crate}.proofs.{fn.replace('/', '.')}.Goals as goal", ""]) + "\n" + "\n\n".join(own + out) + "\n")
    run("rt", "fmt", where=top)
    said = run("rt", "check", where=top)
    with open(os.path.join(tempfile.gettempdir(), f"{crate}.log"), "w", encoding="utf-8") as f:
        f.write(said)
    for l in said.split("\n"):
        if re.search(r"error", l) or re.match(r"fn .*(no proof|not proved)", l) or l.startswith("logic="):
            print(l[:400])


main()
