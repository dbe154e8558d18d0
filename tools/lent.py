#!/usr/bin/env python3
"""Turns what a clause says of a lent table, in the words of tables/specs/Lent, into today's: `x.old` and `x.new` of a `&mut`, `x.now` of a `&`; and the
tables that are lent together by the word that puts them together (`tables_old ts ..` is `tables ts.old ..`). Usage: lent.py, at the top, once."""

import os
import re
import sys

GROUPS = {"tables": ("Tables", 9), "task_queues": ("Lines", 2), "wait_tables": ("Waits", 3), "swi_queues": ("Swis", 2), "clock_tables": ("Tick", 3),
          "tick_tables": ("Tick", 5), "dispatch_tables": ("Dispatch", 3)}
LENT = re.compile(r"(?m)^ghost use Rattle\.tables\.specs\.Lent\.\{([^}]*)\};\n")


def closing(t, i):
    pairs = {"(": ")", "{": "}", "[": "]"}
    a, b, deep = t[i], pairs[t[i]], 0
    for k in range(i, len(t)):
        deep += (t[k] == a) - (t[k] == b)
        if not deep:
            return k
    raise ValueError


def kinds(params):
    out = {}
    for p in re.split(r",(?![^(<\[]*[)>\]])", params):
        p = p.strip()
        if re.match(r"&(?:'\w+\s+)?mut\s+self$", p):
            out["self"] = "mut"
        elif re.match(r"&(?:'\w+\s+)?self$", p):
            out["self"] = "shared"
        m = re.match(r"(?:mut\s+)?(\w+)\s*:\s*(&(?:'\w+\s+)?(mut\s+)?)?", p)
        if m and not p.endswith("self"):
            out[m[1]] = "value" if not m[2] else "mut" if m[3] else "shared"
    return out


def clause(t, kind, where):
    def field(x, moment):
        k = kind.get(x)
        if k is None or k == "value":
            print(f"look: {where}: {moment} of {x}, {k}")
            return x
        return x + (".now" if k == "shared" else "." + moment)

    def group(m):
        name, moment = (("tables", "old") if m[1] == "lent" else (m[2], m[3]))
        n = GROUPS[name][1]
        rest = t2[m.end():]
        a = re.match(r"((?:\s+\w+){%d})" % n, rest)
        if not a:
            print(f"look: {where}: {m[0]}{rest[:60]!r}")
            return None
        return f"{name} " + " ".join(field(x, moment) for x in a[1].split()), m.end() + a.end()

    t2, pos, out = t, 0, []
    for m in re.finditer(r"(?<![\w.])(lent|(%s)_(old|new))(?![\w])" % "|".join(GROUPS), t2):
        if m.start() < pos:
            continue
        g = group(m)
        if g is None:
            continue
        out += [t2[pos:m.start()], g[0]]
        pos = g[1]
    t2 = "".join(out) + t2[pos:]
    t2 = re.sub(r"\((old|new) (\w+)\)", lambda m: field(m[2], m[1]), t2)
    return re.sub(r"(?<![\w.])(old|new) (\w+)", lambda m: field(m[2], m[1]), t2)


def turned(t, where):
    out, pos = [], 0
    for m in re.finditer(r"(?m)^[^\n/]*\bfn\s+(\w+)(?:<[^(]*>)?\s*\(", t):
        if m.start() < pos:
            continue
        end = closing(t, m.end() - 1)
        kind = kinds(t[m.end():end])
        i = end + 1
        out.append(t[pos:i])
        pos = i
        while True:
            c = re.compile(r"[^{};]*?\b(?:requires|ensures|ghost)\*?(?:\s+\w+)?\s*(?=\{)").match(t, pos)
            if not c:
                break
            stop = closing(t, c.end())
            out += [t[pos:c.end()], clause(t[c.end():stop + 1], kind, f"{where} {m[1]}")]
            pos = stop + 1
    return "".join(out) + t[pos:]


def imports(t):
    m = LENT.search(t)
    if not m:
        return t
    t = LENT.sub("", t)
    body = "\n".join(l for l in t.split("\n") if not l.startswith("ghost use") and not l.lstrip().startswith("//"))
    clauses = "\n".join(re.findall(r"(?s)(?:requires|ensures)[^{]*\{.*?\}\n", body))
    at = m.start()
    for g, (module, _) in GROUPS.items():
        if not re.search(r"(?<![\w.:])%s (?=\w)" % g, clauses):
            continue
        have = re.search(r"(?m)^ghost use Rattle\.rules\.specs\.%s\.\{([^}]*)\};" % module, t)
        if any(g in [x.split(" as ")[0].strip() for x in h.split(",")] for h in re.findall(r"(?m)^ghost use Rattle\.rules\.specs\.%s\.\{([^}]*)\};" % module, t)):
            continue
        if have:
            t = t[:have.end(1)] + ", " + g + t[have.end(1):]
        else:
            t = t[:at] + f"ghost use Rattle.rules.specs.{module}.{{{g}}};\n" + t[at:]
    return t


def main():
    for folder, dirs, names in os.walk("crates"):
        dirs[:] = sorted(d for d in dirs if d != "out")
        for n in sorted(names):
            if n.endswith(".rt"):
                p = os.path.join(folder, n)
                t = open(p, encoding="utf-8").read()
                new = imports(turned(t, p))
                if new != t:
                    open(p, "w", encoding="utf-8").write(new)


sys.exit(main())
