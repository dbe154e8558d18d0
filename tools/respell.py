#!/usr/bin/env python3
"""Spells the repository's own definitions and lemmas in snake case, as today's Rattle does: usage: respell.py [--list], at the top.

A word in camel case that begins with a small letter (`wordBelow`) is never a name of the code here: the code has functions, fields and constants in
snake case and types that begin with a capital. So each such word in specs/, in proofs/, in the clauses and comments of src/ and in must-fail/ is a name of
specs/ or proofs/ and is turned (`word_below`), also where it is a part of a longer name (`word_below-none`). Strings of the code are left alone. Two
names that would fall together in one file are listed and nothing is written."""

import os
import re
import sys

CAMEL = re.compile(r"(?<![A-Za-z0-9_'])[a-z][a-z0-9]*(?:[A-Z][A-Za-z0-9]*)+")
# what an older library called a list's entry, and parts of names in which several capitals stand together
SPECIAL = {"getD": "get_or", "byTSNaming": "by_ts_naming", "byTS": "by_ts", "notTS": "not_ts", "getLe": "get_le"}
# lemmas that would have a definition's name after this, and a record's field that would hide one
LEMMAS = re.compile(r"(?<![.`\w'-])(no_answer|no_call|handed_out|answers_of|nothing_left|one_list|laid_out)(?![\w'-])")
IN_FILE = {
    "crates/rules/proofs/Faster.antt": [(r"\b(lines_after|step_lines)\b", r"\1_lem")],
    "crates/trace_told/proofs/Refused.antt": [(r"\bsame_(row|heap)\b", r"same_\1_lem")],
    "crates/trace_changes/proofs/Sentences.antt": [(r"\bran_out\b", "clock_ran_out")],
}
# looked at: the second name is a field of another record, or the name of a function's module
SEEN = {"crates/test_calls/proofs/Trials.antt", "crates/test_calls/specs/Trial.antt", "crates/test_reader/proofs/Calls.antt", "crates/demands/proofs/Lists.antt", "crates/demands/proofs/Two.antt"}
STRING = re.compile(r'b?"(?:[^"\\\n]|\\.)*"')
PATH = re.compile(r"Rattle\.\w+\.[\w.]*(?=\.\w+| as |\.\{)")
NAME = re.compile(r"[^\s(){}\[\];,.λ→×:`\"«»]+")


def snake(m):
    word = m[0]
    if word in SPECIAL:
        return SPECIAL[word]
    return re.sub(r"([A-Z]+)", lambda c: "_" + c[0].lower(), word)


def turned(text, code):
    if not code:
        return CAMEL.sub(snake, text)
    out, last = [], 0
    for m in STRING.finditer(text):
        out += [CAMEL.sub(snake, text[last:m.start()]), m[0]]
        last = m.end()
    return "".join(out) + CAMEL.sub(snake, text[last:])


def files():
    for folder, dirs, names in os.walk("crates"):
        dirs[:] = sorted(d for d in dirs if d != "out")
        for n in sorted(names):
            if n.endswith((".rt", ".antt", ".edit")):
                yield os.path.join(folder, n)


def main():
    found, clash, changed = set(), [], []
    for p in files():
        with open(p, encoding="utf-8") as f:
            text = f.read()
        was = text
        for old, new in IN_FILE.get(p, []):
            text = re.sub(old, new, text)
        if p.endswith(".antt"):
            text = LEMMAS.sub(r"\1_lem", text)
        new = turned(text, p.endswith(".rt"))
        found |= set(CAMEL.findall(text))
        if p.endswith(".antt"):
            to = {}
            for name in set(NAME.findall(PATH.sub(" ", text))):
                to.setdefault(CAMEL.sub(snake, name), set()).add(name)
            clash += [f"{p}: {' and '.join(sorted(names))} would both be {name}" for name, names in sorted(to.items()) if len(names) > 1]
        if new != was:
            changed.append((p, new))
    if "--list" in sys.argv:
        print("\n".join(f"{w} {CAMEL.sub(snake, w)}" for w in sorted(found)))
        return 0
    clash = [c for c in clash if "/Proof.antt" not in c and c.split(":")[0] not in SEEN]
    if clash:
        print("\n".join(clash))
        return 1
    for p, new in changed:
        with open(p, "w", encoding="utf-8") as f:
            f.write(new)
    print(f"{len(found)} words, {len(changed)} files")
    return 0


sys.exit(main())
