#!/usr/bin/env python3
"""Spells the names of definitions and lemmas that README.md and docs/*.md cite in snake case, as today's Rattle does: usage: pages.py [--list | --check],
at the top. Only words inside backticks are turned; the notes on landings and the port's page stay. With --check it turns nothing
and lists each cited name that no file of crates/, front/, view/, tests/ or reference/ has."""

import glob
import os
import re
import subprocess
import sys

CAMEL = re.compile(r"(?<![A-Za-z0-9_'])[a-z][a-z0-9]*(?:[A-Z][A-Za-z0-9]*)+")
SPECIAL = {"getD": "get_or", "byTSNaming": "by_ts_naming", "byTS": "by_ts", "notTS": "not_ts", "getLe": "get_le"}
TICKED = re.compile(r"`[^`\n]+`")
PAGES = ["README.md", *sorted(p for p in glob.glob("docs/*.md") if p != "docs/PORT.md")]


def snake(m):
    return SPECIAL.get(m[0]) or re.sub(r"([A-Z]+)", lambda c: "_" + c[0].lower(), m[0])


def check():
    text = ""
    for p in subprocess.run(["git", "ls-files", "-z", "crates", "front", "view", "tests", "reference", "tebalung"], capture_output=True, check=True).stdout.decode().split("\0"):
        if p and os.path.isfile(p):
            text += " " + re.sub(r"[/.]", " ", p)
            if not p.endswith((".log", ".patch")):
                with open(p, encoding="utf-8", errors="replace") as f:
                    text += " " + f.read()
    known = set(re.findall(r"[A-Za-z0-9_'-]+", text)) | set(re.findall(r"[A-Za-z0-9_']+", text))
    for p in PAGES:
        with open(p, encoding="utf-8") as f:
            for n, line in enumerate(f, 1):
                for t in TICKED.findall(line):
                    for w in re.findall(r"[A-Za-z_][A-Za-z0-9_'-]*", t):
                        w = w.strip("-'")
                        if len(w) > 1 and w not in known and not ("-" in w and all(x in known for x in w.split("-"))):
                            print(f"{p}:{n}: {w}   in {t[:90]}")


def main():
    if "--check" in sys.argv:
        return check()
    found = {}
    for p in PAGES:
        with open(p, encoding="utf-8") as f:
            was = f.read()
        for t in TICKED.findall(was):
            for w in CAMEL.findall(t):
                found.setdefault(w, snake(re.match(r".*", w)))
        new = TICKED.sub(lambda t: CAMEL.sub(snake, t[0]), was)
        if new != was and "--list" not in sys.argv:
            with open(p, "w", encoding="utf-8") as f:
                f.write(new)
    print("\n".join(f"{a} {b}" for a, b in sorted(found.items())))


main()
