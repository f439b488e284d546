#!/usr/bin/env python3
"""Brings the repository's own names to snake case: definitions and record fields in camel case, and lemmas whose dashes join more than names.

usage: python3 tools/respell.py [--list]     at the top of the repository, once, after the kit's port.py

A word's dashes become underscores, but for one that joins two names of definitions, as in length-work. Names that the library also has and names
that stand for a goal of a function (in proofs/F/) stay. --list prints old and new names and what falls together, and writes nothing.
"""

import collections
import glob
import re
import sys

DECLARED = re.compile(r"^\s*(?:(?:unfoldable|abbrev|pub)\s+)*([^\s(){}:;,.]+)\s*:(?=\s|$)")
USE = re.compile(r"use\s+([\w.·+\-']+)\.\{([^}]*)\}")
TOKEN = r"(?<![\w'\-·])%s(?![\w'\-·])"
WORDS = {"length", "take", "drop", "set", "get_or", "append", "member", "not", "and", "or", "sum"}


def read(path):
    with open(path, encoding="utf-8") as f:
        return f.read()


def definitions():
    """The names of specs/ and of the lemma files, each with the files that declare it; and those of specs/ alone."""
    names, words = collections.defaultdict(set), set(WORDS)
    for path in glob.glob("crates/*/specs/**/*.antt", recursive=True) + glob.glob("crates/*/proofs/*.antt"):
        for line in read(path).splitlines():
            m = DECLARED.match(line)
            if m and not line.strip().startswith(("--", "(", "|", "λ")):
                names[m.group(1)].add(path)
                if "/specs/" in path:
                    words.add(m.group(1))
    return names, words


def snake(name):
    return re.sub(r"(?<=[a-z0-9])([A-Z])", lambda m: "_" + m.group(1).lower(), name)


def spelled(name, words):
    if name[0].isupper():
        return name
    said = snake(name)
    if "-" not in name:
        return said
    parts, out = said.split("-"), None
    kept = {snake(w) for w in words}
    out = parts[0]
    for i in range(1, len(parts)):
        left, right = "-".join(parts[:i]), "-".join(parts[i:])
        joins = left.replace("-", "_") in kept and right.replace("-", "_") in kept
        out += ("-" if joins else "_") + parts[i]
    return out


def imported(text):
    """What a file imports: name -> module."""
    found = {}
    for module, names in USE.findall(text):
        for n in names.split(","):
            n = n.strip().split(" as ")[0].strip()
            if n:
                found[n] = module
    return found


def main(argv):
    names, words = definitions()
    turned = {n: spelled(n, words) for n in names if spelled(n, words) != n}
    files = glob.glob("crates/*/specs/**/*.antt", recursive=True) + glob.glob("crates/*/proofs/**/*.antt", recursive=True)
    files += glob.glob("crates/*/src/*.rt") + glob.glob("crates/*/must-fail/*.edit")
    texts = {p: read(p) for p in files}
    own = {p.split("/")[1] for p in files}
    foreign = set()
    for p, t in texts.items():
        for n, module in imported(t).items():
            parts = module.split(".")
            if n in turned and not (parts[0] == "Rattle" and len(parts) > 1 and parts[1] in own):
                foreign.add(n)
    for n in foreign:
        print(f"left, the library has it: {n}")
        del turned[n]
    said = collections.Counter(turned.values())
    for n, new in sorted(turned.items()):
        if said[new] > 1 or new in names:
            print(f"falls together: {n} -> {new}")
    everything = "\n".join(texts.values())
    for new in sorted(set(turned.values())):
        if re.search(TOKEN % re.escape(new), everything):
            print(f"stood before: {new} (from {[n for n in turned if turned[n] == new]})")
    if "--list" in argv:
        for n in sorted(turned):
            print(n, "->", turned[n])
        return 0
    for p, t in texts.items():
        by_hand = re.search(r"/proofs/[^/]+/", p)
        for n, new in turned.items():
            if n not in t:
                continue
            camel = re.search(r"[a-z0-9][A-Z]", n)
            if p.endswith((".rt",)) and not camel:
                continue
            if by_hand and not camel:
                # in a function's own proof files a dashed word may name a goal: only what is imported, or cited through a module, is a lemma
                if n in imported(t):
                    t = re.sub(TOKEN % re.escape(n), new, t)
                else:
                    t = re.sub(r"(?<![\w'\-·.])([a-z][\w\-]*)\." + re.escape(n) + r"(?![\w'\-·])", lambda m: m.group(1) + "." + new if re.search(r"(?m)^use \S+ as " + re.escape(m.group(1)) + "$", t) and m.group(1) != "tie" else m.group(0), t)
            else:
                t = re.sub(TOKEN % re.escape(n), new, t)
        if t != texts[p]:
            with open(p, "w", encoding="utf-8") as f:
                f.write(t)
    return 0


if __name__ == "__main__":
    raise SystemExit(main(sys.argv[1:]))
