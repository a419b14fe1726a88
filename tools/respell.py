#!/usr/bin/env python3
"""Spells this repository's own definitions, lemmas, fields and constructors in snake case.

usage: python3 tools/respell.py [--check]     at the top of the repository, once, after the kit's port.py

A name that specs/ or proofs/ declare, with a dash or a capital inside, is written in snake case wherever it stands in
a proof file, a clause, a `ghost use` item or a must-fail edit. Names of goals and steps, which Rattle makes, names of
other libraries, strings and comments stay. --check writes nothing. Names that would fall together are printed, and then
nothing is written.
"""

import os
import re
import sys

NAME = r'[^\s(){}.;,@"«»λ]+'
TOKEN = re.compile(rf'"(?:[^"\\\n]|\\.)*"|--(?=[ \n-])[^\n]*|//[^\n]*|[.]|{NAME}|\s+|.', re.S)
DECLARED = re.compile(rf"(?m)^( *)((?:(?:abbrev|unfoldable|pub|data|record|mutual) )*)({NAME})((?: +(?:\([^()\n]*(?:\([^()\n]*\)[^()\n]*)*\)|\{{[^{{}}\n]*\}}))*) :(?= |$)(.*)$")
LET = re.compile(rf"(?<![^\s(])let ({NAME})(?= =| :)")
IMPORT = re.compile(r"\buse ([^\s;{]+)(?:\{([^}]*)\})?")
HEADS = {"c", "w", "l", "goal", "given"}
# the names whose plain spelling would not be good
SPECIAL = {"sumZTo": "int_sum_to"}
# fields of records and local names, which do not meet the field of that name in the source
APART = {"in-range", "volume-energy", "volume-delivery"}


def snake(name):
    if name in SPECIAL:
        return SPECIAL[name]
    for old, new in SPECIAL.items():
        if name.startswith(old + "-"):
            name = new + name[len(old):]
    head = name[:1]
    words = re.sub(r"(?<=[a-z0-9])[A-Z]", lambda m: "_" + m[0].lower(), name[1:])
    return (head + words).replace("-", "_").replace("′", "'")


def turns(name):
    return re.fullmatch(r"[a-z][\w'′-]*", name) and (("-" in name) or re.search(r"[a-z0-9][A-Z]", name)) and snake(name) != name


def files(kind):
    for folder, dirs, names in os.walk("crates"):
        dirs[:] = sorted(d for d in dirs if d != "out")
        for n in sorted(names):
            if n.endswith(kind):
                yield os.path.join(folder, n)


def read(path):
    with open(path, encoding="utf-8") as f:
        return f.read()


def declared(text):
    """The names that a proof file declares, without goals."""
    found = set()
    for m in DECLARED.finditer(text):
        if not m[5].strip().startswith(("goal.", "given.", "need.")):
            found.add(m[3])
    return found | set(LET.findall(text))


def foreign(text, own, ghost=""):
    """The names that a file takes from other libraries."""
    found = set()
    for m in re.finditer(ghost + IMPORT.pattern, text):
        steps = m[1].rstrip(".").split(".")
        if not (steps[0] == "Rattle" and len(steps) > 1 and steps[1] in own):
            for item in (m[2] or "").split(","):
                item = item.strip()
                if item:
                    found.add(item.split(" as ")[-1].strip())
    return found


def turned(text, table, stay):
    out, before, behind = [], [], False
    for m in TOKEN.finditer(text):
        t = m[0]
        if t == ".":
            behind = True
            out.append(t)
            continue
        label = behind and len(before) == 1 and before[0] in HEADS
        if t in table and t not in stay and not label:
            out.append(table[t])
        else:
            out.append(t)
        if re.fullmatch(NAME, t):
            before = before + [t] if behind else [t]
        else:
            before = []
        behind = False
    return "".join(out)


def main(check):
    own = set(os.listdir("crates"))
    texts = {p: read(p) for p in list(files(".antt")) + list(files(".rt")) + list(files(".edit"))}
    names, every = set(), set()
    for p, t in texts.items():
        if p.endswith(".antt"):
            d = declared(t)
            every |= d
            names |= {n for n in d if turns(n)}
    table = {n: snake(n) for n in names}
    # names of the source that a clause would mean in place of a definition
    source = set()
    for p, t in texts.items():
        if p.endswith(".rt"):
            source |= set(re.findall(r"(?m)^\s*(?:pub(?:\([a-z]+\))? )?(?:ghost )?(\w+): ", t))
            source |= set(re.findall(r"\b(?:const|static|type|struct|enum|trait) (\w+)", t))
            source |= set(re.findall(r"\bghost (\w+) *[:=]", t))
    bad = []
    back = {}
    for old, new in sorted(table.items()):
        if new in every:
            bad.append(f"{old}: {new} is declared too")
        if new in source and old not in APART:
            bad.append(f"{old}: {new} is a name of the source")
        if new in back:
            bad.append(f"{old} and {back[new]} fall together")
        back[new] = old
    for b in bad:
        print(b)
    changed = 0
    for p, t in texts.items():
        stay = foreign(t, own, r"\bghost " if p.endswith(".rt") else "")
        new = turned(t, table, stay)
        clash = {v for k, v in table.items() if k not in stay and v in stay and re.search(rf"(?<![\w'-]){re.escape(k)}(?![\w'-])", t)}
        if clash:
            print(f"{p}: takes from elsewhere what a name would be spelled like: {sorted(clash)}")
            bad.append(p)
        if new != t:
            changed += 1
            if not check and not bad:
                with open(p, "w", encoding="utf-8") as f:
                    f.write(new)
    print(f"{len(table)} names, {changed} files" + (", nothing written" if check or bad else ""))
    return 1 if bad else 0


if __name__ == "__main__":
    raise SystemExit(main("--check" in sys.argv[1:]))
