#!/usr/bin/env python3
"""Counts, in crates/*/src, the places that docs/DESIGN-PASS.md speaks of.

usage: tools/count_places.py [FOLDER] [--list]     (FOLDER: a checkout; --list prints each place)
Each row is one pattern over the text of all files of crates/*/src/*.rt.
"""
import glob
import os
import re
import sys

ROWS = [
    ("1 enum declarations (read for the shape of Option or Result)", r"(?m)^ *(?:pub(?:\(crate\))? )?enum \w+"),
    ("1 flag with a value beside it (a bool field)", r"(?m)^ *(?:pub(?:\(crate\))? )?\w+: bool,$"),
    ("1 refusal made from a number", r"Refusal::new\(\d+,"),
    ("1 number of a kind, a field or a layer", r"fn number\(|(?m:^(?:pub(?:\(crate\))? )?const (?:CONSUMPTION|REGENERATION|WEIGHT|LOCOMOTIVES): u8)|fn rule_of\(kind: u8|fn layer_of\("),
    ("1 let-else or match that hands on a None", r"else \{\s*return None;\s*\}|None => None,|else \{\s*None\s*\}"),
    ("1 let-else that answers a fault", r"let (?:Some|Ok)\([^=]*\) = [^;{]*else \{\s*return Err\("),
    ("1 match that hands on an error or an answer as it is", r"Ok\((\w+|\(\))\) => Ok\(\1\)|Err\(\(?[^)]*\)?\) => (?:return )?Err\("),
    ("3 loops (`for` and `while`)", r"(?m)^ *(?:for|while) "),
    ("3 loop over a range of indices", r"(?m)^ *for \w+ in \w+\.\."),
    ("3 loop with `enumerate`", r"(?m)^ *for .*\.enumerate\(\)"),
    ("3 `while`", r"(?m)^ *while "),
    ("4 widening or narrowing `as`", r"\bas (?:u8|u16|u32|u64|usize|i64)\b"),
    ("4 function that prints by hand", r"fn (?:print|report)\w*[<(]"),
    ("4 impl Display", r"impl[^{;]*Display for"),
    ("4 impl From or TryFrom", r"impl[^{;]*\b(?:Try)?From<"),
    ("4 derive line", r"#\[derive\("),
    ("5 parameter `categories: &OrderedList<CategoryLine>`", r"categories: &OrderedList<CategoryLine>,\n"),
    ("5 parameters `cells` and `accounts`", r"cells: &(?:mut )?\[Cell\],\s*accounts: &"),
    ("5 parameters `costs` and `energy`", r"costs: &\[u64\],\s*energy: u64"),
    ("5 parameters `batch` and `place`", r"batch: &(?:'a )?\[u8\],\s*place: usize"),
    ("5 requires SoundCells", r"requires \w* ?\{ SoundCells"),
    ("5 requires MeteredRanged or WholeRecord", r"requires \w+ \{ (?:MeteredRanged|WholeRecord)"),
    ("5 requires row_in_range", r"requires \w+ \{ row_in_range"),
    ("5 requires WithinLimits", r"requires \w* ?\{ WithinLimits"),
    ("6 fixed buffer or array filled later", r"let mut \w+ = \["),
    ("6 lent slice with a count beside it", r"lines: &'a mut \[L\],\s*count: usize"),
    ("7 dyn, fn pointers", r"\bdyn \w|: fn\("),
    ("7 closures", r"\|[\w, &()_]*\| "),
]


def main():
    args = [a for a in sys.argv[1:] if not a.startswith("--")]
    top = args[0] if args else "."
    texts = {}
    for path in sorted(glob.glob(os.path.join(top, "crates/*/src/**/*.rt"), recursive=True)):
        with open(path, encoding="utf-8") as file:
            texts[os.path.relpath(path, top)] = file.read()
    for name, pattern in ROWS:
        found = [(p, t.count("\n", 0, m.start()) + 1) for p, t in texts.items() for m in re.finditer(pattern, t)]
        print(f"{len(found):5}  {name}")
        if "--list" in sys.argv:
            for path, line in found:
                print(f"         {path}:{line}")


main()
