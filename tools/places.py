#!/usr/bin/env python3
"""Lists the places of src/ that docs/DESIGN-PASS.md counts, point by point: python3 tools/places.py [-l] [TOP]."""
import glob
import os
import re
import sys

LINES = {
    "1 an own enum": r"^\s*(pub )?enum ",
    "1 a number that says none, or a kind (by its comment)":
        r"^\s*//.*(\b0 (where|for)\b|, or 0\b|\bor 0 where|count where it has none|number of entries where)",
    "2 a fixed area made by hand": r"^\s*(\[(0|1|UNTOUCHED)(u8|u16|i32)?; ?\w+\]|let z = \[)",
    "2 a refusal built by hand": r"\bRefusal \{$",
    "2 a refusal handed on by a match": r"\b(Refused|Err)\((\w+)\) => (return )?(\w+::Refused|Err|turn_away)\(\2\)",
    "2 a function over columns beside one over rows": r"\bfn \w+_columns\b",
    "3 a loop with a count or place of its own": r"^\s*('\w+: )?(while|loop)\b",
    "4 a conversion by hand": r"^\s*(pub )?fn (flat_\w+|named_by|same_bytes|named|wide)\b",
    "6 a column of rows or cells as a parameter or field": r"\b(src|dst|len|due|dsts|dues|owner): (&(mut )?)?\[u16",
    "6 a buffer with a length, or two ends, beside it": r"^pub struct (Key|Span|Parsed|Columns)\b|^struct FlatParsed\b",
    "7 a switch on a step": r"\b(up|step): (bool|u16)\b",
}


def parameters(text):
    """The functions with six parameters or more."""
    for m in re.finditer(r"^(\s*)(pub )?(extern \"C\" )?fn (\w+)[^(\n]*\(", text, re.M):
        depth, at = 1, m.end()
        while depth:
            depth += {"(": 1, ")": -1}.get(text[at], 0)
            at += 1
        count = len([p for p in text[m.end():at - 1].split(",") if p.strip()])
        if count >= 6:
            yield text.count("\n", 0, m.start()) + 1, f"fn {m.group(4)} ({count})"


def asked(text):
    """What each function asks: its name and each fact of its requires."""
    for m in re.finditer(r"fn (\w+)[^{;]*?((?:\s*requires[^{]*\{.*?\}\s*\n)+)", text, re.S):
        for clause in re.finditer(r"requires[^{]*\{(.*?)\}\s*(?=\n)", m.group(2), re.S):
            for fact in re.sub(r"\s+", " ", clause.group(1)).split(" × "):
                yield m.group(1), re.sub(r"\b(old|now|entry|new)\b", ".", fact.strip(" ()"))


def main():
    args = [a for a in sys.argv[1:] if a != "-l"]
    top = args[0] if args else "."
    files = sorted(glob.glob(os.path.join(top, "crates/*/src/*.rt")))
    found = {name: [] for name in LINES}
    found["5 six parameters or more"] = []
    facts = {}
    for path in files:
        text = open(path, encoding="utf-8").read()
        short = os.path.relpath(path, top)
        for number, line in enumerate(text.split("\n"), 1):
            for name, pattern in LINES.items():
                if re.search(pattern, line):
                    found[name].append(f"{short}:{number}: {line.strip()}")
        found["5 six parameters or more"] += [f"{short}:{n}: {what}" for n, what in parameters(text)]
        for function, fact in asked(text):
            facts.setdefault(fact, []).append(f"{short}: {function} asks {fact}")
    found["5 a fact that three functions or more ask"] = [p for places in facts.values() if len(places) > 2 for p in places]
    for name in sorted(found):
        print(f"{len(found[name]):4}  {name}")
        if "-l" in sys.argv:
            for place in found[name]:
                print("        " + place)


if __name__ == "__main__":
    main()
