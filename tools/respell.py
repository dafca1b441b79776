#!/usr/bin/env python3
"""Spells the definitions and lemmas of this repository as today's Rattle does: words in snake case, a dash only between two names.

usage: python3 tools/respell.py [--list]      at the top of the repository; --list shows the table and changes nothing

It was run after port.py on the repository as it was written for an older Rattle, and once more when a dash had come to ask for both names in the
statement (docs/PORT.md); run again it changes nothing. What is declared in specs/ and in
proofs/*.antt is respelled wherever it is used: specs, proofs, clauses, must-fail edits, and code spans of the documents. Functions of src/, what
Rattle itself makes and the names of libraries keep their spelling.
"""

import collections
import glob
import re
import sys

# Lemmas that would have the name of what they speak of.
APART = {
    n: n.replace("-", "_") + "_lem"
    for n in "all_plain goes_on last_digits load_after row_named row_put rows_next row-of key-at the-arrivals the-plan under-way area-after arrive-lines "
    "behind-after behind-line cell-dues is-ended late-row on-way send-lines stop-from string-at turned-away values-at is-late plan-room".split()
}
# Words that a comment says in plain English.
PROSE = set("well-formed on-ring to-go full-turn least-first in-time row-by-row".split())
# Words of the libraries that lemmas are named by.
WORDS = set("""length take drop set map get_or append replicate build filled cons nil suc zero zip ltb eqb cond slackOf
max min mod div mul add sub""".split())
LIBRARIES = set("mathlib Prim lib native borrow mir denote logic rt seplogic std core memory base numerals".split())
NAME = r"[^\s(){}.;,@\"«»\[\]|`]+"
SIG = re.compile(
    r"(?m)^( *)((?:(?:abbrev|unfoldable|pub|record|data|opaque)\s+)*)(" + NAME + r")((?: \{[^{}\n]*\}| \([^()\n]*\))*) :(?= |$)"
)
USE = re.compile(r"(?m)^[ \t]*(?:pub )?(?:ghost )?use ([^\s{;]+?)(?:\.\{([^{}]*)\})?(?: as [^\s;]+)?;?$")
CHAIN = re.compile(rf"{NAME}(?:\.{NAME})*")


def read(path):
    with open(path, encoding="utf-8") as f:
        return f.read()


def of_tree():
    """The files whose declarations are respelled, and all files in which they are."""
    own = sorted(glob.glob("crates/*/specs/*.antt") + glob.glob("crates/*/proofs/*.antt"))
    rest = sorted(glob.glob("crates/*/proofs/*/*.antt") + glob.glob("crates/*/src/*.rt") + glob.glob("crates/*/must-fail/*.edit"))
    return own, rest


def snake(part):
    return re.sub(r"(?<=[a-z0-9])[A-Z]", lambda m: "_" + m[0].lower(), part)


def table(own):
    declared, told, stated = collections.OrderedDict(), set(), collections.defaultdict(list)
    for p in own:
        in_record, lines = None, read(p).split("\n")
        for k, line in enumerate(lines):
            m = SIG.match(line)
            indent = len(line) - len(line.lstrip(" "))
            if re.match(r"\s*(pub )?record ", line):
                in_record = indent
            elif line.strip() and in_record is not None and indent <= in_record:
                in_record = None
            if m and re.match(r"[a-z]", m[3]):
                kind = "field" if in_record is not None and indent > in_record else "name"
                declared.setdefault(m[3], set()).add(kind)
                if "/specs/" in p:
                    told.add(m[3])
                stated[m[3]].append(set() if "/specs/" in p else statement(lines, k, m))
    # What a dash may join: definitions of specs/, and the libraries' words.
    heads = {n for n in told if len(n) > 2 and "-" not in n and "name" in declared[n]} | WORDS
    new = {}
    for n, kinds in declared.items():
        if "-" not in n and not re.search(r"[a-z0-9][A-Z]", n):
            continue
        parts = n.split("-")
        if "" in parts:
            continue
        out = snake(parts[0])
        for a, b in zip(parts, parts[1:]):
            dash = a in heads and b in heads and kinds == {"name"} and all({a, b} <= words for words in stated[n])
            out += ("-" if dash else "_") + snake(b)
        out = out.replace("get_d", "get_or")
        if out != n:
            new[n] = out
    if any(re.search(r"[a-z0-9][A-Z]", n) for n in new):
        new.update(APART)
    return declared, new


def statement(lines, k, m):
    """The words of what a declaration says, behind its name."""
    end = k + 1
    while end < len(lines) and lines[end].startswith(" " * (len(m[1]) + 4)):
        end += 1
    text = lines[k][m.end(3):] + " " + " ".join(lines[k + 1:end])
    return set(re.findall(NAME, text))


def imports(text):
    """Names that a file imports from a library."""
    found = set()
    for m in USE.finditer(text):
        if is_library(m[1]) and m[2]:
            for item in m[2].split(","):
                found |= set(item.split())
    return found


CRATES = {p.split("/")[1] for p in glob.glob("crates/*/src/*.rt")}


def is_library(path):
    parts = path.split(".")
    return parts[0] in LIBRARIES or parts[0] == "Rattle" and len(parts) > 1 and parts[1] not in CRATES


def turn(text, new, kept, comment="--"):
    def chain(m):
        parts = m[0].split(".")
        if is_library(m[0]) and len(parts) > 1:
            return m[0]
        out = []
        for k, part in enumerate(parts):
            bare = part.rstrip("'′")
            tail = part[len(bare):]
            if part in new and part not in kept:
                out.append(new[part])
            elif bare in new and bare not in kept and part not in kept and tail:
                out.append(new[bare] + tail)
            else:
                out.append(part)
        return ".".join(out)

    lines, inside = [], False
    for line in text.split("\n"):
        at = line.find(comment) if comment else -1
        if at >= 0 and (at == 0 or line[at - 1] in " \t"):
            code, said = line[:at], line[at:]
        else:
            code, said = line, ""
        use = re.match(r"\s*(?:pub )?(?:ghost )?use ([^\s{;]+?)\.\{", code)
        if use and is_library(use[1]) or inside:
            inside = "}" not in code
            turned = code
        else:
            turned = CHAIN.sub(chain, code)
        if said:
            said = CHAIN.sub(lambda m: m[0] if m[0] in PROSE else chain(m), said)
        lines.append(turned + said)
    return "\n".join(lines)


def main():
    own, rest = of_tree()
    declared, new = table(own)
    rust = set()
    for p in glob.glob("crates/*/src/*.rt"):
        code = re.sub(r"(?m)//.*$", "", read(p))
        rust |= set(re.findall(r"\b(?:fn|const|struct|enum|let mut|let) (\w+)", code)) | set(re.findall(r"\b(\w+): ", code))
    library = set()
    for p in own + rest:
        library |= imports(read(p))
    back = collections.defaultdict(set)
    for o, n in new.items():
        back[n].add(o)
    if "--list" in sys.argv:
        for o, n in sorted(new.items()):
            notes = []
            if n in declared:
                notes.append("DECLARED")
            if n in rust:
                notes.append("RUST")
            if n in library or o in library:
                notes.append("LIBRARY")
            if len(back[n]) > 1:
                notes.append("TWO")
            print(o, n, " ".join(notes))
        return
    for p in own + rest:
        text = read(p)
        out = turn(text, new, imports(text), "--" if p.endswith(".antt") else "//" if p.endswith(".rt") else None)
        if out != text:
            with open(p, "w", encoding="utf-8") as f:
                f.write(out)
    span = re.compile(r"`[^`\n]+`")
    for p in ["README.md"] + sorted(glob.glob("docs/**/*.md", recursive=True)):
        text = read(p)
        out = span.sub(lambda m: turn(m[0], new, set(), None), text)
        if out != text:
            with open(p, "w", encoding="utf-8") as f:
                f.write(out)


main()
