#!/usr/bin/env python3
"""Holds the names that docs/RULES.md and docs/promises.md cite to the tree: each must exist. And the other way
round: docs/promises.md cites every public function and every edit.

Cited is what stands in `code font`: a file, a function as CRATE::FUNCTION, or names of definitions, theorems,
functions and fields; and each edit, as CRATE/EDIT, in code font or not. Usage: python3 tools/names.py     (from the repository)
"""
import glob
import os
import re
import sys

DOCS = ["docs/RULES.md", "docs/promises.md"]
SOURCES = ["crates/*/src/*.rt", "crates/*/specs/*.antt", "crates/*/proofs/**/*.antt", "include/*.h", "examples/*.c",
           "tests/**/*.rs", "tests/**/*.py", "tests/*.sh", "bench/src/*.rs", "tools/*.py"]
NAME = re.compile(r"^[A-Za-z_][\w·'′₀-₉-]*$")


def tree_names():
    """Every name that stands in a source file, outside its comments."""
    names = set()
    for pattern in SOURCES:
        for path in glob.glob(pattern, recursive=True):
            for line in open(path):
                line = re.sub(r"(^|\s)(--|//|#)\s.*$", "", line)
                names.update(re.findall(r"[A-Za-z_][\w·'′₀-₉-]*", line))
    return names


def missing(cited, names):
    """What of a cited piece does not exist: nothing where all of it does."""
    if cited.endswith((".antt", ".rt", ".md", ".h", ".c", ".sh", ".py", ".rs", ".txt", ".svg")):
        found = [glob.glob(folder + cited) for folder in ("", "crates/", "crates/*/", "crates/*/*/", "tests/", "tests/*/")]
        return [] if any(found) else [cited]
    if os.path.isdir("crates/" + cited):
        return []
    edit = re.fullmatch(r"([a-z_]+)/([a-z_0-9]+)", cited)
    if edit:
        return [] if os.path.exists(f"crates/{edit[1]}/must-fail/{edit[2]}.edit") or os.path.exists(cited) else [cited]
    call = re.fullmatch(r"([a-z_]+)::(\w+)", cited)
    if call and os.path.isdir("crates/" + call[1]):
        code = "".join(open(f).read() for f in glob.glob(f"crates/{call[1]}/src/*.rt"))
        return [] if re.search(r"\b(fn|struct|enum|const) " + call[2] + r"\b", code) else [cited]
    return [w for w in re.split(r"[\s(),.:;/&\[\]→>=]+", cited) if NAME.match(w) and len(w) > 1 and w not in names]


def unsaid():
    """The public functions and the edits that docs/promises.md does not cite."""
    text = open("docs/promises.md").read()
    words = {w for cited in re.findall(r"`([^`]+)`", text) for w in re.findall(r"\w+", cited)}
    for path in sorted(glob.glob("crates/*/src/lib.rt")):
        for name in re.findall(r'^pub (?:extern "C" )?fn (\w+)', open(path).read(), re.M):
            if name not in words:
                yield f"{path}: {name} is not in docs/promises.md"
    for path in sorted(glob.glob("crates/*/must-fail/*.edit")):
        edit = path.split("/")[1] + "/" + path.split("/")[3][: -len(".edit")]
        if not re.search(r"\b" + edit + r"\b", text):
            yield f"{path}: {edit} is not in docs/promises.md"


def main():
    names, wrong = tree_names(), list(unsaid())
    for doc in DOCS:
        for number, line in enumerate(open(doc), 1):
            plain = re.sub(r"`[^`]*`", "", line)
            edits = [e for e in re.findall(r"\b[a-z_]+/[a-z_0-9]+\b", plain) if not os.path.exists(e.split("/")[0])]
            for cited in re.findall(r"`([^`]+)`", line) + edits:
                wrong += [f"{doc}:{number}: {name} is nowhere in the tree" for name in missing(cited, names)]
    print("\n".join(wrong) or "names: ok")
    sys.exit(1 if wrong else 0)


main()
