#!/usr/bin/env python3
"""The figures of docs/MEASURED.md: lines, processor seconds and memory of each crate, proved from nothing in a fresh clone.

Usage: python3 tools/measure.py     (from the repository; prints a Markdown table)

A check begins with what checks of the same crates have kept in other copies of the repository on this machine. Then it is not from
nothing, and this ends with an error: remove crates/*/out in those copies.
"""
import glob
import os
import re
import subprocess
import sys
import tempfile


def crates(root):
    """The crates of crates.txt with their own dependencies, in an order in which each comes after those."""
    deps = {}
    for line in open(os.path.join(root, "crates.txt")):
        line = line.split("#")[0].strip()
        if line:
            name, rest = line.split(":")
            deps[name.split()[0]] = rest.split()
    order = []
    while len(order) < len(deps):
        for name in deps:
            if name not in order and all(d in order or d not in deps for d in deps[name]):
                order.append(name)
    return order


def lines(root, name, part, ending):
    """The lines of a part of a crate that hold more than white space."""
    found = glob.glob(os.path.join(root, "crates", name, part, "**", "*" + ending), recursive=True)
    return sum(1 for f in found for line in open(f) if line.strip())


def check(root, name):
    """Processor seconds and the largest resident set, in MB, of one crate's check; what it depends on is proved already."""
    folder = os.path.join(root, "crates", name)
    child = os.fork()
    if child == 0:
        import resource

        with open(os.path.join(root, ".said"), "w") as said:
            ok = subprocess.call(["rt", "check"], cwd=folder, stdout=said, stderr=said) == 0
        used = resource.getrusage(resource.RUSAGE_CHILDREN)
        with open(os.path.join(root, ".used"), "w") as file:
            file.write(f"{used.ru_utime + used.ru_stime} {used.ru_maxrss // 1024}")
        os._exit(0 if ok else 1)
    _, status = os.waitpid(child, 0)
    if status:
        sys.exit(f"measure: {name} was not proved")
    kept = re.search(r"begins with what a check kept in .*", open(os.path.join(root, ".said")).read())
    if kept:
        sys.exit(f"measure: {name} {kept[0]}")
    if os.path.exists(os.path.join(folder, "src", "lib.rt")):
        # the library for the crates above it, over the work that the check kept
        subprocess.check_call(["rt", "lib"], cwd=folder, stdout=subprocess.DEVNULL, stderr=subprocess.DEVNULL)
    seconds, peak = open(os.path.join(root, ".used")).read().split()
    return float(seconds), int(peak)


def main():
    with tempfile.TemporaryDirectory() as root:
        subprocess.check_call(["git", "clone", "--quiet", ".", root])
        print("| crate | code | specs | proofs | edits | seconds | MB |")
        print("|---|---|---|---|---|---|---|")
        totals = [0] * 5
        for name in crates(root):
            seconds, peak = check(root, name)
            edits = len(glob.glob(os.path.join(root, "crates", name, "must-fail", "*.edit")))
            row = [lines(root, name, "src", ".rt"), lines(root, name, "specs", ".antt"), lines(root, name, "proofs", ".antt"), edits, seconds]
            totals = [a + b for a, b in zip(totals, row)]
            print(f"| {name} | {row[0]} | {row[1]} | {row[2]} | {row[3]} | {row[4]:.0f} | {peak} |", flush=True)
        print(f"| all | {totals[0]} | {totals[1]} | {totals[2]} | {totals[3]} | {totals[4]:.0f} | |")


main()
