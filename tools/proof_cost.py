#!/usr/bin/env python3
"""Prints what each crate costs: lines of code, specification and proof, must-fail edits, and the seconds of its verdict.

    tools/proof_cost.py [CRATE..] > table

A verdict proves a crate from nothing, with those that it rests on. The verdicts run one after the other, in a copy of the repository as
it was last committed.
"""
import os
import re
import subprocess
import sys
import tempfile
import time


def files(folder, ending):
    for where, _, names in os.walk(folder):
        for name in sorted(names):
            if name.endswith(ending):
                yield os.path.join(where, name)


def lines(folder, ending):
    total = 0
    for name in files(folder, ending):
        with open(name, encoding="utf-8") as f:
            total += sum(1 for _ in f)
    return total


def verdict(crate):
    """Proves a crate and those below it: seconds."""
    start = time.time()
    said = subprocess.run(["rt", "verdict"], cwd="crates/" + crate, stdout=subprocess.PIPE, stderr=subprocess.STDOUT, text=True, check=False)
    if said.returncode != 0:
        sys.exit(said.stdout + "\nproof_cost: %s is not proved" % crate)
    return time.time() - start


def main():
    root = subprocess.run(["git", "rev-parse", "--show-toplevel"], check=True, capture_output=True, text=True).stdout.strip()
    with tempfile.TemporaryDirectory() as copy:
        subprocess.run(["git", "clone", "-q", root, copy], check=True)
        os.chdir(copy)
        print("| crate | code | specs | proofs | must-fail edits | verdict, s |")
        print("|---|---|---|---|---|---|")
        for crate in sys.argv[1:] or re.findall(r"^([a-z_]+)[ a-z]*:", open("crates.txt").read(), re.M):
            seconds = verdict(crate)
            row = [lines("crates/%s/%s" % (crate, part), ending) for part, ending in (("src", ".rt"), ("specs", ".antt"), ("proofs", ".antt"))]
            edits = sum(1 for _ in files("crates/%s/must-fail" % crate, ".edit"))
            print("| `%s` | %d | %d | %d | %d | %.0f |" % (crate, *row, edits, seconds), flush=True)


main()
