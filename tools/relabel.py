#!/usr/bin/env python3
"""Spells the labels that Rattle makes for goals and steps as today's Rattle does, in the proof files of functions.

usage: python3 tools/relabel.py [FOLDER]     at the top of the repository

A label's parts are joined by dashes, and a part from the source keeps its spelling: `list-bases-requires` of the
function list_bases is `list_bases-requires` today. Words of Rattle's own are in snake case: `in-err-x` is `in_err-x`.
A name that a file imports from a library of the kit stays.
"""

import os
import re
import sys

NAME = re.compile(r"[A-Za-z_][\w'?]*(?:-[\w'?]+)+")
WORDS = "overflow_add overflow_sub overflow_mul overflow_shl overflow_shr overflow_cast overflow_step nonzero_div nonzero_rem in_ok in_err in_default type_inv slice_bounds offset_bounds from_residual well_formed items_fit ".split()
OWN = re.compile(r"Rattle\.(\w+)\.")


def sources(root):
    found = set(WORDS)
    for folder, dirs, files in os.walk(os.path.join(root, "crates")):
        dirs[:] = [d for d in dirs if d != "out"]
        for name in files:
            if name.endswith(".rt"):
                with open(os.path.join(folder, name), encoding="utf-8") as f:
                    found |= set(re.findall(r"\b\w+_\w+\b", re.sub(r"//[^\n]*", "", f.read())))
    return found


def joined(name, known):
    parts, out, i = name.split("-"), [], 0
    while i < len(parts):
        for j in range(len(parts), i, -1):
            word = "_".join(parts[i:j])
            if j == i + 1 or word in known:
                out.append(word)
                i = j
                break
    return "-".join(out)


def main(root):
    known, turned = sources(root), 0
    for folder, dirs, files in os.walk(os.path.join(root, "crates")):
        dirs[:] = [d for d in dirs if d != "out"]
        if not re.search(r"/proofs/", folder + "/") or folder.rstrip("/").endswith("/proofs"):
            continue
        for name in files:
            if not name.endswith(".antt"):
                continue
            path = os.path.join(folder, name)
            with open(path, encoding="utf-8") as f:
                old = f.read()
            kept = set()
            for m in re.finditer(r"^use (\S+?)\.\{([^}]*)\}", old, re.M):
                if not re.search(r"\.(Goals|Given)$", m[1]):
                    kept |= {w.strip() for w in m[2].split(",")}
            new = NAME.sub(lambda m: m[0] if m[0] in kept else joined(m[0], known), old)
            if new != old:
                turned += 1
                with open(path, "w", encoding="utf-8") as f:
                    f.write(new)
    print(f"relabel: {turned} files")


if __name__ == "__main__":
    main(sys.argv[1] if len(sys.argv) > 1 else ".")
