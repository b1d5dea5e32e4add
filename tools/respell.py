#!/usr/bin/env python3
"""Spells this repository's own definitions and lemmas anew: words in snake case, types in camel case.

usage: python3 tools/respell.py [FOLDER]     at the top of a repository that port.py has turned

tools/respell.tsv has a row for each name: the old spelling and the new one. In .antt files each name outside of
comments is turned; in .rt files each outside of comments and strings; in must-fail edits each. A label that Rattle
makes for a goal or a step (behind `goal.`, `c.` or `l.`, or a definition whose type is one) keeps its spelling.
Says what it turned, and which rows met no name.
"""

import collections
import os
import re
import sys

HERE = os.path.dirname(os.path.realpath(__file__))
NAME = re.compile(r"[A-Za-z_◌][\w'?◌-]*")
ANSWERS = re.compile(r"/proofs/.+/(Answers|Invariants|Choices|Proof)\.antt$")
CODE = re.compile(r'//[^\n]*|b?"(?:\\.|[^"\\])*"|' + r"'(?:\\.|[^'\\\n])'")


def table():
    with open(os.path.join(HERE, "respell.tsv"), encoding="utf-8") as f:
        return dict(line.rstrip("\n").split("\t") for line in f if line.strip())


def turn(text, names, labels, said):
    def one(m):
        word = m[0]
        if word not in names:
            return word
        before = text[max(0, m.start() - 5) : m.start()]
        if labels and (re.search(r"(^|[^\w'])(goal|need|c|l)\.$", before) or re.match(rf"{re.escape(word)} : (goal|need)\.", text[m.start() :])):
            return word
        said[word] += 1
        return names[word]

    return NAME.sub(one, text)


def outside(text, skip, names, labels, said):
    """Turns what no match of skip covers."""
    out, at = [], 0
    for m in skip.finditer(text):
        out += [turn(text[at : m.start()], names, labels, said), m[0]]
        at = m.end()
    return "".join(out) + turn(text[at:], names, labels, said)


def main(root):
    names, said, files = table(), collections.Counter(), 0
    for folder, dirs, entries in os.walk(os.path.join(root, "crates")):
        dirs[:] = sorted(d for d in dirs if d != "out")
        for entry in sorted(entries):
            path = os.path.join(folder, entry)
            if not entry.endswith((".antt", ".rt", ".edit")):
                continue
            with open(path, encoding="utf-8") as f:
                old = f.read()
            if entry.endswith(".antt"):
                new = outside(old, re.compile(r"--(?= |$)[^\n]*", re.M), names, bool(ANSWERS.search(path)), said)
            elif entry.endswith(".rt"):
                new = outside(old, CODE, names, False, said)
            else:
                new = turn(old, names, False, said)
            if new != old:
                files += 1
                with open(path, "w", encoding="utf-8") as f:
                    f.write(new)
    print(f"respell: {sum(said.values())} places in {files} files; {len(said)} of {len(names)} names")


if __name__ == "__main__":
    main(sys.argv[1] if len(sys.argv) > 1 else ".")
