#!/usr/bin/env python3
"""Lists, for each point of docs/DESIGN-PASS.md, the places in crates/*/src that may be of an older form.

    python3 tools/count_places.py [FOLDER] [--list]

FOLDER is a checkout (the current folder if none is named). It goes by text: each line of its lists is a
place to look at, not a fault. Tests count apart: a file tests.rt, or what stands below `#[cfg(test)]`.
"""

import collections
import glob
import itertools
import os
import re
import sys

WIDE = 3  # so many functions, or parameters, make a group


def sources(folder):
    """(crate, file, lines of code without tests), of each file"""
    for path in sorted(glob.glob(os.path.join(folder, "crates/*/src/**/*.rt"), recursive=True)):
        if path.endswith("tests.rt"):
            continue
        text = open(path, encoding="utf-8").read()
        cut = re.search(r"^#\[cfg\(test\)\]\nmod tests \{", text, re.M)
        if cut:
            text = text[: cut.start()]
        short = os.path.relpath(path, folder)
        yield short.split(os.sep)[1], short, text.split("\n")


LINES = {
    "1 own enums": r"^\s*(pub(\(crate\))? )?enum ",
    "1 numbers for kinds": r"^\s*(-?\d+|\d+\.\.=\d+)( if .*)? => |\bkind: (u32|\d)|graph\[4 \* \w+\] ==|^(pub )?const [A-Z]+: u8 ",
    "1 flags": r"let mut \w+ = (true|false);|: bool,?$|\{ parens: bool \}",
    "1 numbers for none": r"-> (usize|u8|u32|u64)\b.*\bend\b|^\s*end$",
    "3 loops by a number": r"^\s*('\w+: )?for \w+ in [^{]*\.\.",
    "3 while and loop": r"^\s*('\w+: )?(while|loop)\b",
    "4 casts": r" as (usize|u8|u16|u32|u64)\b",
    "4 conversions": r"^\s*impl.* (From|TryFrom)<|fn (wording|byte_of|usage|\w+_of)\(",
    "4 comparisons": r"^\s*impl.* (PartialEq|Eq|PartialOrd|Ord|Hash|Clone)\b.* for",
    "4 printing": r"fn (show_\w+|list)<W|^\s*let mut first = true;",
    "6 arrays with a length beside": r"\[(0u32|false|bool|u32); ?\w+\]|^\s*(pub )?(count|len|nodes|procs): usize,",
    "6 marks cut by hand": r"len\(\) / 33",
    "6 several Vecs in a struct": r"^\s*(pub )?\w+: Vec<",
    "7 switches on which step to run": r"=> visit_\w+\(",
    "7 closures and dyn": r"\bdyn |impl Fn|: Fn(Mut|Once)?\(|\bfn\(",
}

# functions that are known to be alike but for a type, a constant or an error
TWINS = [
    "set_bit clear_bit assign",
    "find_name find_label find_heading find_procedure",
    "unknown_variable unknown_label unknown_procedure",
    "procedure_names label_names variable_names",
    "conjunction disjunction",
    "comment_end word_end",
    "reply verdict",
    "summary answer",
    "solve settle",
    "tell measure",
    "check_variable check_place check_callee",
    "from(_error: AllocError) from(_refused: AllocFailed<T>)",
    "struct VarNo( struct PlaceNo( struct ProcNo(",
    "const MOST_VARIABLES const MOST_PROCEDURES const MOST_BYTES",
    "never is_reached",
]

HEAD = re.compile(
    r"fn (\w+)(?:<[^>]*>)?\(([^)]*)\)([^{]*?(?:\n\s+(?:requires|ensures)[^\n]*)*)\n?\s*\{"
)


def groups(code):
    """parameters that travel together, and facts of contracts, each with its functions"""
    packs, facts = collections.defaultdict(set), collections.defaultdict(set)
    for match in HEAD.finditer(code):
        name = match.group(1)
        words = [p.split(":")[0].strip() for p in match.group(2).split(",") if ":" in p]
        words = sorted(w.replace("mut ", "") for w in words if w)
        for many in range(WIDE, len(words) + 1):
            for pack in itertools.combinations(words, many):
                packs[pack].add(name)
        for clause in re.findall(r"requires[^\n]*", match.group(0)):
            for word in re.findall(r"\b([A-Z]\w+)\b", clause):
                facts[word].add(name)
    packs = {p: n for p, n in packs.items() if len(n) >= WIDE}
    largest = {
        p: n
        for p, n in packs.items()
        if not any(set(p) < set(q) and packs[q] >= n for q in packs)
    }
    return largest, {f: n for f, n in facts.items() if len(n) >= WIDE}


def main():
    listing = "--list" in sys.argv
    folders = [a for a in sys.argv[1:] if not a.startswith("--")]
    folder = folders[0] if folders else "."
    found = collections.defaultdict(list)
    whole = collections.defaultdict(str)
    for crate, path, lines in sources(folder):
        whole[crate] += "\n".join(lines) + "\n"
        for number, line in enumerate(lines, 1):
            if line.lstrip().startswith("//"):
                continue
            for label, pattern in LINES.items():
                if re.search(pattern, line):
                    found[label].append((crate, f"{path}:{number}: {line.strip()}"))
            for row in TWINS:
                for words in re.findall(r"\w+\([^)]*\)|(?:struct|const) [^ ]+|\w+", row):
                    what = words if "(" in words or " " in words else f"fn {words}("
                    if what in line or (words.isidentifier() and f"fn {words}<" in line):
                        found["2 twins"].append((crate, f"{path}:{number}: {line.strip()}"))
    for crate, code in sorted(whole.items()):
        packs, facts = groups(code)
        for pack, names in sorted(packs.items()):
            found["5 parameters together"].append((crate, f"{crate}: {', '.join(pack)} in {len(names)}"))
        for fact, names in sorted(facts.items()):
            found["5 facts"].append((crate, f"{crate}: {fact} in {len(names)}"))
    for folder_of in sorted(glob.glob(os.path.join(folder, "crates/*/proofs"))):
        crate = folder_of.split(os.sep)[-2]
        for path in glob.glob(os.path.join(folder_of, "**/*.antt"), recursive=True):
            text = open(path, encoding="utf-8").read()
            label = "8 answers" if path.endswith("Answers.antt") else "8 lemmas and definitions"
            if path.endswith(("Invariants.antt", "Lib.antt")):
                continue
            for _ in re.findall(r"^(?:abbrev |unfoldable )?(?:pub )?[\w.'-]+ : ", text, re.M):
                found[label].append((crate, path))
    for label in sorted(found):
        by_crate = collections.Counter(crate for crate, _ in found[label])
        print(f"{label}: {len(found[label])} (" + ", ".join(f"{c} {n}" for c, n in sorted(by_crate.items())) + ")")
        if listing and not label.startswith("8"):
            for _, place in found[label]:
                print("    " + place)


main()
