#!/usr/bin/env python3
"""Respells this repository's own definitions, lemmas and fields as words in snake case.

usage: python3 tools/spell_names.py [--list]      at the top of the repository, once, right after the toolchain's own porting script

Types and modules keep their upper camel case, functions of src/, exported C names, strings and the documents' letters (R, D, N, and the worked
lists A to F) their names. With --list it only prints old and new name of each. Two names that would fall together in one file are an error: OTHER
says what such a name becomes.
"""
import collections
import os
import re
import sys

# names that would fall together with another, or say no more what they mean
OTHER = {
    "rate-at": "rate_at_lem",
    "bytes-in": "bytes_in_lem",
    "best-from": "best_from_lem",
    "best_of": "best_of_lem",
    "stretches-cost": "stretches_cost_lem",
    "units_in": "units_in_lem",
    "in-units": "in_units_lem",
    "at_first": "at_first_lem",
    "epochRate": "rate_of_epoch",
    "packetRate": "rate_of_packet",
}
# names that a signature or a local definition binds
BOUND = """
dayWith madeNumbers made-entries epoch-n epoch-d packet-n packet-d epoch-n' epoch-d' packet-n' packet-d' frame-answer list-answer written-answer
small-a small-into small-from small-out small-frame long-a long-b no-load no-packet no-epoch not-above zero-count q-some e-is f-is r-is u-is y-is value-is
""".split()
# fields of two records that one file speaks of: each is read by its record
FIELDS = {"r_fits", "r_some", "d_some", "d_most", "n_most"}
# fields and lists that are named by a letter of the documents
KEPT = {"R", "D", "N", "A", "B", "C", "E", "F"}

NAME = r"[A-Za-z_][A-Za-z0-9_'\u2080-\u2089\u03b1-\u03c9-]*"
DECLARED = re.compile(r"^(?:(?:unfoldable|abbrev|pub|record|data|ruleset) )*(" + NAME + r")(?= [^=]*:|$)")
FIELD = re.compile(r"^ +(?:pub )?(" + NAME + r") :")
LOCAL = re.compile(r"\blet (" + NAME + r") [:=]")
USE = re.compile(r"^(?:ghost )?use ([A-Za-z_.+]+)(?:\.\{(.*)\})?(?: as (\S+))?;?$")
# an answer to a goal, an invariant or a measure: its name is the goal's
GOAL = re.compile(r" : (tie\.|\{M : Type 1\} → statement M)")
FOREIGN = re.compile(r"^(Prim|mathlib|native|lib|borrow|denote|logic|Rattle\.std)\b")


def files(ends):
    for folder, dirs, names in os.walk("crates"):
        dirs[:] = sorted(d for d in dirs if d != "out")
        for name in sorted(names):
            if name.endswith(ends):
                yield os.path.join(folder, name)


def read(path):
    with open(path, encoding="utf-8") as f:
        return f.read()


def spelt(name):
    """The name in snake case, or itself where it is one, a type's or a letter's."""
    if name in OTHER:
        return OTHER[name]
    if name in KEPT:
        return name
    parts = name.split("-")
    if len(parts) == 1 and (name[0].isupper() or not re.search("[A-Z]", name)):
        return name
    words = []
    for part in parts:
        words.append(re.sub(r"(?<=[a-z0-9])([A-Z])", r"_\1", part).lower())
    return "_".join(words)


def own():
    """The names that files of specs/ and proofs/ declare, their fields, and the names that a `let` binds."""
    found = set(BOUND) | set(OTHER)
    for path in files(".antt"):
        for line in read(path).splitlines():
            if line.startswith(("use ", "mod ", "pub mod ", "--", "unfolding ")) or GOAL.search(line):
                continue
            for form in (DECLARED, FIELD):
                m = form.match(line)
                if m:
                    found.add(m.group(1))
            found |= set(LOCAL.findall(line))
    return {n: spelt(n) for n in sorted(found) if spelt(n) != n}


def foreign(text):
    """The names that a file takes from the toolchain's library."""
    taken = set()
    for line in text.splitlines():
        m = USE.match(line)
        if m and FOREIGN.match(m.group(1)) and m.group(2):
            taken |= {n.strip() for n in m.group(2).split(",")}
    return taken


def respelt(text, names, code):
    """The text with names respelt: whole words, in comments only those in camel case or between backticks."""
    kept = foreign(text)
    word = re.compile(r"(?<![\w'\u25cc-])(?<!\btie\.)" + NAME + r"(?![\w'])")

    def turn(m):
        n = m.group(0)
        return names[n] if n in names and n not in kept else n

    def loose(line):
        line = re.sub(r"`[^`]*`", lambda m: word.sub(turn, m.group(0)), line)
        return word.sub(lambda m: turn(m) if re.search("[a-z][A-Z]", m.group(0)) else m.group(0), line)

    lines = []
    for line in text.split("\n"):
        if not code:
            lines.append(loose(line))
            continue
        mark = re.search(r"(^|\s)(--|//) ", line)
        at = mark.start() if mark else len(line)
        lines.append(word.sub(turn, line[:at]) + loose(line[at:]))
    return "\n".join(lines)


def together(path, text, names):
    """Names of one file that would fall together. In src/ a function and the definition that it meets may have one name."""
    kept = foreign(text)
    body = "\n".join(re.split(r"(?:^|\s)(?:--|//) ", l)[0] for l in text.split("\n"))
    words = set(re.findall(r"(?<![\w'\u25cc-])(?<!Rattle\.)" + NAME + r"(?![\w'])", body))
    into = collections.defaultdict(set)
    for w in words:
        into[names[w] if w in names and w not in kept else w].add(w)
    return [(path, t, sorted(s)) for t, s in into.items() if len(s) > 1 and t not in FIELDS and not path.endswith((".rt", "Proof.antt"))]


def main():
    names = own()
    if "--list" in sys.argv:
        for old, new in names.items():
            print(old, new)
        return 0
    clashes = []
    for path in files((".antt", ".rt")):
        clashes += together(path, read(path), names)
    if clashes and "--force" not in sys.argv:
        for path, new, old in clashes:
            print(f"{path}: {', '.join(old)} would all be {new}")
        return 1
    pages = [os.path.join(f, n) for top in ("docs",) for f, _, ns in os.walk(top) for n in ns if n.endswith(".md")] + ["README.md"]
    for path in list(files((".antt", ".rt", ".edit"))) + pages:
        text = read(path)
        new = respelt(text, names, not path.endswith(".md"))
        if new != text:
            with open(path, "w", encoding="utf-8") as f:
                f.write(new)
    print(f"{len(names)} names respelt")
    return 0


sys.exit(main())
