#!/usr/bin/env python3
"""Brings this repository's own words to one spelling: definitions, lemmas, fields and cases in snake case, types and facts in camel case.

usage: python3 tools/respell.py            at the top, once, after the kit's own scripts; it prints what it renamed
       python3 tools/respell.py --list     prints the names and changes nothing

Renamed are names declared in crates/*/specs and crates/*/proofs alone. Functions of src/ keep theirs, and so do the names that the check makes
(goals, invariants, measures). Comments are left but for words between backticks. Two old names that would fall together stop it.
"""
import glob
import re
import sys

# A lemma that would have the name of a function, or of another lemma, gets a name of its own here.
OWN = {
    **{n: spelled_lem for n, spelled_lem in (
        (n, n.replace("-", "_") + "_lem")
        for n in "and-not ceil-half is-clique job-word length-as matching-bound most-joins old-says old-walk part-p part-x row-jobs search-ends to-come "
        "bit-and bit-or in-words same-list in-class".split()
    )},
    # fields of records that speak of a function of that name
    "outside-jobs": "outside_the_jobs",
    "pin-held": "held_pin",
    "first-in": "first_inside",
    # a test, beside the lemma same_answer
    "sameAnswer": "is_same_answer",
}

# A definition may have the name of the Rust function whose result it is, or of a step of a proof.
RUST = {
    ("columnsOf", "columns_of"), ("fileLength", "file_length"), ("firstPlace", "first_place"), ("setAt", "set_at"),
    ("past-job", "past_job"), ("with-job", "with_job"), ("set-byte", "set_byte"), ("table-word", "table_word"),
}

# The kit's scripts had brought these to the spelling that a definition gets here: FILE, NAME, NEW NAME.
FIRST = (
    ("crates/filter/proofs/Passes.antt", "to_take", "to_take_lem"),
    ("crates/demands/proofs/NoPins.antt", "no_pins", "no_pins_lem"),
)

DECLARED = re.compile(r"^( *)((?:pub |abbrev |unfoldable |data |record |ruleset )*)([^\s(){}\[\].,;:\"|]+) :(?= |$)")
MADE = re.compile(r": *(?:\{[^}]*\} *→ *)?(?:\(\w+ : [^)]*\) *→ *)?(?:tie|goal)\.")
TOKEN = re.compile(r"[^\s(){}\[\].,;:\"`|«»]+")
HUMP = re.compile(r"(?<=[a-z0-9'])([A-Z])(?=[a-z0-9]|$|['_-])|(?<=[a-z0-9'])([A-Z])")


def spelled(name):
    parts = []
    for p in name.split("-"):
        if p[:1].islower():
            p = re.sub(r"(?<=[a-z0-9])([A-Z])", lambda m: "_" + m.group(1).lower(), p)
        parts.append(p)
    return "_".join(parts)


def files(*kinds):
    return sorted(f for k in kinds for f in glob.glob(k, recursive=True) if "/out/" not in f)


def code_lines(text):
    return text.split("\n")


def declared():
    """Each own name that wants another spelling, with the places where it is declared."""
    names = {}
    for f in files("crates/*/specs/**/*.antt", "crates/*/proofs/**/*.antt"):
        by_hand = "/proofs/" in f and f.rsplit("/", 1)[1] in ("Proof.antt", "Answers.antt", "Invariants.antt")
        for i, line in enumerate(open(f, encoding="utf-8")):
            bare = line.split("-- ")[0]
            m = DECLARED.match(bare)
            if not m:
                continue
            name = m.group(3)
            if by_hand:
                continue
            if name[0] in "◌(⌜" or not re.match(r"[A-Za-z]", name):
                continue
            new = OWN.get(name, spelled(name))
            if new != name:
                names.setdefault(name, new)
    # variables in camel case
    for t in every_token():
        if t not in names and re.match(r"[a-z][A-Za-z0-9']*$", t) and re.search(r"[a-z0-9][A-Z]", t):
            names[t] = spelled(t)
    return names


def every_token():
    seen = {}
    for f in files("crates/*/specs/**/*.antt", "crates/*/proofs/**/*.antt", "crates/*/src/**/*.rt"):
        rt = f.endswith(".rt")
        for line in open(f, encoding="utf-8"):
            line = line.split("//" if rt else "-- ")[0]
            for t in TOKEN.findall(line):
                seen.setdefault(t, set()).add(f)
    return seen


def turn(text, names, comment):
    out = []
    for line in text.split("\n"):
        at = line.find(comment)
        if comment == "-- " and line.strip() == "--":
            at = line.find("--")
        code, rest = (line, "") if at < 0 else (line[:at], line[at:])
        strings = re.split(r'(b?"(?:[^"\\]|\\.)*")', code) if comment == "//" else [code]
        code = "".join(s if k % 2 else TOKEN.sub(lambda m: names.get(m.group(0), m.group(0)), s) for k, s in enumerate(strings))
        rest = re.sub(r"`[^`]*`", lambda m: TOKEN.sub(lambda t: names.get(t.group(0), t.group(0)), m.group(0)), rest)
        out.append(code + rest)
    return "\n".join(out)


def main():
    if "--list" not in sys.argv:
        for f, old, new in FIRST:
            text = open(f, encoding="utf-8").read()
            open(f, "w", encoding="utf-8").write(turn(text, {old: new}, "-- "))
    names = declared()
    seen = every_token()
    back = {}
    for a, b in names.items():
        back.setdefault(b, []).append(a)
    bad = [(b, a) for b, a in sorted(back.items()) if len(a) > 1]
    # what the new spelling meets in a file that has the old one
    met = [(a, b, sorted(seen[a] & seen[b])) for a, b in sorted(names.items()) if b in seen and seen[a] & seen[b]]
    if "--list" in sys.argv:
        for a, b in sorted(names.items()):
            print(a, b)
        return
    met = [m for m in met if (m[0], m[1]) not in RUST]
    for b, a in bad:
        print("fall together:", b, a)
    for a, b, at in met:
        print("there already:", a, b, at[:4])
    if bad or met:
        raise SystemExit(1)
    for f in files("crates/*/specs/**/*.antt", "crates/*/proofs/**/*.antt", "crates/*/src/**/*.rt"):
        old = open(f, encoding="utf-8").read()
        new = turn(old, names, "//" if f.endswith(".rt") else "-- ")
        if new != old:
            open(f, "w", encoding="utf-8").write(new)
    for f in files("crates/*/must-fail/*.edit"):
        old = open(f, encoding="utf-8").read()
        antt = re.search(r"^file: .*\.antt", old, re.M)
        new = "\n".join(l if l.startswith("#") else turn(l, names, "-- " if antt else "//") for l in old.split("\n"))
        if new != old:
            open(f, "w", encoding="utf-8").write(new)
    for f in files("docs/*.md", "README.md", "CONTRIBUTING.md"):
        old = open(f, encoding="utf-8").read()
        new = re.sub(r"`[^`\n]*`", lambda m: TOKEN.sub(lambda t: names.get(t.group(0), t.group(0)), m.group(0)), old)
        if new != old:
            open(f, "w", encoding="utf-8").write(new)
    print(len(names), "names")


if __name__ == "__main__":
    main()
