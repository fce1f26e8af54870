#!/usr/bin/env python3
"""Spells this repository's own definitions and lemmas as today's Rattle does: words in snake case, a dash between two names.

usage: tools/respell.py [--list]            at the top of the repository, once, after /opt/rattle/port/port.py

It goes by whole words in crates/**/*.antt, in the clauses and `ghost use` items of crates/**/*.rt, in must-fail/*.edit, and in the code spans of pages. A name that Rust sees
(a function, a field, a parameter, a constant) stays. What would fall together with another name gets its name from the table TOGETHER.
--list prints the table and what falls together, and writes nothing.
"""

import os
import re
import sys

# What would otherwise meet a name that is there already, or a parameter beside whose clause it stands.
TOGETHER = {
    "asked_by": "asked_by_lem",
    "by_name": "by_name_lem",
    "no-colon": "without_colon",
    "noEnd": "not_end",
    "star-cases": "star_cases_lem",
    "with-links": "with_links_lem",
}

WORD = re.compile(r"[^\s(){}\[\]:.,;«»@\"`|/\\]+")
DECLARED = re.compile(r"^(\s*)(?:unfoldable |abbrev )?(?:pub )?(?:unfoldable |abbrev )?(?!use\b|mod\b|data\b|record\b|where\b|module\b|let\b|open\b|λ)([^\s(){}\[\]:.,;«»\"]+)(?: [({].*)? : ")


def files(*endings):
    for folder, dirs, names in os.walk("crates"):
        dirs[:] = sorted(d for d in dirs if d != "out")
        for n in sorted(names):
            if n.endswith(endings):
                yield os.path.join(folder, n)


def read(path):
    with open(path, encoding="utf-8") as f:
        return f.read()


def own_proof(path):
    """A function's proof: its goals have the names that Rattle makes."""
    return os.path.basename(path) in ("Proof.antt", "Answers.antt", "Invariants.antt")


def declared():
    definitions, lemmas = set(), set()
    for p in files(".antt"):
        for line in read(p).splitlines():
            m = DECLARED.match(line)
            if m and not own_proof(p):
                (lemmas if "-" in m.group(2) else definitions).add(m.group(2))
    return definitions, lemmas


def snake(name):
    head = re.match(r"[A-Z]\w*", name)
    if head:
        return name
    name = re.sub(r"([a-z0-9])([A-Z])(?=[a-z0-9]|$)", lambda m: m.group(1) + "_" + m.group(2).lower(), name)
    return name


def joined(name, definitions):
    """A dash stays behind a name and before what it is about; a plain word is joined by an underscore."""
    parts = name.split("-")
    if any(not p for p in parts):
        return name
    out = parts[0]
    since = parts[0]
    for p in parts[1:]:
        if since in definitions or since[0].isupper():
            out += "-" + p
            since = p
        else:
            out += "_" + p
            since += "_" + p
    return out


def table():
    definitions, lemmas = declared()
    std = set()
    for p in files(".antt", ".rt"):
        for m in re.finditer(r"(?:ghost )?use (?!Rattle\.(?:text|message|engine|claims|console|dialogue|program|host|terminal|recorded|message_c|vectors\w*)\.)[\w.]+\.\{([^}]*)\}", read(p)):
            std |= {w.strip().split(" as ")[0] for w in m.group(1).split(",")}
    words = definitions | std
    out = {}
    for name in sorted(definitions | lemmas):
        if name in std:
            continue
        new = TOGETHER.get(name) or joined(snake(name), {snake(w) for w in words})
        if new != name:
            out[name] = new
    return out, definitions, lemmas, std


def main(argv):
    rows, definitions, lemmas, std = table()
    taken = (definitions | lemmas | std) - set(rows)
    meets = sorted((o, n) for o, n in rows.items() if n in taken or sum(1 for x in rows.values() if x == n) > 1)
    rust = set()
    for p in files(".rt"):
        rust |= set(re.findall(r"\b[a-z]\w*(?=\s*:(?!:))", re.sub(r"//.*", "", read(p))))
    beside = sorted((o, n) for o, n in rows.items() if n in rust)
    if "--list" in argv:
        for o, n in rows.items():
            print(o, n)
        print("fall together:", meets)
        print("spelled as a parameter or field:", beside)
        return 0
    if meets:
        print("names fall together:", meets, file=sys.stderr)
        return 1
    turn = lambda m: rows.get(m.group(), m.group())
    for p in files(".antt"):
        text = read(p)
        new = WORD.sub(turn, text)
        if new != text:
            with open(p, "w", encoding="utf-8") as f:
                f.write(new)
    plain = lambda m: m.group() if "-" in m.group() else turn(m)
    ghost = lambda l: re.search(r"\b(ghost|requires|ensures)\b|≡|→|◌", l)
    for p in files(".rt", ".edit"):
        text = read(p)
        if p.endswith(".edit"):
            new = WORD.sub(turn, text)
        else:
            new = "\n".join(WORD.sub(turn, l) if ghost(l) else WORD.sub(plain, l) if l.lstrip().startswith("//") else l for l in text.split("\n"))
        if new != text:
            with open(p, "w", encoding="utf-8") as f:
                f.write(new)
    for p in ["README.md"] + sorted(os.path.join(d, n) for top in ("docs", "hosts", "differential") for d, _, ns in os.walk(top) for n in ns if n.endswith(".md")):
        text = read(p)
        new = re.sub(r"`[^`\n]+`", lambda m: WORD.sub(turn, m.group()), text)
        if new != text:
            with open(p, "w", encoding="utf-8") as f:
                f.write(new)
    return 0


if __name__ == "__main__":
    raise SystemExit(main(sys.argv[1:]))
