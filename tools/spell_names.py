#!/usr/bin/env python3
"""Turns the repository's own definitions and lemmas to snake case, as tools/spell_names.py at the top, once, after the kit's port.

A name keeps its dashes, and a part that begins with a capital, as a type does. Functions of src/ have snake case already.
It goes by whole words: specs/, proofs/, the clauses of src/, the must-fail edits, README.md and docs/ (docs/changes aside).
"""
import os
import re
import sys

WORD = re.compile(r"[^\s(){}\[\],;.:`'\"|⌜⌝◌]+(?:'+(?![\w]))?")
DECLARED = re.compile(
    r"^\s*(?:(?:unfoldable|abbrev|pub)\s+)*(?:(?:data|record)\s+)?([^\s:(){}]+)\s*(?:\{[^{}]*\}\s*|\((?:[^()]|\([^()]*\))*\)\s*)*:\s")
# fields of records, which may have a definition's name
FIELDS = ("is-dir", "slots-stand")
# what has another name, since it would fall together with a definition
NAMED = {"well-formed": "is_well_formed"}
# lemmas that the kit's script gave the names that definitions have now: a lemma of its function's name ends in _lem
LEMMAS = {
    "crates/path/proofs/ValidNames.antt": ("all_valid",),
    "crates/history/proofs/Holds.antt": ("name_in", "slots-stand"),
    "crates/history/proofs/LastName.antt": ("at_last", "last_name"),
    "crates/history/proofs/BytesStep.antt": ("at_last",),
    "crates/history/proofs/RemoveStep.antt": ("at_last",),
    "crates/history/proofs/MakeStep.antt": ("at_last", "last_name"),
}


# functions of the library, which keep the dash that joins two names, as in length-drop
LIBRARY = set("length take drop get get_or set append map replicate reverse filter min max sum slice eqb leb ltb cond subst".split())


def snake(word, functions):
    """A dash stays between two names of functions and beside a type; another joins plain words and becomes _."""
    def part(p):
        return re.sub(r"(?<=[a-z0-9])([A-Z])", lambda m: "_" + m.group(1).lower(), p) if p[:1].islower() else p
    parts = word.split("-")
    if not word[:1].isalpha() or "" in parts:
        return word
    out = part(parts[0])
    for left, right in zip(parts, parts[1:]):
        joined = right[:1].isupper() or left[:1].isupper() or (left in functions and right in functions)
        out += ("-" if joined else "_") + part(right)
    return out


def files(top, endings):
    for folder, dirs, names in os.walk(top):
        dirs[:] = sorted(d for d in dirs if d not in ("out", ".git", "target"))
        for n in sorted(names):
            if n.endswith(endings):
                yield os.path.join(folder, n)


def turn(line, names, prose):
    """A line, its words turned; in prose "well-formed" is a plain word."""
    code, mark, rest = line.partition(prose) if prose else ("", "", line)
    plain = {**names, "well-formed": "well-formed"}
    return WORD.sub(lambda m: names.get(m.group(0), m.group(0)), code) + mark + WORD.sub(lambda m: plain.get(m.group(0), m.group(0)), rest)


def main():
    declared = set()
    functions = set()
    nouns = set(LIBRARY)
    for p in files("crates", (".antt",)):
        walked = os.path.basename(p) in ("Proof.antt", "Statement.antt", "Tie.antt")
        if walked:
            continue
        with open(p, encoding="utf-8") as f:
            for line in f:
                m = DECLARED.match(line)
                if m:
                    declared.add(m.group(1))
                    if "/specs/" in p:
                        nouns.add(m.group(1))
    for p in files("crates", (".rt",)):
        with open(p, encoding="utf-8") as f:
            functions |= set(re.findall(r"\bfn (\w+)", f.read()))
    turned = {w: s for w in declared for s in [snake(w, nouns)] if s != w}
    # a name that the library has in the same spelling, and one that would fall together with another, stay as they are
    for p in files("crates", (".antt",)):
        with open(p, encoding="utf-8") as f:
            for line in f:
                m = re.match(r"use (?!Rattle\.)[^{]*\{([^}]*)\}", line)
                for w in m.group(1).split(",") if m else ():
                    turned.pop(w.strip(), None)
    # a lemma that would have its definition's name ends in _lem; a field of a record may have it
    spelt = {}
    for w in declared:
        spelt.setdefault(turned.get(w, w), []).append(w)
    for new, olds in spelt.items():
        for w in olds:
            if len(olds) > 1 and "-" in w and w not in FIELDS:
                turned[w] = NAMED.get(w, new + "_lem")
    for old, new in sorted(turned.items()):
        if new in declared:
            print(f"falls together: {old} with {new}")
        if new in functions:
            print(f"a function's name too: {old} as {new}")
    # what the kit's script respelt already, for the edits and the pages that it leaves
    here = os.path.join(os.path.dirname(os.path.abspath(__file__)), "respelt.txt")
    earlier = dict(line.split() for line in open(here, encoding="utf-8")) if os.path.exists(here) else {}
    pages = [p for p in files("docs", (".md",)) if not p.startswith(os.path.join("docs", "changes"))] + ["README.md"]
    for p in list(files("crates", (".antt", ".rt", ".edit"))) + pages:
        with open(p, encoding="utf-8") as f:
            text = f.read()
        names = turned if p.endswith((".antt", ".rt")) else {**earlier, **turned}
        names = {**names, **{w: w.replace("-", "_") + "_lem" for w in LEMMAS.get(p, ())}}
        prose = "//" if p.endswith(".rt") else "--" if p.endswith(".antt") else "#" if p.endswith(".edit") else ""
        new = "\n".join(turn(line, names, prose) for line in text.split("\n"))
        if new != text:
            with open(p, "w", encoding="utf-8") as f:
                f.write(new)
    print(len(turned), "names turned", file=sys.stderr)


main()
