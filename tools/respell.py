#!/usr/bin/env python3
"""Respells this repository's own definitions and lemmas: words in snake case, types in camel case.

usage: python3 tools/respell.py [--list]    at the top of the repository, after port.py

What it turns are names that a file of specs/ or proofs/ defines, and ghost members, wherever they stand: in specs, proofs, clauses,
must-fail edits and pages. Functions of src/, and names that Rattle makes for goals, stay. It stops where two names
would fall together.
"""
import os, re, sys

TOKEN = re.compile(r"[^\W\d][\w'\-′]*")
DEF = re.compile(r"^\s*(?:(?:abbrev|pub|private|unfoldable)\s+)*(record\s+|data\s+)?([^\s:(){}.]+)((?:\s*[({][^:]*:[^)}]*[)}])*)\s*:\s(.*)$")
FIELD = re.compile(r"^\s+pub ([^\s:(){}.]+)\s*(?:[({].*)?:")
KEEP = re.compile(r"^(invariant|decreases|returns|loop|overflow|bounds|slice|offset|nonzero|prove|ghost)-")

# Definitions that would have the name of a function, a variable or a lemma of this repository get another.
OTHER = {
    "allAllowed": "each_allowed",
    "allInRange": "each_in_range",
    "allPass": "each_passes",
    "allTaken": "each_taken",
    "asDepth": "depth_of",
    "backwardElement": "backward_element_of",
    "bitCost": "cost_of_bit",
    "codedBit": "bit_of_mask",
    "firstBelow": "first_under",
    "forwardElement": "forward_element_of",
    "haveRoom": "lists_have_room",
    "isBarredAt": "barred_at",
    "isOpen": "open_prior",
    "pinnedPlace": "place_pinned",
    "pinnedPrior": "prior_pinned",
    "pinnedPriors": "priors_pinned",
    "priorNumber": "number_of_prior",
    "readText": "text_read",
    "sizeAllowed": "allowed_size",
    "timesSymbol": "symbol_times",
    "unusedIsZero": "unused_zero",
    "windowOf": "window_number",
}


def files(top, ends):
    for folder, dirs, names in os.walk(top):
        dirs[:] = sorted(d for d in dirs if d not in ("out", ".git", "target"))
        for f in sorted(names):
            if f.endswith(ends):
                yield os.path.join(folder, f)


def defined():
    """the names that specs/ and proofs/ define, without those that answer a goal of Rattle's"""
    mine, goals, fields = set(), set(), set()
    for path in files("crates", ".antt"):
        for line in open(path, encoding="utf-8"):
            m = FIELD.match(line)
            if m:
                mine.add(m.group(1))
                fields.add(m.group(1))
            m = DEF.match(line)
            if m:
                (goals if re.match(r"goal\.", m.group(4)) or KEEP.match(m.group(2)) else mine).add(m.group(2))
    for path in files("crates", ".rt"):
        mine.update(re.findall(r"(?m)^\s+ghost ([^\W\d]\w*):", open(path, encoding="utf-8").read()))
    return mine, goals, fields


def made(text, m, fields):
    """behind a dot a name with a dash is Rattle's, for a step of the code, unless it is a field of a record"""
    return text[m.start() - 1:m.start()] == "." and "-" in m.group(0) and m.group(0) not in fields


def spelled(name):
    if name[0].isupper():
        return "".join(part[:1].upper() + part[1:] for part in re.split("[-_]", name)) if "-" in name else name
    name = name.replace("′", "'").replace("-", "_")
    return re.sub(r"([a-z0-9])([A-Z])", lambda m: m.group(1) + "_" + m.group(2).lower(), name) if not "_" in name or re.search("[a-z][A-Z]", name) else name


def main():
    mine, goals, fields = defined()
    turn = {n: OTHER.get(n, spelled(n)) for n in mine if n not in goals and spelled(n) != n}
    texts = list(files("crates", (".rt", ".antt", ".edit"))) + list(files("docs", ".md")) + ["README.md"]
    seen = {}
    for path in texts:
        for t in TOKEN.findall(open(path, encoding="utf-8").read()):
            seen.setdefault(t, path)
    plain = {to for n, to in turn.items() if "-" not in n}
    for n, to in turn.items():
        if "-" in n and (to in seen or to in plain):
            turn[n] = to + "_lem"
    bad = [(n, to, seen[to]) for n, to in sorted(turn.items()) if to in seen]
    by = {}
    for n, to in turn.items():
        by.setdefault(to, []).append(n)
    bad += [(v, to, "twice") for to, v in by.items() if len(v) > 1]
    if "--list" in sys.argv:
        for n, to in sorted(turn.items()):
            print(n, to)
    for b in bad:
        print("falls together:", *b)
    if "--list" in sys.argv:
        return
    for path in texts:
        text = open(path, encoding="utf-8").read()
        new = TOKEN.sub(lambda m: m.group(0) if made(text, m, fields) else turn.get(m.group(0), m.group(0)), text)
        if new != text:
            open(path, "w", encoding="utf-8").write(new)


main()
