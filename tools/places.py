#!/usr/bin/env python3
"""Finds the places of the eight points of docs/DESIGN-PASS.md.

usage: python3 tools/places.py [POINT..]     in the repository: prints the places of each point, or of those named

It reads the text of `crates/*/src` (and for the last point `crates/*/proofs`), tests left out. What it prints is to be judged by a reader: docs/DESIGN-PASS.md says how each place was judged.
"""
import collections
import glob
import re
import sys

TESTS = re.compile(r"crates/\w+_tests/")


def files(pattern):
    return [name for name in sorted(glob.glob(pattern, recursive=True)) if not TESTS.match(name)]


def code_of(name):
    """The lines of a file without comments, contracts and ghost items."""
    kept = []
    for line in open(name):
        bare = line.strip()
        if bare.startswith("//") or re.match(r"(ensures\*?|requires|ghost)\b", bare):
            bare = ""
        kept.append(bare)
    return kept


def functions(name):
    """The functions of a file: line, name, parameters, contract lines, tokens of the body."""
    lines = open(name).read().split("\n")
    found = []
    for at, line in enumerate(lines):
        head = re.match(r"(\s*)(pub(\(crate\))? )?fn (\w+)", line)
        if not head:
            continue
        end = at
        while end < len(lines) and lines[end] != head[1] + "}" and not (end == at and line.endswith("}")):
            if lines[end].endswith("};") or lines[end].endswith(");") and end == at:
                break
            end += 1
        span = lines[at : end + 1]
        contract = [x.strip() for x in span if re.match(r"\s*(requires|ensures)\b", x)]
        body = [x.strip() for x in span[1:] if not re.match(r"\s*(requires|ensures|//)", x)]
        parameters = re.findall(r"(\w+): ([^,()]+(?:<[^>]*>)?)", " ".join(span).split("ensures")[0].split("requires")[0].split(" -> ")[0])
        found.append((at + 1, head[4], parameters, contract, re.findall(r"\w+|[^\w\s]", " ".join(body))))
    return found


def shape(tokens):
    """The body with each name and number in place of which of them it is."""
    names = {}
    words = {"let", "mut", "if", "else", "for", "in", "while", "return", "match", "Ok", "Err", "Some", "None", "self", "Self"}
    return " ".join(t if t in words or not re.match(r"\w", t) else names.setdefault(t, f"x{len(names)}") for t in tokens)


def lines_with(pattern):
    """The lines of code in which a pattern is found."""
    for name in files("crates/*/src/**/*.rt"):
        for at, line in enumerate(code_of(name), 1):
            if re.search(pattern, line):
                yield f"{name}:{at}: {line}"


def point1():
    return lines_with(r"\benum \w+|: bool,$|\bu32::MAX\b|\bconst BARRED\b")


def point2():
    groups = collections.defaultdict(list)
    for name in files("crates/*/src/**/*.rt"):
        for at, title, _, _, tokens in functions(name):
            if len(tokens) >= 8:
                groups[shape(tokens)].append(f"{name}:{at}: {title}")
    for group in groups.values():
        if len(group) > 1:
            yield "  ".join(group)


def point3():
    return lines_with(r"^while |^for .* in .*(\.\.|enumerate)")


def point4():
    casts = r"\bas (u8|u16|u32|u64|i16|i32|i64|usize)\b"
    named = r"fn (same|of|as|from|to)_\w+"
    handed_on = r"Err\(\w+\) => return Err|Err\(\w+\) => Err\(|Ok\(\w+\) => Ok\("
    return lines_with(f"{casts}|{named}|{handed_on}")


def point5():
    facts = collections.defaultdict(set)
    travellers = collections.defaultdict(set)
    for name in files("crates/*/src/**/*.rt"):
        crate = name.split("/")[1]
        for _, title, parameters, contract, _ in functions(name):
            for line in contract:
                for part in re.findall(r"\{ (.*) \}", line):
                    fact = part.split(" → ")[0] if " → " in part else part
                    fact = re.sub(r"\.(now|old|new)\b", "", fact)
                    if line.startswith("requires") or " → " in part:
                        facts[crate, fact].add(title)
            names = tuple(n for n, _ in parameters)
            for i in range(len(names)):
                for j in range(i + 2, len(names) + 1):
                    travellers[crate, names[i:j]].add(title)
    for (crate, fact), titles in facts.items():
        if len(titles) >= 3:
            yield f"{crate}: {fact}: {len(titles)} functions"
    for (crate, names), titles in travellers.items():
        if len(titles) >= 3:
            yield f"{crate}: parameters {', '.join(names)}: {len(titles)} functions"


def point6():
    return lines_with(r"^(pub(\(crate\))? )?\w+: \[.*; .*\],$")


def point7():
    for name in files("crates/*/src/**/*.rt"):
        code = code_of(name)
        for at, line in enumerate(code, 1):
            if re.match(r"match \w+ \{$", line):
                arms = [x for x in code[at : at + 14]]
                if sum(bool(re.match(r"\w+::\w+(\(.*\))? => [\w:]+\(.*\),$", x)) for x in arms) >= 3:
                    yield f"{name}:{at}: {line}"


def point8():
    for name in files("crates/*/proofs/**/*.antt"):
        if name.endswith(("Answers.antt", "Invariants.antt")):
            yield f"{name}: {sum(1 for _ in open(name))} lines"


def main():
    for point in sys.argv[1:] or "12345678":
        places = list(globals()["point" + point]())
        print(f"point {point}: {len(places)} places")
        for place in places:
            print("  " + place)


main()
