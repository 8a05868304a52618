#!/usr/bin/env python3
"""Lists the places of src/ that docs/DESIGN-PASS.md counts, by point.

usage: tools/count_places.py [FOLDER] [--list]     FOLDER: a checkout (default: this one)

Points 1, 3, 4 and 6 are lines that fit a pattern, and what a reader then leaves out is said on the page. Point 2 counts
functions of one name with one body but for names, types and numbers, and arrays of one shape. Point 5 counts facts that
stand in the `requires` of three functions or more, and three parameters or more that eight functions or more share.
"""
import collections
import itertools
import os
import re
import sys

LINES = {
    "1 enums, flags, codes": r"^(pub )?enum |Option<\(\)>|Refused\(u8\)|let mut changed|\bboth: bool|= top \+ 1;|unreachable\(\)",
    "3 ranges and whiles": r"^\s*(for \w+ in 0\.\.|while (?!let))",
    "3 loops that search or count": r"^\s*for .* in (&?\w+(\.\w+\(\))?|self\.\w+\(\)) \{",
    "4 by hand": r"fn (same|of|numbered|outcome|count|made|from)\b|impl .*\bFrom<|impl fmt::Display|None => None,",
    "6 tables": r"^\s*count: usize|\[\w+; \d+\],$",
    "7 switches": r"both: bool|\.both\b|\bdyn\b|: fn\(",
}
FUNCTION = re.compile(r"fn (\w+)(?:<[^>(]*>)?\(([^{}]*?)\)((?: -> [^{}\n]*)?\n?(?:\s*(?:requires|ensures)\*?\s*\w*\s*\{[^\n]*\}\n)*)\s*(\{.*?\n(?:    )?\})", re.S)


def sources(root):
    for folder, dirs, names in os.walk(os.path.join(root, "crates")):
        dirs[:] = sorted(d for d in dirs if d not in ("out", ".git"))
        if "/src" in folder:
            for f in sorted(names):
                if f.endswith(".rt"):
                    yield os.path.join(folder, f)


def shape(body):
    body = re.sub(r"\b\d+(u\d+|usize)?\b", "0", body)
    return re.sub(r"\s+", " ", re.sub(r"\b(?!self\b|if\b|for\b|in\b|let\b|mut\b|return\b|true\b|false\b|match\b)[a-z_]+\b", "x", re.sub(r"\b[A-Z]\w*\b", "T", body)))


def main():
    args = [a for a in sys.argv[1:] if not a.startswith("--")]
    root = args[0] if args else os.path.join(os.path.dirname(os.path.abspath(__file__)), "..")
    show = "--list" in sys.argv
    lines = collections.defaultdict(list)
    bodies, facts, together = collections.defaultdict(list), collections.Counter(), collections.Counter()
    for path in sources(root):
        text = open(path).read()
        name = os.path.relpath(path, root)
        for n, line in enumerate(text.split("\n"), 1):
            for point, pattern in LINES.items():
                if not line.lstrip().startswith("//") and re.search(pattern, line):
                    lines[point].append(f"{name}:{n}: {line.strip()}")
        for fn, parameters, clauses, body in FUNCTION.findall(text):
            if body.count("\n") > 2:
                bodies[shape(body)].append(f"{name}: {fn}")
            for asked in re.findall(r"requires \w*\s*\{(.*)\}", clauses):
                facts.update({part.strip("() ") for part in asked.split(" × ")})
            names = sorted(p.split(":")[0].strip() for p in parameters.split(",") if ":" in p)
            together.update(itertools.combinations(names, 3))
    for point in LINES:
        print(f"{point}: {len(lines[point])}")
        if show:
            print("\n".join("    " + place for place in lines[point]))
    twins = [group for group in bodies.values() if len(group) > 1]
    print(f"2 groups of functions with one body: {len(twins)}")
    if show:
        print("\n".join("    " + ", ".join(group) for group in twins))
    often = [(n, fact) for fact, n in facts.most_common() if n >= 3]
    print(f"5 facts in three requires or more: {len(often)}")
    if show:
        print("\n".join(f"    {n} {fact}" for n, fact in often))
    many = [(n, names) for names, n in together.most_common() if n >= 8]
    print(f"5 three parameters that eight functions share: {len(many)}")
    if show:
        print("\n".join(f"    {n} {', '.join(names)}" for n, names in many))


main()
