#!/usr/bin/env python3
"""Gives the definitions, lemmas and fields of specs/ and proofs/ names in snake case.

usage: tools/snake_names.py [FOLDER] [--list]     FOLDER: the repository (default: this one)

A name that this repository declares in an .antt file, as `edgesOf` or `has-none`, becomes `edges_of` or `has_none`, there
and in every clause that cites it. Types, modules and names that Rattle makes (goals, steps) keep theirs, and so does all
program text: of a .rt file only clauses and ghost lines are touched. Two names that would fall together stop the script.
"""
import os
import re
import sys

WORD = r"[A-Za-z_][\w']*(?:-[\w']+)*"
NAME = re.compile(r"(?<![\w'-])" + WORD)
TOP = re.compile(r"^(?:(?:abbrev|unfoldable|pub|mutual) )*(" + WORD + r") :(?: |$)(.*)$")
INNER = re.compile(r"^\s+(?:pub |\| ?)?(" + WORD + r") : ")
# where snake case alone would give one name to two things
APART = {"its-states": "states_of_ground", "no-rule": "rules_empty", "entry-of": "goal_entry"}
# variables that stand beside such names in the lemmas
VARIABLES = {"is-starts", "is-middle", "is-out", "ends-are", "left-are", "decK", "decD", "jN", "yes-it-is"}


def files(root, ending):
    for folder, dirs, names in os.walk(os.path.join(root, "crates")):
        dirs[:] = sorted(d for d in dirs if d not in ("out", ".git"))
        for f in sorted(names):
            if f.endswith(ending):
                yield os.path.join(folder, f)


def snake(name):
    if name in APART:
        return APART[name]
    text = name.replace("-", "_")
    text = re.sub(r"(?<=[a-z0-9])([A-Z])", r"_\1", text)
    return text.lower()


def is_plain(name):
    return "-" not in name and (name[0].isupper() or name == snake(name))


def declared(text):
    """The names that a file declares, but not its answers and invariants, whose names are Rattle's."""
    found = set()
    for line in text.split("\n"):
        top, inner = TOP.match(line), INNER.match(line)
        if top and not re.match(r"(goal|need)s?\.", top.group(2)):
            found.add(top.group(1))
        if inner:
            found.add(inner.group(1))
    return found


def turned(text, names):
    return NAME.sub(lambda m: names.get(m.group(0), m.group(0)), text)


def clauses(text, names):
    """A .rt file with its clauses and ghost lines turned: from `requires`, `ensures` or `ghost` to the end of that clause."""
    lines, out, inside, depth = text.split("\n"), [], False, 0
    for line in lines:
        code = line
        if not inside and re.match(r"\s*(pub )?(ghost|requires|ensures)\b", code) and not re.match(r"\s*ghost fn\b", code):
            inside, depth = True, 0
        if inside:
            depth += code.count("{") - code.count("}")
            code = turned(code, names)
            if depth <= 0:
                inside = False
        out.append(code)
    return "\n".join(out)


def main(argv):
    words = [a for a in argv if not a.startswith("--")]
    root = words[0] if words else os.path.join(os.path.dirname(os.path.abspath(__file__)), "..")
    own, library, all_names = set(), set(), set()
    for path in files(root, ".antt"):
        with open(path, encoding="utf-8") as f:
            text = f.read()
        own |= declared(text)
        for line in re.findall(r"use Rattle\.(?:std|core|borrow|mathlib)[\w.]*\.\{([^}]*)\}", text):
            library |= set(NAME.findall(line))
        all_names |= set(NAME.findall(text))
    names = {n: snake(n) for n in sorted(own | (VARIABLES & all_names)) if not is_plain(n)}
    together = 0
    for n in sorted(set(names) & library):
        print(f"also a name of the library: {n}")
        together += 1
    for old, new in names.items():
        others = [o for o in names if o != old and names[o] == new]
        if others or new in all_names:
            print(f"falls together: {old} and {others or new}")
            together += 1
    if "--list" in argv:
        print("\n".join(f"{o} {n}" for o, n in names.items()))
        return 0
    if together:
        return 1
    for path in list(files(root, ".antt")) + list(files(root, ".rt")):
        with open(path, encoding="utf-8") as f:
            text = f.read()
        new = turned(text, names) if path.endswith(".antt") else clauses(text, names)
        if new != text:
            with open(path, "w", encoding="utf-8") as f:
                f.write(new)
    print(f"{len(names)} names")
    return 0


if __name__ == "__main__":
    raise SystemExit(main(sys.argv[1:]))
