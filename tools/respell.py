#!/usr/bin/env python3
"""Respells the repository's own definitions, lemmas, fields and bound names as today's Rattle spells them.

usage: python3 tools/respell.py        at the top of the repository, once, right after the kit's port.py

A type or a fact `Goes-On` becomes `GoesOn`; every other name `calls-of` becomes `calls_of`. Names that Rattle makes
(goals, loop names, steps) and names of the library keep their spelling, and so do Rattle's source, strings and comments.
"""

import glob
import re
import sys

TOKEN = re.compile(r"[^\s(){}\[\];,.@λ→\"⌜⌝«»:|]+")
DECLARED = re.compile(r"^\s*(?:abbrev |pub |opaque |private )*([^\s:(){}]+)((?: [^\s:]+)*) :(?:\s|$)(.*)", re.M)
KEYWORDS = {"open", "data", "record", "ruleset"}
MADE = ("goal.", "Goals.", "Given.")
MADE_NAMES = re.compile(r"^(returns|invariant|decreases|loop|then|else|part)-|-requires(-\d+)?$|^(in_ok|in_err)-")


def files():
    return sorted(glob.glob("crates/*/specs/**/*.antt", recursive=True) + glob.glob("crates/*/proofs/**/*.antt", recursive=True))


def code_of(line):
    """The line without its comment."""
    i = line.find("--")
    return line if i < 0 else line[:i]


def others():
    """Names of the library, and names that Rattle makes."""
    found = set()
    for f in files():
        with open(f, encoding="utf-8") as it:
            text = it.read()
        for m in re.finditer(r"^(?:pub )?use (\S+)\.\{([^}]*)\}", text, re.M):
            names = [x.strip().split(" as ")[0] for x in m.group(2).split(",")]
            if not m.group(1).startswith("Rattle.") or m.group(1).startswith("Rattle.std.") or re.search(r"\.(Goals|Given)$", m.group(1)):
                found |= set(names)
        for m in DECLARED.finditer(text):
            if m.group(3).startswith(MADE):
                found.add(m.group(1))
    return found


def own(other):
    """Each name of the repository's own that has a dash, and the files where it stands."""
    found = {}
    for f in files():
        with open(f, encoding="utf-8") as it:
            for line in it:
                code = code_of(line)
                for m in TOKEN.finditer(code):
                    name = m.group(0)
                    if "-" not in name or "◌" in name or not name.strip("-") or name in other or MADE_NAMES.search(name):
                        continue
                    if not name[0].isalpha():
                        continue
                    after_dot = m.start() > 0 and code[m.start() - 1] == "."
                    found.setdefault(name, {}).setdefault("dot" if after_dot else "plain", set()).add(f)
    return {n: w for n, w in found.items() if "plain" in w}


def respelled(name):
    if name[0].isupper():
        return "".join(part[0].upper() + part[1:] for part in name.split("-"))
    return name.replace("-", "_")


def turn_code(code, names):
    return TOKEN.sub(lambda m: names.get(m.group(0), m.group(0)), code)


def turn_source(line, names):
    """A line of Rattle: all but strings and the comment. There a name with a dash stands in clauses alone; one that is
    brought in by another name has that name in no file of specs/ or proofs/."""
    parts = re.split(r'("(?:[^"\\]|\\.)*"|//.*)', line)
    for i in range(0, len(parts), 2):
        part = turn_code(parts[i], names)
        part = re.sub(r"\b[a-z]\w*(?:-[a-z]\w*)+", lambda m: m.group(0).replace("-", "_"), part)
        parts[i] = re.sub(r"«([\w']+)»", lambda m: m.group(0) if m.group(1) in KEYWORDS else m.group(1), part)
    return "".join(parts)


def main():
    other = others()
    names = {n: respelled(n) for n in own(other)}
    if "--list" in sys.argv:
        for n in sorted(names):
            print(n, names[n])
        return
    for f in files():
        with open(f, encoding="utf-8") as it:
            lines = it.read().split("\n")
        present = {m.group(0) for l in lines for m in TOKEN.finditer(code_of(l))}
        for n in sorted(present):
            if n in names and names[n] in present:
                print(f"look: {f}: {n} falls together with {names[n]}")
        turned = [turn_code(code_of(l), names) + l[len(code_of(l)) :] for l in lines]
        with open(f, "w", encoding="utf-8") as it:
            it.write("\n".join(turned))
    for f in sorted(glob.glob("crates/*/src/**/*.rt", recursive=True)):
        with open(f, encoding="utf-8") as it:
            lines = it.read().split("\n")
        with open(f, "w", encoding="utf-8") as it:
            it.write("\n".join(turn_source(l, names) for l in lines))


if __name__ == "__main__":
    main()
