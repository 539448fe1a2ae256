#!/usr/bin/env python3
"""Gives the definitions and lemmas of this repository today's spelling: functions, lemmas, fields and
constructors in snake case, types in upper camel case.

usage: python3 tools/respell.py [--list]    at the top of the repository, once; with --list it only prints the pairs

It renames what specs/ and proofs/ declare, wherever specs/, proofs/ and the clauses of src/ speak of it. Names
that Rattle makes of a function (its goals and their fields), names of the library and names of src/ stay.
"""

import glob
import re
import sys

# Names that would fall together with another one.
CHOSEN = {"fix-of": "fix_if_read", "in-front": "passed_in_held"}

WORD = r"[A-Za-z][\w']*(?:-[\w']+)*"
TOKEN = re.compile(r"(?<![\w'◌-])" + WORD + r"(?![\w'-])")
MARKS = r"(?:(?:abbrev|unfoldable|pattern|pub)\s+)*"
SIGNATURE = re.compile(r"^\s*" + MARKS + r"(" + WORD + r"(?:\s+" + WORD + r")*)\s*:\s*(.*)$")
HEAD = re.compile(r"^\s*" + MARKS + r"(?:record|data)\s+(" + WORD + r")")
LET = re.compile(r"\blet\s+(" + WORD + r")\s*[:=]")
GROUP = re.compile(r"[({](" + WORD + r"(?:\s+" + WORD + r")*)\s*:\s")


def files():
    both = glob.glob("crates/*/specs/**/*.antt", recursive=True) + glob.glob("crates/*/proofs/**/*.antt", recursive=True)
    return sorted(both)


def sources():
    return sorted(glob.glob("crates/*/src/**/*.rt", recursive=True))


def old_style(name):
    return "-" in name or re.match(r"[a-z][a-z0-9_']*[A-Z]", name) is not None


def snake(name):
    name = name.replace("-", "_")
    name = re.sub(r"(?<=[a-z0-9])([A-Z])", lambda m: "_" + m.group(1).lower(), name)
    return name[0].lower() + name[1:] if name[0].islower() else name


def camel(name):
    return "".join(w[0].upper() + w[1:] for w in re.split(r"[-_]", name))


def imported(text):
    """The names that a file takes from the library."""
    names = set()
    for m in re.finditer(r"use (Rattle\.std|Rattle\.core|Prim|borrow|mir|denote|native|mathlib|lib)\b[^{;\n]*\{([^}]*)\}", text):
        names |= set(TOKEN.findall(m.group(2)))
    return names


def main():
    declared, library, taken, made = set(), set(), set(), set()
    for p in files():
        with open(p, encoding="utf-8") as f:
            text = f.read()
        library |= imported(text)
        for line in text.split("\n"):
            if line.lstrip().startswith("--") or line.lstrip().startswith("use "):
                continue
            m = SIGNATURE.match(line)
            if m and re.match(r"(goal|need|given)\.", m.group(2)):
                made.add(m.group(1))
            elif m:
                declared |= set(m.group(1).split())
            m = HEAD.match(line)
            if m:
                declared.add(m.group(1))
            declared |= set(LET.findall(line))
            for g in GROUP.findall(line):
                declared |= set(g.split())
        taken |= set(TOKEN.findall(text))
    for p in sources():
        with open(p, encoding="utf-8") as f:
            library |= imported(f.read())
    pairs = {}
    for n in sorted(declared - made):
        if not old_style(n):
            continue
        if n in library:
            print("of the library, stays:", n)
            continue
        new = CHOSEN.get(n) or (camel(n) if n[0].isupper() else snake(n))
        if new in taken or new in pairs.values():
            print("falls together:", n, new)
        pairs[n] = new
    if "--list" in sys.argv:
        for n, new in pairs.items():
            print(n, new)
        return
    for p in files():
        turn(p, pairs, lambda line: not line.lstrip().startswith("--"))
    for p in sources():
        turn_source(p, pairs)


def replaced(text, pairs):
    return TOKEN.sub(lambda m: pairs.get(m.group(0), m.group(0)), text)


def turn(path, pairs, wanted):
    with open(path, encoding="utf-8") as f:
        lines = f.read().split("\n")
    lines = [replaced(line, pairs) if wanted(line) else line for line in lines]
    with open(path, "w", encoding="utf-8") as f:
        f.write("\n".join(lines))


def turn_source(path, pairs):
    """Clauses, ghost members and ghost imports stand in lines that begin with these words."""
    ghost = re.compile(r"^\s*(ghost|requires|ensures)\b")
    turn(path, pairs, lambda line: ghost.match(line) is not None)


main()
