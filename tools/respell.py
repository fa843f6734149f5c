#!/usr/bin/env python3
"""Respells the repository's own definitions and lemmas: words in snake case, types in camel case, no dash in a name.

usage: python3 tools/respell.py [--dry]     at the top of the repository, once, after the toolchain's own script

A name is ours where a file of specs/ or proofs/ declares it by a signature, binds it, or imports something as it. What
the checker asks for by name keeps its name, and so does what a file imports from the library. A line 'falls together'
says that a new name stands somewhere already: mostly a function or a label in src/ beside the definition that it is of.
"""

import os
import re
import sys

NAME = r"[A-Za-z_][A-Za-z0-9_']*(?:-[A-Za-z0-9_']+)+"
BINDERS = r"(?:\s+(?:\((?:[^()]|\([^()]*\))*\)|\{[^{}]*\}))*"
SIGNATURE = re.compile(rf"^[ \t]*(?:(?:pub|abbrev|unfoldable|record|data)\s+)*({NAME}){BINDERS}\s*:(?!\s*(?:need|given|goal)\.)", re.M)
LOCAL = re.compile(rf"(?:\blet|\bas)\s+«?({NAME})(?=»?\s*[:=,}}])")
BINDER = re.compile(r"[({]([^(){}:]+) : ")
# A type that the toolchain's script left with an underscore.
TYPE = re.compile(r"\b(?:abbrev|record|data|unfoldable)\s+pub\s+([A-Z][a-z][A-Za-z]*(?:_[a-z]+)+)\s*(?::|\()")
TOKEN = re.compile(r"[A-Za-z_0-9'ℕ][A-Za-z0-9_'ℕ-]*")
# Where the plain respelling would be a name of the library, ours says what it is a law of.
APART = {"bit-and": "bit_of_and", "bit-or": "bit_of_or", "bit-xor": "bit_of_xor"}


def files(root):
    for folder, dirs, names in os.walk(os.path.join(root, "crates")):
        dirs[:] = sorted(d for d in dirs if d not in ("out", "must-fail", "data"))
        for name in sorted(names):
            if name.endswith((".rt", ".antt")):
                yield os.path.join(folder, name)


def read(path):
    with open(path, encoding="utf-8") as f:
        return f.read()


def declared(root):
    ours = set()
    for path in files(root):
        text = re.sub(r"(?:--|//).*", "", read(path))
        ours.update(LOCAL.findall(text))
        if path.endswith(".antt"):
            ours.update(SIGNATURE.findall(text))
            ours.update(TYPE.findall(text))
            for names in BINDER.findall(text):
                ours.update(n for n in names.split() if re.fullmatch(NAME, n))
    return ours


def imported(root, text):
    theirs = set()
    for m in re.finditer(r"use Rattle\.([A-Za-z_0-9]+)\.[^{\n]*\{([^}]*)\}", text):
        if not os.path.isdir(os.path.join(root, "crates", m.group(1))):
            theirs.update(re.split(r"[\s,]+| as ", m.group(2)))
    return theirs


def respelled(name):
    if name in APART:
        return APART[name]
    if name[0].isupper():
        return "".join(p[:1].upper() + p[1:] for p in re.split("[-_]", name))
    return name.replace("-", "_")


def told_apart(root, turn):
    met = {}
    for path in files(root):
        for t in TOKEN.findall(read(path)):
            met.setdefault(t, set()).add(os.path.relpath(path, root))
    for old, new in turn.items():
        others = [o for o, n in turn.items() if n == new and o != old]
        if new in met or others:
            print(f"falls together: {old} -> {new}, which stands in {', '.join(others + sorted(met.get(new, ()))[:6])}")


def main():
    root = os.getcwd()
    turn = {n: respelled(n) for n in sorted(declared(root))}
    told_apart(root, turn)
    if "--dry" in sys.argv:
        for old, new in turn.items():
            print(f"{old} -> {new}")
        return
    changed = 0
    for path in files(root):
        text = read(path)
        theirs = imported(root, text)
        new = re.sub(rf"«({NAME})»", lambda m: turn.get(m.group(1), m.group(0)), text)
        new = TOKEN.sub(lambda m: m.group(0) if m.group(0) in theirs else turn.get(m.group(0), m.group(0)), new)
        if new != text:
            with open(path, "w", encoding="utf-8") as f:
                f.write(new)
            changed += 1
    print(f"{len(turn)} names, {changed} files")


if __name__ == "__main__":
    main()
