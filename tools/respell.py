#!/usr/bin/env python3
"""Spells this repository's own definitions and lemmas in snake case, and its own facts in upper camel case.

usage: respell.py [--list]      at the top of the repository, once, right after the kit's port.py

A name is the repository's own if a file of specs/ or proofs/ declares it: at the top of the file, as a field of a record, as a constructor, as a
variable in specs/ or after 'as' in an import.
Names that the toolchain makes (answers to goals) and names that a file takes from the library are left alone; so are comments and strings.
"""

import os
import re
import sys

WORD = r"[^\s(){}.;,@\"«»\[\]\\]+"
TOKEN = re.compile(r"(?P<skip>--[^\n]*|//[^\n]*|\"(?:[^\"\\]|\\.)*\")|(?P<word>" + WORD + ")")
TOP = re.compile(r"^(?:(?:abbrev|pub|unfoldable|data|record|package) )*(" + WORD + r")(?=\s*(?::|\(|\{))")
MEMBER = re.compile(r"^ +(?:pub )?(" + WORD + r") : ")
OF_A_GOAL = re.compile(r" : (?:goal|need)\.")


def files(ending):
    for folder, dirs, names in os.walk("crates"):
        dirs[:] = sorted(d for d in dirs if d != "out")
        for name in sorted(names):
            if name.endswith(ending):
                yield os.path.join(folder, name)


def read(path):
    with open(path, encoding="utf-8") as f:
        return f.read()


def spelled(name):
    parts = name.split("-")
    if name[0].isupper():
        return "".join(p[:1].upper() + p[1:] for p in parts)
    return "_".join(parts)


def declared():
    """The own names that have a dash, and all own names."""
    found = set()
    for path in files(".antt"):
        for line in read(path).split("\n"):
            if line.startswith(("use ", "mod ", "pub mod ", "--")) or OF_A_GOAL.search(line):
                continue
            m = TOP.match(line) or MEMBER.match(line)
            if m:
                found.add(m[1])
        text = read(path)
        found |= set(re.findall(r" as (" + WORD + r")(?=[,}])", text))
        if "/specs/" in path:
            found |= {m[0] for m in TOKEN.finditer(text) if m["word"]} - of_std(text)
    return {n for n in found if re.fullmatch(r"[A-Za-z][\w']*(-[\w']+)+", n)}, found


def of_std(text):
    taken = set()
    for m in re.finditer(r"use Rattle\.std\.[^{;\n]*\{([^}]*)\}", text):
        for item in m[1].split(","):
            taken.add(item.split(" as ")[-1].strip())
    return taken


def main():
    names, every = declared()
    table = {n: spelled(n) for n in sorted(names)}
    for old, new in table.items():
        if new in every:
            print(f"falls together: {old} and {new}")
    if "--list" in sys.argv:
        for old, new in table.items():
            print(old, new)
        return
    for path in list(files(".antt")) + list(files(".rt")) + list(files(".edit")):
        text = read(path)
        std = of_std(text)
        done = TOKEN.sub(lambda m: table.get(m[0], m[0]) if m["word"] and m[0] not in std else m[0], text)
        for new in sorted(std & {table[m[0]] for m in TOKEN.finditer(text) if m["word"] and m[0] in table}):
            print(f"falls together with a name of the library: {path}: {new}")
        if done != text:
            with open(path, "w", encoding="utf-8") as f:
                f.write(done)
            print(path)


main()
