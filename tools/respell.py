#!/usr/bin/env python3
"""Respells the repository's own definitions and lemmas: words in snake case, as `has_x` for `hasX`.

usage: tools/respell.py [--list]      at the top, once, after the kit's port.py; with --list it prints the names and writes nothing

A name is taken if a file of specs/ or proofs/ declares it, or binds it, and it has a hump (`hasX`, `badLengths`). Where the plain respelling
would fall together with another name of a file that has the old one, OTHER gives a third. The kit's getD is get_or now, and lemmas on it follow.
Files: crates/*/{specs,proofs,src,must-fail} and the pages. Functions of src/, strings and exported names have no humps and stay.
"""
import glob
import os
import re
import sys

TOKEN = re.compile(r"[A-Za-z_][\w'\-]*")
HUMP = re.compile(r"^[a-z](?:.*[a-z0-9])?[A-Z]")
OTHER = {
    "rowsIn": "rows_held",
    "hasBlock": "has_a_block",
    "zeroIn": "zeros_in",
    "takenBack": "mem_taken_back",
    "noText": "no_text_number",
    "tooShort": "falls_short",
    "oneQubit": "one_qubit_gate",
}
KIT = {"getD": "get_or"}


def part(p):
    if p in KIT:
        return KIT[p]
    if p in OTHER:
        return OTHER[p]
    if not HUMP.search(p):
        return p
    p = re.sub(r"([a-z0-9])([A-Z])", r"\1_\2", p)
    p = re.sub(r"([A-Z])([A-Z][a-z])", r"\1_\2", p)
    return p.lower()


def respelled(name):
    return OTHER.get(name) or "-".join(part(p) for p in name.split("-"))


def antt():
    return sorted(glob.glob("crates/*/specs/**/*.antt", recursive=True) + glob.glob("crates/*/proofs/**/*.antt", recursive=True))


def others():
    return sorted(glob.glob("crates/*/src/**/*.rt", recursive=True) + glob.glob("crates/*/must-fail/*.edit") + glob.glob("docs/*.md") + ["README.md"])


def read(path):
    with open(path, encoding="utf-8") as f:
        return f.read()


def humps():
    found = set()
    for path in antt():
        for name in TOKEN.findall(read(path)):
            if any(HUMP.search(p) for p in name.split("-")):
                found.add(name)
    return {name: respelled(name) for name in sorted(found)}


def main(argv):
    os.chdir(os.path.join(os.path.dirname(os.path.abspath(__file__)), ".."))
    names = humps()
    if argv == ["--list"]:
        for old, new in names.items():
            print(old, new)
        return 0
    changed = 0
    for path in antt() + others():
        text = read(path)
        new = TOKEN.sub(lambda m: names.get(m.group(0), m.group(0)), text)
        if new != text:
            changed += 1
            with open(path, "w", encoding="utf-8") as f:
                f.write(new)
    print(f"respell: {len(names)} names, {changed} files")
    return 0


if __name__ == "__main__":
    raise SystemExit(main(sys.argv[1:]))
