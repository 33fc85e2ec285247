#!/usr/bin/env python3
"""Spells this repository's own definitions, lemmas and fields in snake case, as today's Rattle does.

usage: tools/snake_case.py            at the top of the repository, once, after the port's scripts
       tools/snake_case.py --names    only prints each name and its new spelling

A name is one that a file of specs/ or proofs/ declares. Names of the library, of functions of src/, of generated goals and
steps, types and modules stay. Where a definition and a law about it would fall together, the law gets '_is' behind its name.

The crate hex becomes hex_line, since Rattle has a library of its own named hex: its folder, its line in crates.txt, its paths.
"""
import glob
import os
import re
import sys

IDENT = r"[A-Za-z_][\w'′₀-₉-]*"
DECLARED = re.compile(r"^(\s*)(?:(?:abbrev|unfoldable)\s+)?(?:pub\s+)?(" + IDENT + r")\s*:\s", re.M)
TOKEN = re.compile(r"(?<![\w'′₀-₉-])" + IDENT)
ANSWER = re.compile(r"^(?:abbrev\s+)?(" + IDENT + r")\s*:\s*tie\.", re.M)


def files(pattern):
    return sorted(glob.glob(pattern, recursive=True))


SPECS = files("crates/*/specs/*.antt")
LEMMAS = files("crates/*/proofs/*.antt")
PROOFS = files("crates/*/proofs/**/Proof.antt")
SOURCES = files("crates/*/src/*.rt")
EDITS = files("crates/*/must-fail/*.edit")


def read(path):
    with open(path, encoding="utf-8") as f:
        return f.read()


def snake(name):
    return re.sub(r"([a-z0-9])([A-Z])", lambda m: m.group(1) + "_" + m.group(2).lower(), name.replace("-", "_"))


# a constant of `program` and a constructor of `lines`, which no file names together
APART = {"goesOn"}


def turns(name):
    return "-" in name or (name[0].islower() and re.search("[A-Z]", name))


def mapping():
    declared = {}
    for path in SPECS + LEMMAS + PROOFS:
        text = read(path)
        answers = set(ANSWER.findall(text)) if path in PROOFS else set()
        for m in DECLARED.finditer(text):
            name = m.group(2)
            if name in answers or (path in PROOFS and re.search(r"[-_]spec$", name)):
                continue
            declared.setdefault(name, []).append(path)
    to = {}
    taken = set(declared)
    # definitions first, in camel case, and then the laws, so that it is a law that gives way
    for name in sorted((n for n in declared if turns(n)), key=lambda n: ("-" in n, n)):
        new = snake(name)
        if new in taken and name not in APART:
            new += "_is"
            if new in taken:
                sys.exit(f"{name}: {new} is taken too")
        taken.add(new)
        to[name] = new
    return to


def turn(path, to):
    text = read(path)
    here = dict(to)
    if path in PROOFS:
        for name in ANSWER.findall(text):
            here.pop(name, None)
    generated = path in PROOFS

    def one(m):
        name = m.group(0)
        new = here.get(name)
        if new is None:
            return name
        before = text[max(0, m.start() - 200):m.start()]
        # a step of the code: c.place-after, c.before.place-after
        step = re.search(r"(?:^|[\s(,])(?:c|h|v|w|a)(?:\.[\w'-]+)*\.$", before)
        if generated and step and not re.search(r"invariant(?:\.[\w'-]+)*\.$", before):
            return name
        return new

    lines = []
    turned = TOKEN.sub(one, text)
    if turned != text:
        with open(path, "w", encoding="utf-8") as f:
            f.write(turned)


def rename_hex():
    os.rename("crates/hex", "crates/hex_line")
    for path in files("crates/**/*.antt") + files("crates/*/src/*.rt") + files("crates/*/must-fail/*.edit"):
        text = read(path)
        turned = re.sub(r"\bRattle\.hex\.", "Rattle.hex_line.", text)
        if path.endswith((".rt", ".edit")):
            turned = re.sub(r"(?<![\w.])hex::", "hex_line::", turned)
            turned = re.sub(r"(?m)^use hex;", "use hex_line;", turned)
        if turned != text:
            with open(path, "w", encoding="utf-8") as f:
                f.write(turned)
    lines = read("crates.txt").splitlines()
    with open("crates.txt", "w", encoding="utf-8") as f:
        for line in lines:
            f.write((line if line.startswith("#") else re.sub(r"\bhex\b", "hex_line", line)) + "\n")


def main():
    to = mapping()
    if sys.argv[1:] == ["--names"]:
        for name in sorted(to):
            print(name, to[name])
        return
    for path in SPECS + LEMMAS + PROOFS + SOURCES + EDITS:
        turn(path, to)
    rename_hex()
    print(f"{len(to)} names")


if __name__ == "__main__":
    main()
