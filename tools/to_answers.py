#!/usr/bin/env python3
"""Turns the proof files of an older Rattle, Proof.antt, to today's Invariants.antt and Answers.antt.

usage: rt names FOLDER; tools/to_answers.py FOLDER CRATE..     at the top of the repository

FOLDER has what `rt names` listed: the old and the new name of each goal and step. An answer that only says `search rules` is left
out, since the check tries that by itself.
"""
import json
import os
import re
import sys

IDENT = r"[A-Za-z_κ][\w'′₀-₉-]*"


def norm(name):
    return name.replace("_", "-")


def blocks(text):
    """The declarations of a file, each with the comments above it."""
    out, now = [], []
    for line in text.split("\n"):
        if line.strip() == "" and now and not all(l.lstrip().startswith("--") for l in now):
            out.append("\n".join(now))
            now = []
        elif line.strip() == "" and now:
            out.append("\n".join(now))
            now = []
        elif line.strip():
            now.append(line)
    if now:
        out.append("\n".join(now))
    # a declaration's helpers below `where` begin with blank lines and are indented: join them again
    joined = []
    for b in out:
        if b.startswith(" ") and joined:
            joined[-1] += "\n\n" + b
        else:
            joined.append(b)
    return joined


def steps_of(record):
    to = {}
    for place in record["places"]:
        old, new = place[2]
        if old:
            to.setdefault(norm(old), new)
    return to


def turn_paths(text, steps, said):
    """c.before.before.STEP.. as c.NEW.., also from a name that a let binds to such a chain."""
    bases = {"c"}
    for m in re.finditer(r"let (" + IDENT + r") = (" + IDENT + r")((?:\.before)*) in", text):
        if m.group(2) in bases:
            bases.add(m.group(1))

    def one(m):
        base, rest = m.group(1), m.group(2)
        if base not in bases:
            return m.group(0)
        parts = [p for p in rest.split(".")[1:] if p != "before"]
        if not parts:
            return m.group(0)
        new = steps.get(norm(parts[0]))
        if new is not None:
            parts[0] = new
        elif parts[0] not in ("args", "requires", "well_formed"):
            said.append(f"no step {parts[0]}")
        return base + "." + ".".join(parts)

    return re.sub(r"(?<![\w'.-])(" + IDENT + r")((?:\.[A-Za-z_0-9«][\w'»-]*)+)", one, text)


def head_and_body(block):
    lines = block.split("\n")
    n = 0
    while n < len(lines) and lines[n].startswith("--"):
        n += 1
    return lines[:n], "\n".join(lines[n:])


def parameters(where):
    """The names of a function's parameters: an older Rattle showed some as t1, t2 and so on."""
    crate, inner = where.split(".proofs.")
    *modules, name = inner.split(".")
    for file in ["/".join(modules) + ".rt", "lib.rt", "main.rt"] if modules else ["lib.rt", "main.rt"]:
        path = f"crates/{crate}/src/{file}"
        if os.path.isfile(path):
            with open(path, encoding="utf-8") as f:
                m = re.search(r"\bfn " + name + r"(?:<[^>]*>)?\(([^)]*)\)", f.read())
            if m:
                return re.findall(r"(?:mut )?(\w+)\s*:", m.group(1))
    return []


def convert(path, record, where):
    with open(path, encoding="utf-8") as f:
        text = f.read()
    said = []
    steps = steps_of(record)
    needs = {norm(a): b for a, b in record["needs"]}
    places = {p[0]: n for p, n in zip(record["places"], record["places_by_name"])}
    loops = {norm(l[0][0]): (l[0][1], l[1], ch) for l, ch in zip(record["loops"], record["changed"])}
    uses, invariants, answers, head, named = [], [], [], [], []
    for block in blocks(text):
        comments, body = head_and_body(block)
        if not body:
            head += comments
            continue
        if re.match(r"(pub )?use ", body):
            if not head:
                head = comments
            gone = re.compile(r"\.(Statement|Tie)(\.\{statement\}| as tie)\s*$")
            uses += [u for u in re.split(r"\n(?=(?:pub )?use )", body) if not gone.search(u)]
            continue
        if re.match(r"pub " + IDENT + r" :.*statement M", body):
            continue
        m = re.match(r"(?:abbrev )?(?:pub )?(invariant|decreases)-(" + IDENT + r") : tie\.", body)
        if m:
            kind, old = m.group(1), m.group(2)
            if norm(old) not in loops:
                said.append(f"no loop {old}: {body}")
                continue
            new, names, changed = loops[norm(old)]
            m2 = re.search(r"\n((?:unfolding[^\n]*\n)?)" + re.escape(f"{kind}-{old}") + r"((?:\s+[^\s=]+)*)\s+=\s*", body)
            params = m2.group(2).split()
            rest = body[m2.end():]
            first = [(n, ch) for n, ch in zip(names, changed)]
            expected = len(names) + sum(changed)
            if len(params) != expected:
                said.append(f"{kind} {old}: {len(params)} parameters, {expected} expected: {names} {changed} {params}")
            to = {}
            for p, (n, ch) in zip(params, first):
                to[p] = f"l.initial.{n}" if ch else f"l.{n}"
            for p, n in zip(params[len(names):], [n for n, ch in first if ch]):
                to[p] = f"l.{n}"
            to.pop("_", None)
            rest = re.sub(r"(?<![\w'.₀-₉-])(" + IDENT + r")", lambda t: to.get(t.group(1), t.group(1)), rest)
            opened = [m2.group(1).strip()] if m2.group(1) else []
            said_of = [f"abbrev pub {kind}-{new} : goal.{kind}-{new}", *opened, f"{kind}-{new} l = {rest}"]
            invariants.append("\n".join(comments + said_of))
            continue
        m = re.match(r"(?:pub )?(" + IDENT + r") : tie\.Need-(" + IDENT + r")((?:\s+(?:invariant|decreases)[\w-]*)*)", body)
        if m:
            name, old = m.group(1), m.group(2)
            rest = body[m.end():]
            extra = re.match(r"[^\n]*", rest).group(0)
            if extra.strip():
                said.append(f"more behind goal {old}: {extra}")
            rest = re.sub(r"^[^\n]*\n", "", rest)
            also = re.sub(r"^(overflow|nonzero|slice)-", "", norm(old))
            new = next((needs[o] for o in (norm(old), also, also.replace("bounds-", "part-")) if o in needs), None)
            if re.fullmatch(re.escape(name) + r"(?:\s+[^\s=]+)*\s*=\s*search rules\s*", rest):
                continue
            if new is None:
                said.append(f"no goal {old}: {[n for n in needs if n.split('-')[-1] == norm(old).split('-')[-1]]}")
                new = norm(old)
            clause = r"(?m)^" + re.escape(name) + r"((?:\s+[^\s=(){}]+)*)(?=\s*=)"
            rest = re.sub(clause, lambda t: new + re.sub(r"\s+κs", "", t.group(1)), rest)
            rest = turn_paths(rest, steps, said)
            if "κs" in rest:
                said.append(f"{old}: κs")
            if "tie." in rest:
                said.append(f"{old}: tie in the answer")
            answers.append("\n".join(comments + [f"pub {new} : goal.{new}", rest]))
            continue
        body = turn_paths(body, steps, said)
        at = re.findall(r"\btie\.([\w-]+)", body)
        body = re.sub(r"\btie\.([\w-]+)((?: (?:invariant|decreases)-[\w-]+)*)", lambda t: places.get(t.group(1), "?" + t.group(1)), body)
        named += [places.get(p, p) for p in at if places.get(p, p) not in named]
        if at:
            said.append("a helper at a place: see that it is called at that place")
        answers.append("\n".join(comments + [body]))
    for n, parameter in enumerate(parameters(where), 1):
        answers = [re.sub(r"\b(a|args)\.t" + str(n) + r"\b", r"\1." + parameter, a) for a in answers]
    folder = os.path.dirname(path)
    goals = f"use Rattle.{where}"

    def used(u, texts):
        m = re.search(r"\.\{([^}]*)\}", u)
        if not m:
            return True
        cited = lambda n: re.search(r"(?<![\w'-])" + re.escape(n) + r"(?![\w'-])", texts)
        return any("◌" in n or cited(n.strip()) for n in m.group(1).split(","))

    def write(name, module, items, needs_head):
        file = os.path.join(folder, name)
        body = "\n\n".join(items)
        mine = [u for u in uses if used(u, body)]
        places_used = [f"{goals}.{module}.{{{', '.join(named)}}}"] if named and module == "Goals" else []
        with open(file, "w", encoding="utf-8") as f:
            f.write("\n".join((head if needs_head else []) + mine + [f"{goals}.{module} as goal", *places_used, "", body]) + "\n")

    if invariants:
        write("Invariants.antt", "Given", invariants, not answers)
    if answers:
        write("Answers.antt", "Goals", answers, True)
    os.remove(path)
    return said


def main():
    to, crates = sys.argv[1], sys.argv[2:]
    for crate in crates:
        with open(os.path.join(to, "crates", crate, "names.json"), encoding="utf-8") as f:
            names = json.load(f)
        top = os.path.join("crates", crate, "proofs")
        for folder, _, found in sorted(os.walk(top)):
            if "Proof.antt" not in found:
                continue
            inner = os.path.relpath(folder, top).replace(os.sep, ".")
            record = names.get(f"Rattle-{crate}-proofs.{inner}.Lts")
            if record is None:
                print(f"{crate} {inner}: no names")
                continue
            for s in dict.fromkeys(convert(os.path.join(folder, "Proof.antt"), record, f"{crate}.proofs.{inner}")):
                print(f"{crate} {inner}: {s}")


if __name__ == "__main__":
    main()
