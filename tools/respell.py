#!/usr/bin/env python3
"""Respells the names that this repository's own definitions, lemmas, records and clauses have: words in snake case, types and relations in camel case.

usage: python3 tools/respell.py [--list]      at the top of the repository; --list only prints what would be renamed

It reads what crates/*/specs and crates/*/proofs declare, and the ghost members, laws and clause names of crates/*/src, and renames each of them that has
a hyphen, wherever it stands in ghost text. Names that the kit's library declares too keep their spelling, and so do functions, strings and comments.
"""
import os
import re
import sys

KIT = "/opt/rattle/rattle"
NAME = r"[A-Za-z_][\w'?]*(?:-[\w'?]+)+"
LEAD = r"^\s*(?:unfoldable\s+)?(?:abbrev\s+)?(?:pub\s+)?"
HEAD = re.compile(LEAD + r"(?:(" + NAME + r")\s*:\s|(?:record|data)\s+(" + NAME + r")\s*[:({])")
USE = re.compile(r"\buse\s+([\w.'\-]+)\.\{([^}]*)\}")
FN = re.compile(r"\bfn\s+(\w+)")
GHOST = re.compile(r"^\s*(?:ghost|law|requires|ensures)\*?\s+(" + NAME + r")\s*[:={]")


def files(root, endings):
    for top, dirs, names in os.walk(root):
        dirs[:] = sorted(d for d in dirs if d not in ("out", ".git"))
        for n in sorted(names):
            if n.endswith(endings):
                yield os.path.join(top, n)


def read(path):
    with open(path, encoding="utf-8") as f:
        return f.read()


def goals(path):
    """A file of answers, whose heads are names that the check makes."""
    return "/proofs/" in path and os.path.basename(path) in ("Answers.antt", "Invariants.antt", "Choices.antt")


def declared():
    found = set()
    for p in files("crates", (".antt", ".rt")):
        if goals(p):
            continue
        for line in read(p).split("\n"):
            m = (GHOST if p.endswith(".rt") else HEAD).match(line)
            if m:
                found.add(next(g for g in m.groups() if g))
    return found


def imported():
    """The names that some file takes from the kit's library."""
    crates = set(os.listdir("crates"))
    found = set()
    for p in files("crates", (".antt", ".rt")):
        for path, names in USE.findall(read(p)):
            if path.split(".")[:2][-1] not in crates:
                found |= {w for n in names.split(",") for w in n.split()}
    return found


def functions():
    """The functions of src, with the crates that each stands in."""
    found = {}
    for p in files("crates", (".rt",)):
        for name in FN.findall(read(p)):
            found.setdefault(name, set()).add(p.split(os.sep)[1])
    return found


def spelled(name):
    parts = name.split("-")
    if parts[0][0].isupper():
        return "".join(p[:1].upper() + p[1:] for p in parts)
    return "_".join(parts)


def halves(line, mark):
    """The code of a line and its comment."""
    at = line.find(mark)
    return (line, "") if at < 0 else (line[:at], line[at:])


def main():
    own = declared()
    keep = own & imported()
    fns = functions()
    table = {n: spelled(n) for n in own - keep}
    uses = {}
    for p in files("crates", (".antt", ".rt")):
        for w in set(re.findall(r"[A-Za-z_][\w'?]*(?:-[\w'?]+)+", read(p))):
            uses.setdefault(w, set()).add(p.split(os.sep)[1])
    for n in table:
        # a definition or a lemma beside a function of its name
        if fns.get(table[n], set()) & uses.get(n, set()):
            table[n] += "_lem"
    words = set()
    for p in files("crates", (".antt", ".rt")):
        words |= set(re.findall(r"[A-Za-z_][\w'?]*(?:-[\w'?]+)*", read(p)))
    table["Mark-cells"] = "MarkedCells"  # MarkCells is a variant
    fallen = sorted((a, b) for a, b in table.items() if b in words)
    if "--list" in sys.argv:
        for a in sorted(table):
            print(a, "->", table[a])
        for n in sorted(keep):
            print("kept, the library's too:", n)
        for a, b in fallen:
            print("falls together:", a, b)
        return
    for p in list(files("crates", (".antt",))):
        stem = os.path.basename(p)[:-5]
        if "-" in stem and stem[0].isupper():
            table[stem] = spelled(stem)
            os.rename(p, os.path.join(os.path.dirname(p), spelled(stem) + ".antt"))
    pattern = re.compile(r"(?<![\w'?\-«])(" + NAME + r")(?![\w'?\-])")

    def new(m, text):
        # behind `c.` stands a call, under its function's name
        if m.group(1) in table and text[: m.start()].endswith((" c.", "(c.")):
            return m.group(1).replace("-", "_")
        return table.get(m.group(1), m.group(1))

    changed = 0
    for p in files("crates", (".antt", ".rt")):
        text = read(p)
        mark = "--" if p.endswith(".antt") else "//"
        out = []
        for line in text.split("\n"):
            code, comment = halves(line, mark)
            quoted = re.split(r'("(?:[^"\\]|\\.)*")', code)
            quoted = [q if i % 2 else pattern.sub(lambda m: new(m, q), q) for i, q in enumerate(quoted)]
            comment = re.sub(r"`([^`]*)`", lambda m: "`" + pattern.sub(lambda k: table.get(k.group(1), k.group(1)), m.group(1)) + "`", comment)
            out.append("".join(quoted) + comment)
        if "\n".join(out) != text:
            with open(p, "w", encoding="utf-8") as f:
                f.write("\n".join(out))
            changed += 1
    print(f"respelled {len(table)} names in {changed} files")


main()
