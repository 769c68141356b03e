#!/usr/bin/env python3
"""Brings the repository's own definitions, lemmas and types to today's spelling: `get-slot` becomes `get_slot`, and a type `Blanks-vanish` becomes `BlanksVanish`.

usage: python3 tools/respell.py [TOP] [--dry]      (once, after the kit's port.py and before any edit by hand)

It renames what the .antt files of crates/ declare at the top, as a field or as a constructor, where it is declared and where it is cited: in .antt
files, and in the clauses, ghost items and `ghost use` lines of .rt files. A name that a file takes from a library keeps its spelling there, and so do answers to goals.
Functions of src/, strings, comments, inputs and outputs are not touched. It prints each new name that something else has already, and each that looks
like a name that Rattle makes, and renames them all the same: read those lines. --dry prints them and writes nothing.
"""
import os, re, sys

TOP = next((a for a in sys.argv[1:] if a != "--dry"), ".")
NAME = re.compile(r"(?<![\w'’«-])([A-Za-z][\w'’]*(?:-[\w'’]+)+)(?![\w'’-])")
TYPE = re.compile(r"(?m)^(?:pub |abbrev |unfoldable |record |data )*([A-Z]\w*(?:-\w+)+)\s*(?:\{[^}]*\}\s*|\([^)]*\)\s*)*:")
KEEP = re.compile(r"^(then|else|loop|if|match|invariant|decreases|returns|overflow|index|requires|ensures|in|let|on|for|while|underflow|cast|div)-")


def files(*ends):
    for folder, dirs, names in os.walk(os.path.join(TOP, "crates")):
        dirs[:] = sorted(d for d in dirs if d != "out")
        for n in sorted(names):
            if n.endswith(ends):
                yield os.path.join(folder, n)


def read(p):
    with open(p, encoding="utf-8") as f:
        return f.read()


def declared(text):
    """Names that a file declares at the top, or as a field or a constructor, and that are no answer to a goal."""
    out = set()
    for m in re.finditer(r"(?m)^(?:\s+)?((?:pub |abbrev |unfoldable |ruleset |axiom |postulate )*)([a-z][\w'’]*(?:-[\w'’]+)+)\s*(?:\{[^}]*\}\s*|\([^)]*\)\s*)*:\s*(\S*)", text):
        indented = m.group(0).startswith((" ", "\t"))
        if indented and not m.group(1) and "=" in m.group(0):
            continue
        if re.match(r"(goal|need|needs|given)\.", m.group(3)):
            continue
        out.add(m.group(2))
    out |= set(TYPE.findall(text))
    for m in re.finditer(r"(?m)^\s*(?:pub )?ruleset ([a-z][\w'’]*(?:-[\w'’]+)+)", text):
        out.add(m.group(1))
    return out


def foreign(text, own):
    """Names that a file takes from a library of the kit."""
    out = set()
    for m in re.finditer(r"(?ms)^(?:ghost |pub )*use ([\w.·]+?)\.?\{([^}]*)\}", text):
        path = m.group(1)
        crate = re.match(r"Rattle\.(\w+)", path)
        if crate and crate.group(1) in own:
            continue
        for n in m.group(2).split(","):
            out.add(n.strip().split(" as ")[0].strip())
            out.add(n.strip().split(" as ")[-1].strip())
    return out


def main():
    own = set(os.listdir(os.path.join(TOP, "crates")))
    names = set()
    for p in files(".antt"):
        names |= declared(read(p))
    kept = {n for n in names if KEEP.match(n)}
    rust = set()
    for p in files(".rt"):
        t = re.sub(r"//[^\n]*", "", read(p))
        rust |= set(re.findall(r"\b([a-z_]\w*)\s*:(?!:)", t))
        rust |= set(re.findall(r"\bghost (\w+)", t)) | set(re.findall(r"\bconst (\w+)", t))
    taken = set()
    for p in files(".antt"):
        taken |= set(re.findall(r"(?m)^(?:pub |abbrev |unfoldable )*([a-z][\w']*)\s*[:{(]", read(p)))
    new = {}
    for n in sorted(names):
        to = n.replace("-", "_")
        if n[0].isupper():
            to = "".join(w[0].upper() + w[1:] for w in n.split("-"))
        why = None
        if to in taken:
            why = "declared"
        elif to in rust:
            why = "rust"
        new[n] = to
        if why:
            print(f"falls together ({why}): {n} -> {to}")
    for n in sorted(kept):
        print(f"looks like a name that Rattle makes: {n}")
    if "--dry" in sys.argv:
        print(len(new), "names")
        return
    changed = 0
    for p in files(".antt", ".rt"):
        t = read(p)
        lib = foreign(t, own)
        sub = lambda m: new[m.group(1)] if m.group(1) in new and m.group(1) not in lib else m.group(1)
        if p.endswith(".antt"):
            u = "\n".join(l if l.lstrip().startswith("--") else NAME.sub(sub, l) for l in t.split("\n"))
        else:
            u = "\n".join(l if l.lstrip().startswith("//") else re.sub(r'"(?:[^"\\]|\\.)*"|' + NAME.pattern, lambda m: m.group(0) if m.group(1) is None else sub(m), l) for l in t.split("\n"))
        if u != t:
            with open(p, "w", encoding="utf-8") as f:
                f.write(u)
            changed += 1
    print(len(new), "names,", changed, "files")


main()
