#!/usr/bin/env python3
"""Brings the repository's own antt names to today's spelling: words in snake case, types in camel case. Once, right after the kit's port.py.

usage: python3 tools/spelling.py [ROOT]

A name is the repository's own where a file of specs/ or a lemma file of proofs/ declares it. It is respelled wherever a file of specs/ or proofs/, a clause
or ghost item of a .rt file, an edit or, between backticks, a comment or a page names it, but for a file that has the name from a library of the kit.
Names of src/ keep their spelling. Names that would fall together stand in APART.
"""

import collections
import os
import re
import sys

# names that would meet another one, and old words of the library that own names hold
APART = {
    "Fed-to": "IsFedTo",
    "Stands-at": "IsAtPlace",
    "joinAll": "joined_by",
    "joinAll-lowest": "joined_by_lowest",
    "joinAll-keeps": "joined_by_keeps",
    "joinAll-joins": "joined_by_joins",
    "joinAll-only": "joined_by_only",
    "getD-in": "get_or_in",
    "getD-below": "get_or_below",
    "getD-at-set": "get_or_at_set",
    "in-getD": "in_get_or",
    "struct?": "is_struct_kind",
    "bool?": "is_bool_kind",
    "int?": "is_int_kind",
    "prim?": "is_prim_kind",
    "some?": "is_some_kind",
    "refused?": "is_refused",
    "free?": "is_free",
    "yes?": "is_yes_told",
    "subset?": "is_subset_told",
}

NAME = r"[^\W\d][\w'?-]*"
DECLARED = re.compile(r"^(\s*)(?:abbrev |unfoldable )?(?:pub )?(" + NAME + r") : ")
TYPE = re.compile(r"^\s*(?:abbrev )?(?:pub )?(?:record|data) (" + NAME + r")")
USED = re.compile(r"^\s*(?:ghost )?(?:pub )?use ([\w.]+?)(?:\.\{([^}]*)\}| as .*)?;?$")
TOKEN = re.compile(r"(?<![\w'-])" + NAME)
QUOTED = re.compile(r"`[^`\n]*`")


def spelled(name):
    if name in APART:
        return APART[name]
    if name[0].isupper():
        return "".join(w[:1].upper() + w[1:] for w in name.split("-"))
    name = re.sub(r"(?<=[a-z])([A-Z])", lambda m: "_" + m.group(1).lower(), name)
    return name.replace("-", "_")


def files(root, endings):
    for folder, dirs, names in os.walk(root):
        dirs[:] = sorted(d for d in dirs if d not in ("out", ".git", "target"))
        for n in sorted(names):
            if n.endswith(endings):
                yield os.path.join(folder, n)


def read(path):
    with open(path, encoding="utf-8") as f:
        return f.read()


def declared(root):
    """The own names that are to be respelled. A file that walks a function's code declares none that another file cites."""
    found = set()
    for p in files(os.path.join(root, "crates"), (".antt",)):
        if os.path.basename(p) == "Proof.antt":
            continue
        for l in read(p).split("\n"):
            m = DECLARED.match(l) or TYPE.match(l)
            if m and not l.lstrip().startswith("--"):
                found.add(m.group(m.lastindex))
    return {n: spelled(n) for n in found if spelled(n) != n}


def foreign(text):
    """The names that a file has from the kit's libraries."""
    got = set()
    for l in text.split("\n"):
        m = USED.match(l)
        if m and m.group(2):
            path = m.group(1)
            if not path.startswith("Rattle.") or path.startswith("Rattle.std"):
                got |= {w.split(" as ")[0].strip() for w in m.group(2).split(",")}
    return got


def turned(text, names):
    return TOKEN.sub(lambda m: names.get(m.group(0), m.group(0)), text)


def quoted(text, names):
    return QUOTED.sub(lambda m: turned(m.group(0), names), text)


def of_antt(text, names):
    return "\n".join(quoted(l, names) if l.lstrip().startswith("--") else turned(l, names) for l in text.split("\n"))


def dashed(names):
    """In .rt files a name of src/ may be spelled as an own name without a dash: only names that no item of src/ can have are turned there."""
    return {a: b for a, b in names.items() if "-" in a or "?" in a or a[0].isupper() or re.search("[a-z][A-Z]", a)}


def of_rt(text, names):
    names = dashed(names)

    def line(l):
        if l.lstrip().startswith("//"):
            return quoted(l, names)
        return "".join(part if i % 2 else turned(part, names) for i, part in enumerate(re.split(r'("(?:[^"\\]|\\.)*")', l)))

    return "\n".join(line(l) for l in text.split("\n"))


def of_edit(text, names):
    return "\n".join(turned(l, names) if re.match(r"(old|new):", l) else quoted(l, names) for l in text.split("\n"))


def main(root):
    names = declared(root)
    met = collections.defaultdict(list)
    for a, b in names.items():
        met[b].append(a)
    twice = [v for v in met.values() if len(v) > 1]
    if twice:
        print("spelling: these would fall together:", twice)
        return 1
    changed = 0
    turns = {".antt": of_antt, ".rt": of_rt, ".edit": of_edit, ".md": quoted}
    for p in list(files(os.path.join(root, "crates"), (".antt", ".rt", ".edit"))) + list(files(os.path.join(root, "docs"), (".md",))) + [os.path.join(root, "README.md")]:
        before = read(p)
        kit = foreign(before)
        after = turns[os.path.splitext(p)[1]](before, {a: b for a, b in names.items() if a not in kit})
        if after != before:
            changed += 1
            with open(p, "w", encoding="utf-8") as f:
                f.write(after)
    print(f"spelling: {len(names)} names, {changed} files")
    return 0


if __name__ == "__main__":
    raise SystemExit(main(sys.argv[1] if len(sys.argv) > 1 else "."))
