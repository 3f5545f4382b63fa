#!/usr/bin/env python3
"""Takes `if◌then◌else◌` from the kit's Prelude wherever a file had it from paper's Words. Run again, it changes nothing."""
import os
import re
import sys

NAME = "if◌then◌else◌"
root = sys.argv[1] if len(sys.argv) > 1 else "."
n = 0
for folder, dirs, names in os.walk(os.path.join(root, "crates")):
    dirs[:] = [d for d in dirs if d != "out"]
    for f in names:
        if not f.endswith((".antt", ".rt")):
            continue
        p = os.path.join(folder, f)
        t = open(p, encoding="utf-8").read()
        new = []
        took = False
        for l in t.split("\n"):
            m = re.match(r"^((?:ghost )?(?:pub )?use Rattle\.paper\.specs\.Words\.)\{([^}]*)\}(;?)$", l)
            if m and NAME in m.group(2):
                took = True
                rest = [w.strip() for w in m.group(2).split(",") if w.strip() != NAME]
                if f.endswith(".antt"):
                    new.append("use Rattle.std.specs.Prelude.{" + NAME + "}")
                if rest:
                    new.append(m.group(1) + "{" + ", ".join(rest) + "}" + m.group(3))
                continue
            new.append(l)
        if not took:
            continue
        t = "\n".join(new)
        if f.endswith(".rt"):
            m = re.search(r"^ghost use Rattle\.std\.specs\.Prelude\.\{([^}]*)\};", t, re.M)
            t = t[: m.start(1)] + m.group(1) + ", " + NAME + t[m.end(1) :]
        n += 1
        open(p, "w", encoding="utf-8").write(t)
print(f"std_if: {n} files")
