#!/usr/bin/env python3
"""Respells, in the answers below proofs/, the names that the toolchain makes of goals and steps: words of the source keep their
underscores (`is-white` is `is_white`), and the toolchain's own words have one too (`overflow-add` is `overflow_add`).

usage: tools/goal_names.py [ROOT]
"""
import os
import re
import sys

WORD = r"[A-Za-z_][\w'+-]*"
OWN = [("overflow", "add sub mul shl shr cast neg step".split()), ("nonzero", ["div", "rem"]), ("slice", ["bounds"]), ("offset", ["bounds"]), ("in", ["default", "ok", "err"]), ("invariant", ["of"])]


def words_of(crate):
    found = {"from_residual", "type_inv"}
    for folder, _, names in os.walk(os.path.join(crate, "src")):
        for n in names:
            with open(os.path.join(folder, n), encoding="utf-8") as f:
                found |= {w.strip("_") for w in re.findall(r"[a-z][a-z0-9_]*_[a-z0-9_]+", f.read())}
    return sorted(found, key=len, reverse=True)


def respelled(token, words):
    for w in words:
        dashed = w.replace("_", "-")
        token = re.sub(rf"(?<![A-Za-z0-9_']){re.escape(dashed)}(?![A-Za-z_'])", w, token)
    for a, bs in OWN:
        for b in bs:
            token = re.sub(rf"(?<![A-Za-z0-9_']){a}-{b}(?![A-Za-z_'])", f"{a}_{b}", token, flags=re.I if a == "in" else 0) if a != "in" else re.sub(rf"(?<![A-Za-z0-9_'])([Ii]n)-{b}(?![A-Za-z_'])", rf"\1_{b}", token)
    return token


def turned(text, words):
    imported = set()
    for m in re.finditer(r"(?m)^use ([^{\n]*)\{([^}]*)\}", text):
        if not m.group(1).endswith("Goals.") and not m.group(1).endswith("Given."):
            imported |= set(re.findall(WORD, m.group(2)))
    def one(m):
        t = m.group(0)
        if "-" not in t or (t in imported and text[m.start() - 1 : m.start()] != "."):
            return t
        return respelled(t, words)
    return "\n".join(l if re.match(r"use (?!.*(Goals|Given)\.\{)", l) else re.sub(rf"(?<![\w'-]){WORD}", one, l) for l in text.split("\n"))


def main(root):
    for name in sorted(os.listdir(os.path.join(root, "crates"))):
        crate = os.path.join(root, "crates", name)
        words = words_of(crate)
        for folder, dirs, names in os.walk(os.path.join(crate, "proofs")):
            for n in names:
                if n not in ("Answers.antt", "Invariants.antt"):
                    continue
                p = os.path.join(folder, n)
                with open(p, encoding="utf-8") as f:
                    old = f.read()
                new = turned(old, words)
                if new != old:
                    with open(p, "w", encoding="utf-8") as f:
                        f.write(new)
                    print(os.path.relpath(p, root))


if __name__ == "__main__":
    here = os.path.dirname(os.path.dirname(os.path.abspath(__file__)))
    main(sys.argv[1] if len(sys.argv) > 1 else here)
