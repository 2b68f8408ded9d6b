#!/usr/bin/env python3
"""Respells the repository's own names in specs/ and proofs/, and wherever src/, README.md and docs/ speak of them:
functions, lemmas, fields and constructors in snake case, types and facts in camel case.

usage: tools/respell.py [ROOT]       rewrites the files below ROOT (default: this repository) in place, and lists the renamed names.
Names that the toolchain makes (a goal's, a step's) and names of its library keep their spelling, and so does the code of src/.
Ends with status 1, with nothing written, where a new name would fall together with another name of a file.
"""
import os
import re
import sys

WORD = r"[A-Za-z_][\w'′-]*"
TOKEN = re.compile(r"(?<![\w'′-])" + WORD)


def snake(name):
    name = name.replace("′", "'").replace("-", "_")
    return re.sub(r"(?<=[a-z0-9])([A-Z])", lambda m: "_" + m.group(1).lower(), name)


def camel(name):
    return "".join(p[:1].upper() + p[1:] for p in name.replace("′", "'").split("-"))


def spelled(name):
    return camel(name) if name[0].isupper() else snake(name)


def files(root):
    for folder, dirs, names in os.walk(os.path.join(root, "crates")):
        dirs[:] = sorted(d for d in dirs if d not in ("out", "data", "must-fail", "refused"))
        for n in sorted(names):
            if n.endswith((".antt", ".rt")):
                yield os.path.join(folder, n)
    for n in ["README.md"] + sorted(os.path.join("docs", d) for d in os.listdir(os.path.join(root, "docs"))):
        if n.endswith(".md") and not os.path.basename(n).startswith("PORT"):
            yield os.path.join(root, n)


def own(text):
    """The names that a file of specs/ or proofs/ defines, answers of goals aside."""
    for m in re.finditer(rf"(?m)^(?:abbrev |unfoldable )?(?:pub )?({WORD}) :(?!\S)(?! goal\.)", text):
        yield m.group(1)
    for m in re.finditer(rf"(?m)^ +(?:pub )?((?:{WORD} )+):(?!\S)(?! goal\.)", text):
        yield from m.group(1).split()
    for m in re.finditer(rf"(?m)^(?:pub )?(?:record|data) ({WORD})", text):
        yield m.group(1)


def aliases(text):
    for m in re.finditer(rf"(?m)^(?:ghost )?use ([^{{\n]*)\{{([^}}\n]*)\}}", text):
        for a, b in re.findall(rf"({WORD}) as ({WORD})", m.group(2)):
            yield a, b


def main(root):
    texts = {}
    for p in files(root):
        with open(p, encoding="utf-8") as f:
            texts[p] = f.read()
    new = {}
    for p, t in texts.items():
        if p.endswith(".antt"):
            for n in own(t):
                if spelled(n) != n:
                    new[n] = spelled(n)
    for p, t in texts.items():
        if p.endswith((".antt", ".rt")):
            for a, b in aliases(t):
                to = spelled(b) if a[0].isupper() else snake(b[0].lower() + b[1:])
                if to != b:
                    new[b] = to
    bad = []
    for p, t in texts.items():
        here = {m.group(0) for m in TOKEN.finditer(t) if t[m.start() - 1 : m.start()] != "."}
        got = {}
        for n in here:
            if n in new:
                if new[n] in here and p.endswith(".antt"):
                    bad.append(f"{p}: {n} and {new[n]}")
                if new[n] in got:
                    bad.append(f"{p}: {n} and {got[new[n]]}")
                got[new[n]] = n
    if bad:
        print("\n".join(bad))
        return 1
    for p, t in texts.items():
        if p.endswith(".md"):
            out = re.sub(r"`[^`\n]*`", lambda q: TOKEN.sub(lambda m: new.get(m.group(0), m.group(0)), q.group(0)), t)
        else:
            out = TOKEN.sub(lambda m: new.get(m.group(0), m.group(0)), t)
        if out != t:
            with open(p, "w", encoding="utf-8") as f:
                f.write(out)
    for n in sorted(new):
        print(f"{n} -> {new[n]}")
    return 0


if __name__ == "__main__":
    here = os.path.dirname(os.path.dirname(os.path.abspath(__file__)))
    sys.exit(main(sys.argv[1] if len(sys.argv) > 1 else here))
