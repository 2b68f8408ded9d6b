#!/usr/bin/env python3
# Counts the places in src/ where an older form of the code may stand, by text: python3 tools/places.py [-v] [FOLDER]
# With -v it prints each place. A place that it counts may be right as it is; docs/DESIGN-PASS.md says of each what became of it.
import collections
import pathlib
import re
import sys

args = [a for a in sys.argv[1:] if a != "-v"]
shown = "-v" in sys.argv
root = pathlib.Path(args[0] if args else ".")
files = sorted(root.glob("crates/*/src/**/*.rt"))
texts = {f.relative_to(root): f.read_text() for f in files}


def lines(pattern, without=None):
    found = []
    for name, text in texts.items():
        for n, line in enumerate(text.splitlines(), 1):
            if re.search(pattern, line) and not (without and re.search(without, line)):
                found.append(f"{name}:{n}: {line.strip()}")
    return found


def spans(pattern):
    found = []
    for name, text in texts.items():
        for m in re.finditer(pattern, text):
            n = text.count("\n", 0, m.start()) + 1
            found.append(f"{name}:{n}: {' '.join(m.group(0).split())[:110]}")
    return found


def heads():
    for name, text in texts.items():
        for m in re.finditer(r"\bfn (\w+)(?:<[^(]*>)?\(([^{]*?)\)\s*(?:->|\n|requires|ensures|\{|;)", text):
            yield name, text.count("\n", 0, m.start()) + 1, m.group(1), m.group(2)


def params(text):
    return [p for p in re.split(r",(?![^<(\[]*[>)\]])", text) if p.strip()]


def twins():
    # names of functions and types that stand in two or more crates
    where = collections.defaultdict(set)
    for name, text in texts.items():
        for m in re.finditer(r"^ *(?:pub(?:\(crate\))? )?(?:fn|struct|enum) (\w+)", text, re.M):
            where[m.group(1)].add(str(name))
    found = []
    for word, places in sorted(where.items()):
        crates = {p.split("/")[1] for p in places}
        if len(crates) > 1 and word not in ("fmt", "from", "main", "try_from"):
            found.append(f"{word}: {', '.join(sorted(places))}")
    return found


def clauses():
    # a requires that stands, word for word, in three or more contracts of one crate
    where = collections.defaultdict(list)
    for name, text in texts.items():
        for m in re.finditer(r"^ *requires (?:\w+ )?\{(.*)\}$", text, re.M):
            where[str(name).split("/")[1], m.group(1).strip()].append(str(name))
    return [f"{c}: {len(v)} times: {k}" for (c, k), v in sorted(where.items()) if len(v) > 2]


def many():
    return [f"{f}:{n}: {w}({len(params(p))} parameters)" for f, n, w, p in heads() if len(params(p)) > 5]


points = {
    "1 own enums": lines(r"^ *(pub )?enum "),
    "1 an Option or Result taken apart by hand and handed on": lines(r"\b(Ok|Err|Some|None)\b(\([^()]*\))? => (return )?(Ok|Err|Some|None)\b")
    + spans(r"let (Ok|Some)\([^=]*= [^;{]*else \{\s*return (Err|None|Ok)\b"),
    "1 a flag as a parameter, a field or an answer beside a value": lines(r"\b\w+: bool\b|\(bool|Result<bool", r"const \w+: bool"),
    "1 numbers for refusals": lines(r"fn number_of\b.* u32|fn refusal\b|with_\d+: u32|Refused\((u32|\d+)\)"),
    "2 names of functions and types in two or more crates": twins(),
    "3 loops that count an index (a one-letter name over a range)": lines(r"for [a-z] in .*\.\."),
    "3 loops over a range of stages, rows, columns or rounds": lines(r"for (\w\w+|_) in .*\.\."),
    "3 counters kept by hand": lines(r"\b\w+ (\+|-)= 1\b|= \w+\.(saturating|wrapping)_(add|sub)\(1\);"),
    "3 while loops": lines(r"\bwhile\b", r"^ *//"),
    "3 a vector filled by pushes": lines(r"\.push\("),
    "4 impls of conversion and printing": lines(r"impl.*\b(From<|TryFrom|Display|PartialEq|PartialOrd|Ord|Eq|Clone|Default)\b.* for "),
    "4 functions that compare, copy, convert or name by hand": lines(r"fn (is_same|is_elsewhere|copy|of|words|state_word|dx_of|dy_of|number_of|is_sample|is_digit|number)\b"),
    "4 casts": lines(r" as (u8|u16|u32|u64|usize|i32|i64)\b"),
    "5 a requires in three or more contracts of a crate": clauses(),
    "5 functions of six or more parameters": many(),
    "6 fixed arrays": lines(r"\[[^\]]*; \d+\]", r"rt;"),
    "7 const and plain switches": lines(r"\bif (ODD|JOIN|states)\b|const (ODD|JOIN|FIRST|SECOND): bool"),
}
for word, found in points.items():
    print(f"{len(found):4} {word}")
    if shown:
        for place in found:
            print(f"       {place}")
proofs = sum(len(f.read_text().splitlines()) for f in root.glob("crates/*/proofs/**/*.antt"))
print(f"{proofs:4} 8 lines of proofs")
