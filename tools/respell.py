#!/usr/bin/env python3
"""Brings this repository's own definitions and lemmas to today's spelling, after port.py: words in snake case.

Renames every name that a file of specs/ or a lemma file of proofs/ declares with a dash or in lower camel case, in specs, proofs,
clauses, must-fail edits and, between backticks, the pages. Functions of src/ keep their names. Run once, at the top."""
import glob
import re
import sys

TOKEN = re.compile(r"[^\s(){}\[\],;.`\"]+")
HEAD = re.compile(r"^(?:abbrev |unfoldable |pub |data |record |ruleset )*([^\s:(){}]+) *[:({]")
INNER = re.compile(r"^\s+(?:abbrev |unfoldable |pub )*([^\s:(){}]+) : ")
FOREIGN = re.compile(r"^use (?!Rattle\.(?:%s)\b)[^{\n]*\{([^}]*)\}", re.M)


def snake(name):
    name = re.sub(r"(?<=[a-z0-9])([A-Z])", lambda m: "_" + m.group(1), name) if name[0].islower() else name
    name = name.replace("-", "_")
    return name if name[0].isupper() else re.sub(r"[A-Z]", lambda m: m.group(0).lower(), name)


def declared(files):
    for f in files:
        for line in open(f):
            if line.startswith((" ", "--", "use ", "mod ", "pub mod ", "unfolding", "where", "\n")):
                continue
            m = HEAD.match(line)
            if m:
                yield m.group(1)


def within(files):
    """Fields, and what a module or a where declares."""
    for f in files:
        for line in open(f):
            m = INNER.match(line)
            if m and not line.lstrip().startswith("--"):
                yield m.group(1)


def foreign(files):
    """Names of the library that some file imports."""
    crates = "|".join(line.split(":")[0] for line in open("crates.txt") if ":" in line and not line.startswith("#"))
    for f in files:
        for m in re.finditer(FOREIGN.pattern % crates, open(f).read(), re.M):
            yield from (x.strip() for x in m.group(1).split(","))


lemmas = [f for f in glob.glob("crates/*/specs/*.antt") + glob.glob("crates/*/proofs/*.antt")]
everything = glob.glob("crates/*/specs/*.antt") + glob.glob("crates/*/proofs/**/*.antt", recursive=True)
library = set(foreign(everything))
names = {n: snake(n) for n in [*declared(lemmas), *within(lemmas)] if re.fullmatch(r"[A-Za-z0-9'_\-]+", n) and n not in library}
names = {a: b for a, b in names.items() if a != b and not a[0].isupper()}
# a lemma that would have its definition's name ends in _lem
words = {b for a, b in names.items() if "-" not in a}
names = {a: b + "_lem" if "-" in a and b in words else b for a, b in names.items()}
texts = glob.glob("crates/*/specs/*.antt") + glob.glob("crates/*/proofs/**/*.antt", recursive=True)
texts += glob.glob("crates/*/src/*.rt") + glob.glob("crates/*/must-fail/*.edit")

seen = set()
for f in texts:
    seen.update(TOKEN.findall(open(f).read()))
clash = sorted((a, b) for a, b in names.items() if b in seen)
if "--show" in sys.argv:
    for a, b in sorted(names.items()):
        print(a, b, "CLASH" if (a, b) in clash else "")
    sys.exit()
for f in texts:
    old = open(f).read()
    new = TOKEN.sub(lambda m: names.get(m.group(0), m.group(0)), old)
    if new != old:
        open(f, "w").write(new)
for f in ["README.md"] + glob.glob("docs/*.md"):
    old = open(f).read()
    new = re.sub(r"`[^`\n]+`", lambda q: TOKEN.sub(lambda m: names.get(m.group(0), m.group(0)), q.group(0)), old)
    if new != old:
        open(f, "w").write(new)
print(len(names), "names;", len(clash), "of them stood already:", clash)
