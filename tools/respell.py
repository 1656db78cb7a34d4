#!/usr/bin/env python3
"""Brings the repository's own definitions and lemmas to the spelling of today's Rattle: words in snake case, types and modules in camel case.

usage: tools/respell.py            writes the files, by the table tools/respell.tsv
       tools/respell.py --table    prints that table, made from the files as they stand

Run once, at the top, right after port.py of the kit. A name of specs/ or proofs/ in camel case with a small first letter, or with dashes
between plain words, gets underscores; a dash stays where it joins two names that stand by themselves. Names of src/, exported names,
strings, inputs and outputs keep their spelling. Where two names fall together, the definition of specs/ has the plain one, and the lemma
gets _lem.
"""
import collections
import glob
import os
import re
import sys

SIGNATURE = re.compile(
    r"^\s*(?:(?:abbrev|unfoldable)\s+)?(?:pub\s+)?(?:(?:abbrev|unfoldable)\s+)?([^\s(){}:;,.\"λ]+)\s*((?:\{[^}]*\}\s*|\([^)]*\)\s*)*):(?:\s|$)"
)
TOKEN = re.compile(r"--[^\n]*|\"(?:[^\"\\]|\\.)*\"|[^\s(){}.;,@\"«»\[\]\\`]+")
RUST = re.compile(r"//[^\n]*|b?\"(?:[^\"\\]|\\.)*\"|b?'(?:[^'\\\n]|\\.)'|[^\s(){}.;,@\"\[\]\\`]+")
QUOTED = re.compile(r"`[^`\n]+`")
# what would fall together with another name, or names a fact
BY_HAND = {
    "afterStep": "AfterStep",
    "items-in": "items_are",
    "bit-and": "bit_bit_and",
    "bit-or": "bit_bit_or",
}
ANSWERS = re.compile(r"/Proof(\.antt|/)")


def files(pattern):
    return sorted(f for f in glob.glob(pattern, recursive=True) if "/out/" not in f)


def read(f):
    with open(f, encoding="utf-8", newline="") as it:
        return it.read()


def snake(word):
    return re.sub(r"(?<=[a-z0-9])([A-Z])", lambda m: "_" + m.group(1).lower(), word)


def plain(part):
    """A part of a name: camel case with a small first letter goes, and a type keeps its capitals."""
    return snake(part) if part[:1].islower() else part


antt = files("crates/*/specs/**/*.antt") + files("crates/*/proofs/**/*.antt")
rust = files("crates/*/src/**/*.rt")
own = collections.defaultdict(set)
for f in antt:
    for line in read(f).splitlines():
        m = SIGNATURE.match(line)
        if m and not line.lstrip().startswith("--"):
            n = m.group(1)
            if not ANSWERS.search(f) or (re.search(r"[a-z0-9][A-Z]", n) and "-" not in n):
                own[n].add(f)
# names that others made: what a file brings in from a library, and what a file of src/ calls its parameters, fields and locals
foreign = set()
here = {}
for f in antt + rust:
    text = read(f)
    for path, names in re.findall(r"use ([\w·.+]+)\.\{([^}]*)\}", text):
        if not re.match(r"Rattle\.(?!std\b)", path):
            foreign.update(n.split(" as ")[-1].strip() for n in names.split(","))
    if f.endswith(".rt"):
        text = re.sub(r"//[^\n]*", "", text)
        words = {a or b for a, b in re.findall(r"\b([a-z]\w*)\s*:(?!:)|\blet (?:mut )?([a-z]\w*)", text)}
        cited = {n.strip() for _, names in re.findall(r"ghost use ([\w·.+]+)\.\{([^}]*)\}", text) for n in names.split(",")}
        here[f] = (words, cited)

# a dash may stay between two functions
functions = {"length", "append", "drop", "take", "map", "reverse", "sum", "set", "replicate", "filter", "foldl", "get_or", "tabulate"}
functions |= {n for n, where in own.items() if any("/specs/" in f for f in where) and re.search(r"[a-z][A-Z]|_", n)}
table = {}
for n in own:
    if n in BY_HAND:
        table[n] = BY_HAND[n]
        continue
    parts = n.split("-")
    if len(parts) == 1:
        new = plain(n)
    else:
        whole = all(p in functions or p[:1].isupper() for p in parts)
        new = ("-" if whole else "_").join(plain(p) for p in parts)
        if not whole and parts[0][:1].isupper():
            new = plain(parts[0]) + "-" + "_".join(plain(p) for p in parts[1:])
    if new != n:
        table[n] = new
# names that fall together: the definition of specs/ has the plain name, and a lemma gets _lem
back = collections.defaultdict(list)
for n, new in table.items():
    back[new].append(n)
clash = {}
for new, olds in back.items():
    standing = [new] if new in own and new not in table else []
    shadowed = [f for f, (words, cited) in here.items() if new in words and set(olds) & cited]
    if new in foreign or shadowed or len(olds) + len(standing) > 1:
        clash[new] = (olds, standing, new in foreign, shadowed)
for new, (olds, standing, taken, shadowed) in clash.items():
    each = sorted(olds + standing, key=lambda n: (not any("/specs/" in f for f in own[n]), "-" in n, n))
    for n in each if taken or shadowed else each[1:]:
        table[n] = new + "_lem"

TABLE = os.path.join(os.path.dirname(os.path.abspath(__file__)), "respell.tsv")
if "--table" in sys.argv:
    for n in sorted(table):
        print(n, table[n], "own" if "-" not in n and n == n.lower() else "", sep="\t")
    for new, (olds, *why) in sorted(clash.items()):
        print(new, *[(o, table.get(o), sorted(own[o])[:2]) for o in olds + why[0]], *why, file=sys.stderr)
    raise SystemExit
# names in snake case that give way are names of functions and modules too: those are left, in paths and in src/
table, plain_words = {}, set()
for line in read(TABLE).splitlines():
    n, new, kind = line.split("\t")
    table[n] = new
    if kind:
        plain_words.add(n)


def quoted(text):
    return QUOTED.sub(lambda m: re.sub(r"[^\s(){}.;,@\"\[\]\\`]+", lambda t: table.get(t.group(), t.group()), m.group()), text)


def of_libraries(text):
    """The names that a file brings in from a library: those keep their spelling there."""
    out = set()
    for path, names in re.findall(r"use ([\w·.+]+)\.\{([^}]*)\}", text):
        if not re.match(r"Rattle\.(?!std\b)", path):
            out.update(n.split(" as ")[0].strip() for n in names.split(","))
    return out


def turn_antt(m):
    t = m.group()
    if t.startswith("--"):
        return quoted(t)
    if t.startswith('"') or t in theirs:
        return t
    if t == "long-table" and m.string[m.start() - 1 : m.start()] == ".":
        return t
    if t in plain_words and (m.string[m.start() - 1 : m.start()] == "." or m.string[m.end() : m.end() + 1] == "."):
        return t
    return table.get(t, t)


def turn_rust(m):
    t = m.group()
    if t.startswith("//"):
        return quoted(t)
    return t if t in theirs or t in plain_words or t[:1] in "\"'" or t[:2] in ('b"', "b'") else table.get(t, t)


for f in antt + rust + files("crates/*/must-fail/*.edit"):
    old = read(f)
    theirs = of_libraries(old)
    new = (TOKEN if f.endswith(".antt") else RUST).sub(turn_antt if f.endswith(".antt") else turn_rust, old)
    if new != old:
        with open(f, "w", encoding="utf-8", newline="") as it:
            it.write(new)
for f in files("*.md") + files("docs/**/*.md"):
    old = read(f)
    new = quoted(old)
    if new != old:
        with open(f, "w", encoding="utf-8", newline="") as it:
            it.write(new)
print(len(table), "names")
