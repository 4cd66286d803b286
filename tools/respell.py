#!/usr/bin/env python3
"""Spells the repository's own definitions and lemmas as its toolchain's guides do.

usage: python3 tools/respell.py        at the top; once, right after the toolchain's own script

Words are in snake case, types and facts in upper camel case. Names are taken from specs/ and from the lemma files of
proofs/; names of goals and of their steps are not touched, nor are functions of src/, strings and comments of src/.
"""
import collections
import os
import re
import sys

HEAD = re.compile(r"^(\s*)((?:abbrev |pub |unfoldable |record |data )*)([^\s:(){};,.=λ]+)\s*((?:\{[^}]*\}\s*|\([^)]*\)\s*)*):(?![:=])")
TOKEN = re.compile(r"[^\s(){};,.⟦⟧]+")
# Names that the plain rule would let fall together, or that it cannot spell.
OWN = {
    # facts that would have the name of a module
    "Ghpc-accepted": "GhpcIsAccepted",
    "Low-latency-accepted": "LowLatencyIsAccepted",
    "Ghpc-lawful": "GhpcIsLawful",
    "Low-latency-lawful": "LowLatencyIsLawful",
    "Ghpc-counts": "GhpcHasCounts",
    "Low-latency-counts": "LowLatencyHasCounts",
    "Ghpc-by-wire": "GhpcStandsByWire",
    "Low-latency-by-wire": "LowLatencyStandsByWire",
    # other names of modules, in the files that import them
    "low-latency": "low_latency",
    "ghpc-wires": "ghpc_wires",
    "low-latency-wires": "low_latency_wires",
    "ghpc-places": "ghpc_places",
}
# In one crate alone: names of a single letter, which elsewhere are variables.
FIELDS = set()
LETTERS = {("ghpc", "N"): "argument_count", ("construction", "N"): "argument_count"}


def files(ending, folder=None):
    for d, ds, fs in os.walk("crates"):
        ds[:] = sorted(x for x in ds if x != "out")
        for f in sorted(fs):
            p = os.path.join(d, f)
            if f.endswith(ending) and (folder is None or p.split(os.sep)[2] == folder):
                yield p


def names():
    found = collections.defaultdict(set)
    for p in files(".antt"):
        for line in open(p, encoding="utf-8"):
            m = HEAD.match(line)
            if m and not re.search(r":\s*(goal|need|given)\.", line):
                found[m.group(3)].add(p)
                if m.group(1) and "pub" in m.group(2) and "abbrev" not in m.group(2):
                    FIELDS.add(m.group(3))
    return found


def respelled(name):
    if name in OWN:
        return OWN[name]
    if "-" not in name or not re.match(r"[A-Za-z]", name):
        return name
    if name[0].isupper():
        return "".join(w[:1].upper() + w[1:] for w in re.split("[-_]", name))
    return name.replace("getD", "get_or").replace("-", "_")


def turn(text, table):
    def one(m):
        word = m.group(0)
        return table.get(word, word)

    return TOKEN.sub(one, text)


def turn_antt(text, table):
    out = []
    for line in text.split("\n"):
        code, mark, said = line.partition("-- ") if not line.startswith("--") else ("", line, "")
        # a goal's name, and a step's name below c, w or l, are the toolchain's
        parts = re.split(r"((?:goal|need|given)\.(?:at\.)?[^\s(){};,.]+|\b[cwl]\.[^\s(){};,.]+)", code)
        code = "".join(p if i % 2 and p.split(".")[-1] not in FIELDS else turn(p, table) for i, p in enumerate(parts))
        if re.match(r"\s*(pub )?[^\s]+ : (goal|need)\.", line):
            code = line
            mark = said = ""
        out.append(code + mark + said)
    return "\n".join(out)


def turn_rt(text, table):
    out = []
    for line in text.split("\n"):
        if not line.lstrip().startswith("//"):
            parts = re.split(r'("(?:[^"\\]|\\.)*")', line)
            line = "".join(p if i % 2 else turn(p, table) for i, p in enumerate(parts))
        out.append(line)
    return "\n".join(out)


def main():
    found = names()
    table = {n: respelled(n) for n in list(found) + list(OWN) if respelled(n) != n}
    new = collections.defaultdict(set)
    for n in set(found) | set(table):
        new[table.get(n, n)].add(n)
    clash = {k: v for k, v in new.items() if len(v) > 1}
    if clash or "--dry" in sys.argv:
        for k, v in sorted(clash.items()):
            print(k, {n: sorted(found[n]) for n in v})
        print(len(table), "names,", len(clash), "that fall together")
        return len(clash) > 0
    for p in list(files(".antt")) + list(files(".rt")):
        with open(p, encoding="utf-8") as f:
            text = f.read()
        here = dict(table)
        for (crate, letter), word in LETTERS.items():
            if p.split(os.sep)[1] == crate:
                here[letter] = word
        done = (turn_antt if p.endswith(".antt") else turn_rt)(text, here)
        if done != text:
            with open(p, "w", encoding="utf-8") as f:
                f.write(done)
    return 0


sys.exit(main())
