#!/usr/bin/env python3
"""Lists the places of src/ that are written in an older form of the language, point by point.

usage: python3 tools/forms.py [COMMIT] [-l]

Reads the working tree, or a commit; -l lists each place, else only their numbers are printed. The points are those of
docs/DESIGN-PASS.md. The rules are plain patterns: they find candidates, and a reader decides.
"""
import collections
import os
import re
import subprocess
import sys


def sources(commit):
    if commit is None:
        for folder, _, names in os.walk("crates"):
            for name in names:
                path = os.path.join(folder, name)
                if "/out/" not in path:
                    yield path
        return
    listing = subprocess.run(["git", "ls-tree", "-r", "--name-only", commit, "crates"], capture_output=True, text=True, check=True)
    yield from listing.stdout.split()


def text_of(commit, path):
    if commit is None:
        with open(path, encoding="utf-8") as file:
            return file.read()
    return subprocess.run(["git", "show", f"{commit}:{path}"], capture_output=True, text=True, check=True).stdout


LINES = {
    "1 kinds or tags told by numbers": r"^\s+(\d+|_) => Kind::|kind_number|kind_of\(|\bkind as u(8|size)|KINDS\b",
    "1 a flag or a count beside a value": r"-> \(\w+, (usize|bool)\)|\[\((usize|u16), bool\)\]|, bool\), ",
    "1 an answer taken apart by hand": r"None => (unreachable|None|Ok|return)|Err\(_\) =>|^\s+Ok\(\(\)\) =>|let _ = .*fill|\.ok\(\)$",
    "3 loops over an index": r"\bwhile\b|\bfor \w+ in [^{]*\.\.",
    "3 counters": r"^\s+\w+ \+= \d+;|\b(\w+) = \1\.(saturating|wrapping)_add\(1\)|\bk = \w+_after",
    "4 conversions by hand": r"256 \*|/ 256|% 256|push_two|fn pair\(|put_pair\(|as u(8|16)\b(?!;? *//)",
    "4 printing by hand": r"to_string\(heap\)\?\.as_str\(\)|fn \w+_text\(|fn (kind|cell)_line\(|let (cause|layer|place) = ",
    "6 a buffer with a length or a place beside it": r"fn \w+.*(bytes|out|values|rest|file): &(mut )?\[[^\]]*\], (at|len|size|count|from): |wide: usize|width: u8",
    "7 a switch on a step": r"match (place|width|asked|self) \{$|k % 2 == 0",
}


def functions(text):
    """The name, the signature with its clauses, and the body of each function."""
    for found in re.finditer(r"^( *)(?:pub(?:\(crate\))? )?fn (\w+)", text, re.M):
        rest = text[found.start() :]
        brace = re.search(r"^%s\{\}?$| \{$" % found.group(1), rest, re.M)
        stop = re.search(r";$", rest, re.M)
        if not brace or (stop and stop.start() < brace.start()):
            yield found.group(2), rest[: stop.start()] if stop else rest, ""
            continue
        end = re.search(r"^%s\{?\}$" % found.group(1), rest, re.M)
        yield found.group(2), rest[: brace.start()], rest[brace.start() : end.end() if end else len(rest)]


def shape(body):
    """The body with one mark for every name, number and text."""
    return re.sub(r"\b\w+\b", "x", re.sub(r"\s+", " ", re.sub(r'"[^"]*"', "x", body))).strip()


def main():
    words = [w for w in sys.argv[1:] if not w.startswith("-")]
    commit = words[0] if words else None
    found = collections.defaultdict(list)
    bodies = collections.defaultdict(list)
    consts = collections.defaultdict(list)
    structs = collections.defaultdict(list)
    clauses = collections.defaultdict(list)
    groups = collections.defaultdict(list)
    answers = lemmas = lines = 0
    for path in sorted(sources(commit)):
        parts = path.split("/")
        if len(parts) > 2 and parts[2] == "proofs" and path.endswith(".antt"):
            text = text_of(commit, path)
            lines += text.count("\n")
            if parts[-1] == "Answers.antt":
                answers += len(re.findall(r"^pub \S+ :", text, re.M))
            elif parts[-1] not in ("Invariants.antt", "Lib.antt"):
                lemmas += len(re.findall(r"^ {0,2}(?:abbrev )?(?:pub )?[a-z]\S* :", text, re.M))
        if len(parts) < 4 or parts[2] != "src" or not path.endswith(".rt"):
            continue
        text = text_of(commit, path)
        for number, line in enumerate(text.split("\n"), 1):
            if line.strip().startswith(("//", "ghost use")):
                continue
            for point, pattern in LINES.items():
                if re.search(pattern, line):
                    found[point].append(f"{path}:{number}: {line.strip()}")
        for name, value in re.findall(r"^(?:pub(?:\(crate\))? )?(?:const|static) (\w+): [^=]+= ([^;]+);", text, re.M):
            consts[(name, re.sub(r"\s+", " ", value))].append(path)
        for name, fields in re.findall(r"struct (\w+)[^{;]*\{([^}]*)\}", text):
            structs[re.sub(r"\s+|pub |//[^\n]*|ghost[^;]*", "", fields)].append(f"{path}: {name}")
        for name, head, body in functions(text):
            where = f"{path}: {name}"
            if len(shape(body)) > 26:
                bodies[shape(body)].append(where)
            for clause in re.findall(r"(?:requires|ensures)[^{\n]*\{ (.*) \}", head):
                if len(clause) > 12 and "result" not in clause:
                    clauses[(parts[1], clause)].append(where)
            params = re.findall(r"(\w+): (&?(?:mut )?[\w<>\[\]&' ]+)", head.split("->")[0].split("requires")[0])
            for a in range(len(params)):
                for b in range(a + 1, len(params)):
                    groups[(parts[1], params[a], params[b])].append(where)
    for table, point in ((bodies, "2 functions of one shape"), (consts, "2 constants said twice"), (structs, "2 structs of one shape")):
        for key, places in table.items():
            if len(places) > 1 and (point[2] != "s" or key):
                found[point].append("  ".join(places))
    for table, point in ((clauses, "5 a fact in three or more contracts"), (groups, "5 parameters that travel together")):
        for key, places in table.items():
            if len(places) > 2:
                found[point].append(f"{key[0]}: {' | '.join(str(k) for k in key[1:])}: {len(places)}")
    for point in sorted(set(LINES) | set(found)):
        print(f"{point}: {len(found[point])}")
        if "-l" in sys.argv:
            for place in found[point]:
                print("   ", place)
    print(f"8 answers: {answers}\n8 lemmas: {lemmas}\n8 lines of proofs: {lines}")


main()
