#!/usr/bin/env python3
"""Counts, in crates/ at each COMMIT, the places of docs/DESIGN-PASS.md, and lists twins: usage: places.py COMMIT..

A row is a point, what is counted, and an expression: over lines of src/ that are no comment and no clause, or, where it is marked *, over whole files.
Twins are functions whose parameters and bodies have the same shape, names and numbers apart, and structs with the same fields, integers being alike.
"""
import re
import subprocess
import sys

ROWS = [
    ("1", "enums", r"^(pub )?enum "),
    ("1", "own enums taken apart by let .. else", r"let [A-Z][A-Za-z]*::[A-Z][A-Za-z]*\(?.*= .*else"),
    ("1", "refusals by number", r"(plain|refused|Refused|Bad|fail|read)\([^)]*\b([1-9]|1[0-9]|2[0-2])\b|return (Spelt|Checked|Added|Bad|Steps)::"),
    ("1", "tests of a sign's number", r"== 4[35]|!= 4[35]"),
    ("3", "while", r"^\s*while "),
    ("3", "indices counted by hand", r"^\s*[a-z]+ \+= 1;"),
    ("3", "for", r"^\s*for "),
    ("4", "derived equality", r"derive\(.*PartialEq"),
    ("4", "casts*", r"\bas (usize|u64|u32|u8)\b"),
    ("5", "a limit beside a buffer", r"\blimit: usize"),
    ("5", "at ≤ limit asked for*", r"requires .*at ≤ limit"),
    ("5", "the text as a parameter*", r"\btext: &\[u8\]"),
    ("5", "the work area, only read*", r"\bwork: &\[u32\]"),
    ("5", "the work area, written*", r"\bwork: &mut \[u32\]"),
    ("5", "clauses that ask Readable*", r"requires .*Readable "),
    ("5", "clauses that ask Named, Rewritable, Relinkable or Markable*", r"requires .*\b(Named|Rewritable|Relinkable|Markable) "),
    ("5", "clauses that ask Stage*", r"requires .*\bStage "),
    ("6", "a start with a length beside it*", r"\b(from|start|name|a|c|id|at): usize,\s*(n|size|length|long|a_size|k): usize"),
    ("7", "chains that compare a name", r"(name|service|which) == "),
]
KEPT = "fn pub let mut if else match for in while return impl struct enum Some None Ok Err self Self usize u64 u32 u8 bool true false".split()


def git(*words):
    return subprocess.run(["git", *words], capture_output=True, text=True, check=True).stdout


def sources(commit, pattern):
    names = git("ls-tree", "-r", "--name-only", commit, "crates").split()
    return {name: git("show", f"{commit}:{name}") for name in names if re.fullmatch(pattern, name)}


def counted(what, expression, files):
    if what.endswith("*"):
        return sum(len(re.findall(expression, text)) for text in files.values())
    code = [line for text in files.values() for line in text.split("\n") if not re.match(r"\s*(//|requires|ensures|ghost)", line)]
    return sum(1 for line in code if re.search(expression, line))


def twins(files):
    functions, structs = {}, {}
    for name, text in files.items():
        text = re.sub(r"//.*", "", text)
        for found in re.finditer(r"(?m)^( *)(?:pub )?fn (\w+)((?:.|\n)*?)\n\1\{\n((?:.|\n)*?)\n\1\}", text):
            arguments = re.split(r"\n *(?:requires|ensures)", found.group(3))[0]
            words = re.findall(r"\w+|[^\w\s]", arguments + " { " + found.group(4))
            shape = " ".join(w if w in KEPT or not re.match(r"\w", w) else "0" if w[0].isdigit() else "x" for w in words)
            functions.setdefault(shape, []).append(f"{name}:{found.group(2)}")
        for found in re.finditer(r"(?m)^(?:pub )?struct (\w+)[^{(;]*(?:\(([^)]*)\);|\{((?:.|\n)*?)\n\})", text):
            shape = re.sub(r"\bpub |\s", "", re.sub(r"\b(usize|u64|u32)\b", "n", found.group(2) or found.group(3) or ""))
            structs.setdefault(shape, []).append(f"{name}:{found.group(1)}")
    for kind, groups in (("functions", functions), ("structs", structs)):
        alike = sorted(sorted(group) for group in groups.values() if len(group) > 1)
        print(f"2 twins, {kind}: {len(alike)} groups, {sum(map(len, alike))} in them")
        for group in alike:
            print("    " + "  ".join(group))


for commit in sys.argv[1:] or ["HEAD"]:
    files = sources(commit, r"crates/[^/]*/src/.*\.rt")
    print(f"== {commit}: {sum(text.count(chr(10)) for text in files.values())} lines of src/")
    for point, what, expression in ROWS:
        print(f"{point} {what}: {counted(what, expression, files)}")
    for kind in ("Answers", "Invariants"):
        proofs = sources(commit, rf"crates/.*/proofs/.*/{kind}\.antt")
        print(f"8 files {kind}.antt: {len(proofs)}, of {sum(text.count(chr(10)) for text in proofs.values())} lines")
    twins(files)
