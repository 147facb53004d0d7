#!/usr/bin/env python3
"""Holds specs/Gfa1 to the expressions of the GFA specification as Python's `re` matches them.

usage:  python3 tools/gfa1_crosscheck.py

Lines come from examples/*.gfa, from the texts of crates/replay/stdin, and from both mutated with a fixed seed; and each of a
list of values stands in a tag of each type. For each line the prover computes whether 1.0 and 1.1 allow it, the first column
that breaks its expression, whether a segment name holds a comma, and the record that it states, its tags judged or not.
Status 1 unless all agree, or where too few lines, or too few tags of a type, are allowed or refused.
"""
import glob
import os
import random
import re
import sys
from collections import Counter

sys.dont_write_bytecode = True
import prover

# Where the grammar stands: (crate, module of its specs) and the names taken from it.
USES = {
    ("gfa_spec", "Bytes"): "bytes, same, all, join",
    ("gfa_spec", "Gfa1"): "Visit, Record, allows_untagged, allows, allows10, first_broken, states, no_comma",
}
SEED, REAL, MUTATED, ENOUGH, LONGEST, CHUNK, SHOWN = 7, 300, 150, 50, 90, 50, 20

HEAD = """
use Rattle.std.specs.Prelude.{ℕ, Bool, true, false, not, ◌&&◌, List, [], ◌∷◌, ◌++◌, map, T, eqb}
use Prim.Native.String.{String}
use Rattle.std.specs.Prelude.{Option, None, Some}
use Rattle.gfa_spec.specs.Options.{map_or}
USES

visit_texts : Visit → List (List ℕ)
visit_texts v = v.name ∷ (v.orientation ∷ []) ∷ []

record_texts : Option Record → List (List ℕ)
record_texts None = []
record_texts (Some (Record.segment name sequence tags)) = name ∷ sequence ∷ tags
record_texts (Some (Record.link from from_orientation to to_orientation overlap tags)) =
    from ∷ (from_orientation ∷ []) ∷ to ∷ (to_orientation ∷ []) ∷ overlap ∷ tags
record_texts (Some (Record.path name visits overlaps tags)) = name ∷ (join (map visit_texts visits) ++ (overlaps ∷ tags))
record_texts (Some (Record.walk sample haplotype sequence start end steps visits tags)) =
    sample ∷ haplotype ∷ sequence ∷ start ∷ end ∷ steps ∷ (join (map visit_texts visits) ++ tags)

same_all : List (List ℕ) → List (List ℕ) → Bool
same_all [] [] = true
same_all [] (y ∷ ys) = false
same_all (x ∷ xs) [] = false
same_all (x ∷ xs) (y ∷ ys) = same x y && same_all xs ys

is : Bool → Bool → Bool
is true b = b
is false b = not b

same_number : Option ℕ → Option ℕ → Bool
same_number None None = true
same_number None (Some n) = false
same_number (Some m) None = false
same_number (Some m) (Some n) = eqb m n

-- allowed by 1.1; by 1.0 too; no comma in a segment name; the record's texts
allowed : Bool → Bool → String → List String → Bool
allowed older plain l texts =
    allows (bytes l) && is older (allows10 (bytes l)) && is plain (no_comma (bytes l))
    && same_number (first_broken (bytes l)) None && same_all (record_texts (states (bytes l))) (map bytes texts)

-- not allowed, and the first column that is missing or breaks its expression
broken : ℕ → String → Bool
broken k l = not (allows (bytes l)) && not (allows10 (bytes l)) && same_number (first_broken (bytes l)) (Some k)

-- that column is required: no record is stated
refused : ℕ → String → Bool
refused k l = broken k l && not (allows_untagged (bytes l)) && same_all (record_texts (states (bytes l))) []

-- that column is a tag: the record is stated all the same
mistagged : ℕ → Bool → String → List String → Bool
mistagged k plain l texts =
    broken k l && allows_untagged (bytes l) && is plain (no_comma (bytes l)) && same_all (record_texts (states (bytes l))) (map bytes texts)

"""
OWN = ["visit_texts", "record_texts", "same_all", "is", "same_number", "allowed", "broken", "refused", "mistagged"]

# ---- the specification

NAME = r"[!-)+-<>-~][!-~]*"
CIGAR = r"(\*|([0-9]+[MIDNSHPX=])+)"
POSITION = r"\*|[0-9]+"


def matches(expression):
    return lambda field: re.fullmatch(expression, field) is not None


def is_segment_name(field):
    return matches(NAME)(field) and not re.search(r"[+-],", field)


def items(field):
    return re.split(r"(?<=[+-]),", field)


def are_items(field):
    return all(re.fullmatch(rf"({NAME})[+-]", item) for item in items(field))


EXPRESSIONS = {
    "S": [is_segment_name, matches(r"\*|[A-Za-z=.]+")],
    "L": [is_segment_name, matches(r"[+-]"), is_segment_name, matches(r"[+-]"), matches(CIGAR)],
    "P": [matches(NAME), are_items, matches(f"{CIGAR}(,{CIGAR})*")],
    "W": [
        matches(NAME),
        matches("[0-9]+"),
        matches(NAME),
        matches(POSITION),
        matches(POSITION),
        matches(r"([><][!-;=?-~]+)+"),
    ],
}
FLOAT = r"[-+]?[0-9]*\.?[0-9]+([eE][-+]?[0-9]+)?"
VALUES = {
    "A": r"[!-~]",
    "i": r"[-+]?[0-9]+",
    "f": FLOAT,
    "Z": r"[ !-~]+",
    "J": r"[ !-~]+",
    "H": r"[0-9A-F]+",
    "B": rf"[cCsSiIf](,{FLOAT})+",
}
is_tag = matches("|".join(f"([A-Za-z][A-Za-z0-9]:{letter}:({value}))" for letter, value in VALUES.items()))


def broken(line):
    """the first column, from 1, that is missing or does not match; 0 where there is none"""
    columns = line.split("\t")
    if columns[0] not in EXPRESSIONS:
        return 1
    tests = EXPRESSIONS[columns[0]]
    for k, test in enumerate(tests, 1):
        if k >= len(columns) or not test(columns[k]):
            return k + 1
    for k in range(len(tests) + 1, len(columns)):
        if not is_tag(columns[k]):
            return k + 1
    return 0


def required(line):
    """how many columns a line must have, its letter with them"""
    return 1 + len(EXPRESSIONS.get(line.split("\t")[0], []))


def record(line):
    """the segment names of a line whose required columns match, and the texts of its record"""
    c = line.split("\t")
    if c[0] == "S":
        return [c[1]], c[1:]
    if c[0] == "L":
        return [c[1], c[3]], c[1:]
    if c[0] == "P":
        visits = [(item[:-1], item[-1]) for item in items(c[2])]
        return [name for name, _ in visits], [c[1]] + [x for v in visits for x in v] + c[3:]
    visits = [(step[1:], "+" if step[0] == ">" else "-") for step in re.findall(r"[><][^><]+", c[6])]
    return [name for name, _ in visits], c[1:7] + [x for v in visits for x in v] + c[7:]


# ---- the lines


def sort_of(line):
    first = line.split("\t")[0]
    return first if first in EXPRESSIONS else "other"


def collected():
    """the short lines of printable bytes and tabs in the examples and the recorded texts"""
    texts = [open(name, "rb").read() for name in glob.glob(os.path.join(prover.ROOT, "examples", "*.gfa"))]
    texts += [case.text for case in prover.recorded()]
    lines = {line for text in texts for line in text.decode("latin-1").replace("\r\n", "\n").split("\n")}
    return sorted(line for line in lines if len(line) <= LONGEST and re.fullmatch(r"[\t -~]+", line))


# Values of tags, each tried with each type.
TRIED = """|~| |a b|{"a":[1,2]}|0|-07|+1|-|+|12a|1 |1.5|.5|-.5|5.|.|1.2.3|1e5|1E-5|+1.5e+07|.5E1|1e|e5|1e.5|1e2E3|1E2e3|1e2e3|--1
0AF|af|0x1F|c,1|C,1,-2|s,1|S,|i|I,1,|f,1.5,-.5e3,+7|f,1.,2|x,1|cC,1|c 1|,1|c,,1|B,1""".replace("\n", "|").split("|")


def tagged():
    """lines with a tag of each type and each value, one line in three with another before it"""
    pairs = [(letter, value) for letter in "AifZJHBx" for value in TRIED]
    return ["S\ta\tA" + "\tzz:i:-1" * (k % 3 == 0) + f"\tx{k % 10}:{letter}:{value}" for k, (letter, value) in enumerate(pairs)]


def mutated(line):
    bs = list(line)
    for _ in range(random.randint(1, 2)):
        at, byte, what = random.randrange(len(bs) + 1), random.choice("\t+-,*=><:MS0 aZ~.eif"), random.random()
        if what < 0.4 or not bs:
            bs.insert(at, byte)
        elif what < 0.7:
            del bs[min(at, len(bs) - 1)]
        else:
            bs[min(at, len(bs) - 1)] = byte
    return "".join(bs)


def lines():
    """some of the real lines, and mutated ones, as many of each sort of record"""
    random.seed(SEED)
    real = collected()
    good = {sort: [line for line in real if sort_of(line) == sort and not broken(line)] for sort in EXPRESSIONS}
    changed = [mutated(random.choice(good[sort])) for sort in EXPRESSIONS for _ in range(MUTATED)]
    tags = tagged()
    changed += [mutated(random.choice([tag for tag in tags if not broken(tag)])) for _ in range(MUTATED)]
    return random.sample(real, min(REAL, len(real))) + changed + tags


# ---- the claims


def quoted(text):
    return '"' + text.replace("\\", "\\\\").replace('"', '\\"').replace("\t", "\\t") + '"'


def truth(value):
    return "true" if value else "false"


def claim(line):
    if broken(line) and broken(line) <= required(line):
        return f"refused {broken(line)} {quoted(line)}"
    names, texts = record(line)
    plain = not any("," in name for name in names)
    listed = " ∷ ".join([*map(quoted, texts), "[]"])
    if broken(line):
        return f"mistagged {broken(line)} {truth(plain)} {quoted(line)} ({listed})"
    return f"allowed {truth(line[0] != 'W')} {truth(plain)} {quoted(line)} ({listed})"


def main():
    chosen = lines()
    uses = "\n".join(f"use Rattle.{crate}.specs.{module}.{{{names}}}" for (crate, module), names in USES.items())
    wrong = prover.differing(HEAD.replace("USES", uses), list(USES), OWN, [claim(line) for line in chosen], CHUNK)
    for number in wrong[:SHOWN]:
        print(f"differs: {claim(chosen[number])}")
    verdicts = Counter((sort_of(line), "refused" if broken(line) else "allowed") for line in chosen)
    for sort in [*EXPRESSIONS, "other"]:
        print(f"{sort}: {verdicts[sort, 'allowed']} allowed, {verdicts[sort, 'refused']} refused")
    for verdict in ("allowed", "refused"):
        if sum(verdicts[sort, verdict] for sort in EXPRESSIONS) < ENOUGH:
            sys.exit(f"gfa1_crosscheck: fewer than {ENOUGH} records are {verdict}")
    for letter in VALUES:
        judged = Counter(bool(broken(line)) for line in tagged() if line.split("\t")[-1][3] == letter)
        if judged[False] < 1 or judged[True] < 1:
            sys.exit(f"gfa1_crosscheck: the tags of type {letter} are all allowed or all refused")
    if wrong:
        sys.exit(f"gfa1_crosscheck: {len(chosen) - len(wrong)} lines agree, {len(wrong)} differ")
    print(f"gfa1_crosscheck: {len(chosen)} lines agree")


main()
