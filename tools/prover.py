"""For the checks beside: recorded answers as rows, and tables of claims that the prover computes.

A table is a crate of its own in a temporary folder, beside the definitions that it speaks of: of each crate only the modules
of specs/ that are reached, without code and proofs. So nothing in the repository changes, and nothing else is proved.
"""
import os
import re
import shutil
import subprocess
import sys
import tempfile
from collections import namedtuple

ROOT = os.path.dirname(os.path.dirname(os.path.abspath(__file__)))
ANSWERS = os.path.join(ROOT, "crates", "replay", "stdin")
LEAVES = os.path.join(ROOT, "crates", "leaves", "stdin")

Case = namedtuple("Case", "label service arg room work number line start length text output stats")


# ---- recorded answers: docs/ANSWERS.md says the format


def recorded(path=ANSWERS):
    """the cases of a list of services"""
    cases = listing(path)
    for case in cases:
        if not well_formed(case):
            sys.exit(f"{path}: bad record: {case.service}: {case.label}")
    return cases


def listing(path):
    """the cases of a list, of services or of leaves"""
    data, at, label, cases = open(path, "rb").read(), 0, "", []
    while at < len(data):
        end = data.index(b"\n", at)
        line, at = data[at:end].decode("ascii"), end + 1
        if line.startswith("#"):
            label = line[1:].strip()
        elif line:
            service, *numbers = line.split(" ")
            arg, room, work, number, place, start, length, size, answered, *stats = map(int, numbers)
            text, output = data[at : at + size], data[at + size + 1 : at + size + 1 + answered]
            at += size + answered + 2
            case = Case(label, service, arg, room, work, number, place, start, length, text, output, stats)
            if data[at - 1 : at] != b"\n":
                sys.exit(f"{path}: bad record: {label}: {line}")
            cases.append(case)
    return cases


def well_formed(case):
    """an acceptance has the length of its output and no place, a refusal neither output nor counters"""
    if len(case.stats) != (14 if case.service == "normalize" else 0):
        return False
    if case.number == 0:
        return case.line == case.start == 0 and case.length == len(case.output)
    return not case.output and not any(case.stats)


# ---- the definitions to unfold


def definitions(modules):
    """the modules reached from some modules of specs/ (crate, module), and the names to unfold"""
    reached, waiting, uses, names = set(), list(modules), [], []
    while waiting:
        crate, module = waiting.pop()
        if (crate, module) in reached:
            continue
        reached.add((crate, module))
        source = open(os.path.join(ROOT, "crates", crate, "specs", *module.split(".")) + ".antt").read()
        found = re.findall(r"^use Rattle\.(\w+)\.specs\.(\w+(?:\.\w+)*)", source, re.M)
        waiting += [(crate, module) for crate, module in found if crate in listed()]
        alias = f"{crate}-{module}".replace(".", "-")
        uses.append(f"use Rattle.{crate}.specs.{module} as {alias}")
        names += [f"{alias}.{name}" for name in re.findall(r"^unfoldable pub (\S+) :", source, re.M)]
    return reached, uses, names


# ---- tables of claims


def differing(head, modules, own, claims, chunk):
    """the numbers of the claims, terms of type Bool, that the prover does not find true

    head opens what the claims use and defines the names in own; modules are those of specs/ that compute.
    """
    wrong = failing(head, modules, own, list(enumerate(claims)), chunk)
    if wrong and chunk > 1:
        wrong = failing(head, modules, own, wrong, 1) or sys.exit("claims fail together and hold alone")
    return [number for number, _ in wrong]


def failing(head, modules, own, claims, chunk):
    """the claims of the chunks that are not proved"""
    reached, uses, names = definitions(modules)
    source = "\n".join(uses) + "\n" + head
    source += f"unfoldable computing : Bool\nunfolding {' '.join(names + own)}\ncomputing = true\n\n"
    for at in range(0, len(claims), chunk):
        rows = "\n    ∷ ".join(claim for _, claim in claims[at : at + chunk])
        source += f"rows{at} : List Bool\nrows{at} =\n    {rows}\n    ∷ []\n\n"
        source += f"agree{at} : T (all (λ b. b) rows{at})\nunfolding rows{at} computing\nagree{at} = tt\n\n"
    said, proved = check(source, reached)
    bad = sorted({int(at) for at in re.findall(r"error: `agree(\d+)`", said)})
    if proved == bool(bad):
        sys.exit(f"the prover gives no verdict:\n{said[:4000]}")
    return [claim for at in bad for claim in claims[at : at + chunk]]


def check(source, reached):
    """what the prover says of a module over the reached modules of specs/, and whether it is proved"""
    folder = tempfile.mkdtemp(prefix="claims-")
    try:
        crates = {crate: line for crate, line in listed().items() if any(crate == c for c, _ in reached)}
        for crate in crates:
            modules(folder, crate, {module for c, module in reached if c == crate})
        library(folder, "claims", {"Claims": source}, "// Claims alone.\n#![tactic(auto)]\n\npub fn zero() -> usize {\n    0\n}\n")
        write(f"{folder}/crates.txt", "\n".join([*crates.values(), f"claims: {' '.join(crates)}"]) + "\n")
        run = subprocess.run(
            ["rt", "check"], cwd=f"{folder}/crates/claims", stdout=subprocess.PIPE, stderr=subprocess.STDOUT, text=True
        )
    except FileNotFoundError as error:
        sys.exit(f"the prover did not run: {error}")
    finally:
        shutil.rmtree(folder)
    own = run.stdout.rpartition("fn claims::zero: proved\n")
    return run.stdout, run.returncode == 0 and own[1] != "" and "\nlogic=proved " in own[2]


def listed():
    """the lines of crates.txt, by crate"""
    lines = [line.split("#")[0].replace(" staticlib", "").strip() for line in open(os.path.join(ROOT, "crates.txt"))]
    return {line.partition(":")[0]: line for line in lines if line}


def modules(folder, crate, names):
    """a crate of these modules of its specs/ alone"""
    specs = os.path.join(ROOT, "crates", crate, "specs")
    order = re.findall(r"^pub mod (\S+)", open(f"{specs}/Lib.antt").read(), re.M)
    library(folder, crate, {name: open(f"{specs}/{name}.antt").read() for name in order if name in names}, "// Definitions alone.\n#![tactic(auto)]\n")


def library(folder, crate, specs, code):
    """a crate of these modules of specs/ and this code"""
    for part in ("src", "specs"):
        os.makedirs(f"{folder}/crates/{crate}/{part}")
    write(f"{folder}/crates/{crate}/src/lib.rt", code)
    write(f"{folder}/crates/{crate}/specs/Lib.antt", "".join(f"pub mod {name}\n" for name in specs))
    for name, source in specs.items():
        write(f"{folder}/crates/{crate}/specs/{name}.antt", source)


def write(path, text):
    with open(path, "w") as file:
        file.write(text)
