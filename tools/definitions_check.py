#!/usr/bin/env python3
"""Holds our definitions to recorded answers: the prover computes each case and compares.

usage:  python3 tools/definitions_check.py [FILE]

FILE is a list of calls of the services. Without one they are those of crates/replay/stdin, answered by the original Rust, and
of crates/leaves/stdin the leaves that a definition answers. Every case is computed: every byte of an answer, every counter, every
field of a refusal. Status 1, with the label of each case that differs, unless all agree.
"""
import sys

sys.dont_write_bytecode = True
import prover

# Where the definitions of the services stand: (crate, module of its specs) and the names taken from it.
USES = {
    ("gfa_spec", "Bytes"): "same, last_difference, all",
    ("gfa_spec", "Sums"): "name_sum",
    ("gfa_spec", "Calls"): "Refusal, Outcome, answer",
    ("gfa_spec", "Services"): "spell_path",
    ("normalize_spec", "Counting"): "Stats",
    ("normalize_spec", "Services"): "Normal, normal, normalize",
    ("report_spec", "Services"): "report_text",
}
SERVICES = {"report": "report_text", "normalize": "normalize", "spell": "spell_path"}
CHUNK = 20

COUNTERS = """
    input_direct_self_loop_edges output_direct_self_loop_edges
    input_adjacent_same_node_path_steps output_adjacent_same_node_path_steps
    input_adjacent_same_step_path_steps output_adjacent_same_step_path_steps
    normalized_nodes collapsed_runs created_segments added_links removed_self_loop_links
    paths_changed path_steps_before path_steps_after
""".split()

HEAD = """
use Rattle.std.specs.Prelude.{ℕ, Bool, true, false, not, ◌&&◌, List, [], ◌∷◌, T, eqb}
use Rattle.std.specs.Prelude.{Option, None, Some}
USES

counters : Stats → List ℕ
counters s = COUNTERS

refuses : ℕ → ℕ → ℕ → ℕ → Refusal → Bool
refuses n l f k r = eqb n r.number && eqb l r.line && eqb f r.from && eqb k r.length

normal-is : List ℕ → List ℕ → Normal → Bool
normal-is out st (Normal.refusal r) = false
normal-is out st (normal text s) = same out text && same st (counters s)

normal-refuses : ℕ → ℕ → ℕ → ℕ → Normal → Bool
normal-refuses n l f k (Normal.refusal r) = refuses n l f k r
normal-refuses n l f k (normal text s) = false

answer-is : List ℕ → Outcome → Bool
answer-is out (Outcome.refusal r) = false
answer-is out (answer bs) = same out bs

answer-refuses : ℕ → ℕ → ℕ → ℕ → Outcome → Bool
answer-refuses n l f k (Outcome.refusal r) = refuses n l f k r
answer-refuses n l f k (answer bs) = false

is-place : ℕ → Option ℕ → Bool
is-place i None = false
is-place i (Some k) = eqb i k

is-none : Option ℕ → Bool
is-none None = true
is-none (Some k) = false

"""
OWN = ["counters", "refuses", "normal-is", "normal-refuses", "answer-is", "answer-refuses", "is-place", "is-none"]


def head():
    uses = "\n".join(f"use Rattle.{crate}.specs.{module}.{{{names}}}" for (crate, module), names in USES.items())
    return HEAD.replace("USES", uses).replace("COUNTERS", numbers("s." + name for name in COUNTERS))


def numbers(values):
    return "(" + " ∷ ".join([*map(str, values), "[]"]) + ")"


def claim(case):
    """what is to be found true of a case"""
    call = f"({SERVICES[case.service]} {numbers(case.text)} {case.arg} {case.room} {case.work})"
    kind = "normal" if case.service == "normalize" else "answer"
    if case.number != 0:
        return f"{kind}-refuses {case.number} {case.line} {case.start} {case.length} {call}"
    counters = numbers(case.stats) if kind == "normal" else ""
    return f"{kind}-is {numbers(case.output)} {counters} {call}"


def sum_claim(case):
    """what is to be found true of a case of the leaf name_sum: its number is the sum"""
    return f"eqb {case.number} (name_sum {numbers(case.text)})"


def difference_claim(case):
    """what is to be found true of a case of the leaf last_difference: its numbers are whether the two are the same, whether a place was
    found, and which; of two lengths no place is asked for"""
    first, second = case.text[: case.arg], case.text[case.arg :]
    pair = f"{numbers(first)} {numbers(second)}"
    equal = f"same {pair}" if case.number else f"not (same {pair})"
    if len(first) != len(second):
        return equal
    place = f"is-place {case.start}" if case.line else "is-none"
    return f"({equal} && {place} (last_difference {pair}))"


# The leaves that a definition answers.
LEAVES = {"last_difference": difference_claim, "name_sum": sum_claim}


def main():
    if sys.argv[1:2] in (["-h"], ["--help"]) or len(sys.argv) > 2:
        sys.exit(__doc__)
    cases = prover.recorded(*sys.argv[1:])
    claims = [claim(case) for case in cases]
    if len(sys.argv) == 1:
        leaves = [case for case in prover.listing(prover.LEAVES) if case.service in LEAVES]
        cases, claims = cases + leaves, claims + [LEAVES[case.service](case) for case in leaves]
    if not cases:
        sys.exit("definitions_check: no case was read")
    wrong = prover.differing(head(), list(USES), OWN, claims, CHUNK)
    for number in wrong:
        print(f"differs: {cases[number].service}: {cases[number].label}")
    if wrong:
        sys.exit(f"definitions_check: {len(cases) - len(wrong)} cases agree, {len(wrong)} differ")
    print(f"definitions_check: {len(cases)} cases agree")


main()
