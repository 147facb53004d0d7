#!/usr/bin/env python3
"""Runs the two programs on inputs beside their stored ones, and compares what they print. Both must be built: rt run in the folder of each."""
import subprocess
import sys

LISTING = b"S\t1\tAC\nL\t1\t+\t1\t+\t0M\nP\tp\t1+,1+,1+\t*\n"
FOLDED = b"S\t1\tAC\nS\t2\tACACAC\nP\tp\t2+\t*\n"
TOTALS = b"".join(
    name + b"=0\n"
    for name in [
        b"direct_self_loop_edges",
        b"direct_self_loop_nodes",
        b"adjacent_same_node_path_steps",
        b"adjacent_same_step_path_steps",
        b"repeated_path_runs",
        b"max_repeat_run_len",
    ]
)


def refusal(number, line=0, start=0, length=0):
    return b"refused=%d\nline=%d\nfrom=%d\nlength=%d\n" % (number, line, start, length)


def long_text(size):
    """A text of so many bytes that has no record."""
    return (b"#" * 63 + b"\n") * (size // 64) + b"#" * (size % 64)


# A sequence whose fold needs more than the 16,384 bytes that the programs lend.
WIDE = b"S\t1\t" + b"A" * 1000 + b"\nL\t1\t+\t1\t+\t0M\nP\tp\t" + b",".join([b"1+"] * 20) + b"\n"

CASES = [
    # program, what it is, input, output
    ("gfa_report", "empty text", b"", TOTALS),
    ("gfa_report", "CRLF", b"H\tVN:Z:1.0\r\n", TOTALS),
    ("gfa_report", "a refused line", b"H\nS\t1\n", refusal(5, line=2)),
    ("gfa_report", "a byte of 128", b"#\x80", refusal(2, start=1)),
    ("gfa_report", "a lone carriage return", b"#\r", refusal(3, start=1)),
    ("gfa_report", "2,048 bytes", long_text(2048), TOTALS),
    ("gfa_report", "2,049 bytes", long_text(2049), refusal(1)),
    ("gfa_report", "many bytes", long_text(100000), refusal(1)),
    ("gfa_normalize", "the listing", LISTING, FOLDED),
    ("gfa_normalize", "the listing with CRLF", LISTING.replace(b"\n", b"\r\n"), FOLDED),
    ("gfa_normalize", "nothing to fold, CRLF", b"S\t1\tAC\r\n", b"S\t1\tAC\r\n"),
    ("gfa_normalize", "empty text", b"", b""),
    ("gfa_normalize", "an unknown step", LISTING + b"P\tq\t9+\t*\n", refusal(18, start=39, length=1)),
    ("gfa_normalize", "a step without sequence", LISTING + b"S\tx\t*\nP\tq\tx-\n", refusal(19, start=45, length=1)),
    ("gfa_normalize", "a refused line", b"L\t1\n", refusal(7, line=1)),
    ("gfa_normalize", "an answer of more than 16,384 bytes", WIDE, refusal(22)),
    ("gfa_normalize", "2,048 bytes", long_text(2048), long_text(2048)),
    ("gfa_normalize", "2,049 bytes", long_text(2049), refusal(1)),
]

differ = 0
for program, what, given, wanted in CASES:
    found = subprocess.run([f"crates/{program}/out/{program}"], input=given, capture_output=True, check=False)
    if found.returncode != 0 or found.stdout != wanted:
        differ += 1
        print(f"{program}, {what}: status {found.returncode}, printed {found.stdout[:200]!r}, not {wanted[:200]!r}")
print(f"programs: {len(CASES)} inputs, {differ} differ")
sys.exit(differ > 0)
