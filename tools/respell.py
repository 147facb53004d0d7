#!/usr/bin/env python3
"""Brings the names of the repository's own definitions and lemmas to snake case: `segmentNo` and `append-sorted` become
`segment_no` and `append_sorted`. It was run once, after the toolchain's own script, and stands here for whoever compares the
texts of before and after. Run at the top of the repository; it rewrites specs/, proofs/, clauses, must-fail edits, tools and pages in place.

Names of src/, types, modules, goals' names and the library's names stay. FALL_TOGETHER names what would have got a name that was taken."""
import os
import re

# Laws whose new name would be that of a definition, and two names that the toolchain's script left halfway.
FALL_TOGETHER = {
    "allows-untagged": "allowed_untagged",
    "base-name": "base_name_plain",
    "ends-item": "ends_item_bytes",
    "first-number": "successor_not_zero",
    "kind-word": "kind_of_word",
    "last_byte": "last_byte_split",
    "new-ids": "new_ids_taken",
    "new-name": "new_name_is",
    "no-comma": "orientation_no_comma",
    "over-paths": "over_paths_same",
    "p-fields": "p_fields_many",
    "path-name": "path_name_none",
    "same-node": "nodes_same",
    "self-links": "self_links_split",
    "no-segment": "names_no_segment",
    "is-other": "is_other_line",
    "links-of": "links_still",
    "new-links": "new_links_read",
    "new-segments": "new_segments_read",
    "new-paths": "new_paths_read",
    "same-spelling": "spelling_same",
    "bad-byte": "bad_byte_refused",
    "bad-step": "bad_step_refused",
    "sort-nodes": "sort_nodes_by",
    "step_is": "step_told",
    "get_d_part": "get_or_part",
    "get_d_reverse": "get_or_reverse",
}
BY_FILE = {
    "walk_steps": {"Gfa1Steps": "walk_steps_allowed", "Places": "walk_steps_alike"},
    "new-paths": {"Passing": "new_paths_stand"},
}
# Fields of one record and definitions of another crate: these may share a name.
APART = ("by_length", "by_rank")

WORD = re.compile(r"(?<![\w'·-])[A-Za-z_][\w']*(?:-[\w']+)*")
DEFINED = re.compile(r"^(?P<indent> *)(?:abbrev |unfoldable |pub |mod )*(?P<name>[A-Za-z][\w']*(?:-[\w']+)*)(?: +\{[^}]*\})* *:(?!:)")
GOALS = ("Proof.antt", "Answers.antt", "Invariants.antt")


def snake(name):
    """The name in snake case; one that begins as a type does stays."""
    if name[0].isupper():
        return name
    name = re.sub(r"(?<=[a-z0-9])([A-Z]+)", lambda m: "_" + m.group(1).lower(), name)
    return name.replace("-", "_").lower()


def files(*endings):
    for base, folders, names in os.walk("."):
        folders[:] = sorted(f for f in folders if f not in (".git", "out", "target", "node_modules", "__pycache__"))
        for name in sorted(names):
            if name.endswith(endings) and name != "respell.py":
                yield os.path.join(base, name)


def is_goals(path):
    return os.path.basename(path) in GOALS


def own_names():
    """Each name that specs/ and the lemma files define, fields and local helpers too, that is not yet spelled so."""
    found = set()
    for path in files(".antt"):
        if is_goals(path):
            continue
        for line in open(path, encoding="utf-8"):
            m = DEFINED.match(line)
            if m:
                found.add(m.group("name"))
    return {n: FALL_TOGETHER.get(n, snake(n)) for n in found}


def respelled(text, names):
    return WORD.sub(lambda m: names.get(m.group(0), m.group(0)), text)


def code(text, names, mark):
    """A file of code: in a comment only names that no prose has, and those in back quotes."""
    plain = {k: v for k, v in names.items() if "-" not in k and k not in FALL_TOGETHER}
    lines = []
    for line in text.split("\n"):
        at = line.find(mark)
        head, tail = (line, "") if at < 0 else (line[:at], line[at:])
        tail = re.sub(r"`[^`]*`", lambda m: respelled(m.group(0), names), respelled(tail, plain))
        lines.append(respelled(head, names) + tail)
    return "\n".join(lines)


def fallen_together(names):
    """Two names of one new name, or a new name that something else has."""
    by = {}
    for name, new in names.items():
        by.setdefault(new, []).append(name)
    return {new: olds for new, olds in by.items() if len(olds) > 1 and new not in APART and not set(olds) & set(BY_FILE)}


def main():
    names = own_names()
    if fallen_together(names):
        raise SystemExit(f"these fall together: {fallen_together(names)}")
    for path in files(".antt", ".rt", ".edit", ".md", ".py"):
        text = open(path, encoding="utf-8").read()
        here = dict(names)
        for name, by in BY_FILE.items():
            for part, new in by.items():
                if os.path.basename(path) == part + ".antt":
                    here[name] = new
        for m in re.finditer(r"^(?:ghost )?(?:pub )?use ([\w.]+)\.\{([^}]*)\}", text, re.M):
            if not os.path.isdir("crates/" + m.group(1).removeprefix("Rattle.").split(".")[0]):  # the library's names
                for name in m.group(2).split(","):
                    here.pop(name.strip(), None)
        if is_goals(path):  # the names of goals are the toolchain's
            for m in re.finditer(r"^(?:pub )?([\w'-]+) : tie\.", text, re.M):
                here.pop(m.group(1), None)
        if path.endswith(".py"):  # tools hold antt text: names of definitions, no laws
            new = respelled(text, {k: v for k, v in names.items() if "-" not in k and k not in FALL_TOGETHER})
        elif path.endswith(".md"):
            new = re.sub(r"`[^`\n]*`", lambda m: respelled(m.group(0), here), text)
        else:
            new = code(text, here, "//" if path.endswith(".rt") else "--" if path.endswith(".antt") else "\0")
        new = new.replace("Option·elim", "Option-elim")  # the library's own, which its script leaves
        if new != text:
            open(path, "w", encoding="utf-8").write(new)


if __name__ == "__main__":
    main()
