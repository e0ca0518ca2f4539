#!/usr/bin/env python3
"""Respells this repository's own definitions and lemmas as today's Rattle spells names: words in snake case, types and modules in camel case.

usage: python3 tools/respell.py [ROOT]      at the top of the repository, once, right after port.py (docs/PORT.md)

A dash stays where it joins two names of functions, as in `length-table`; before a plain word it becomes `_`, as in `set_of_members`.
Functions of src/, exported names and strings keep their spelling. It stops where two names of a file would fall together.
"""

import os
import re
import sys

# Functions whose one-word names count as names on either side of a dash.
WORDS = {"length", "take", "drop", "set", "replicate", "get_or", "member", "singleton", "table", "union", "leftmost"}
# Names that would fall together with another, and what they are called instead.
OTHERWISE = {
    "ambiguous-set": "ambiguous_set_lem",
    "answer-by": "answer_by_lem",
    "beads-in": "beads_inside",
    "begin-at": "begin_there",
    "board-at": "board_there",
    "follows-last": "follows_last_lem",
    "in-front": "front_passes",
    "is-header": "header_ok",
    "is-log": "log_passes",
    "is-number": "is_number_lem",
    "is-pattern": "pattern_passes",
    "is-whole": "whole_passes",
    "judge-line": "judge_line_lem",
    "links-into": "links_there",
    "log-length": "length_of_log",
    "pattern-length": "length_of_pattern",
    "result-length": "length_of_result",
    "rising-below": "rising_below_lem",
    "row-in": "row_in_order",
    "row-judged": "row_judged_lem",
    "row-length": "length-row",
    "row-stored": "row_stored_lem",
    "scan-end": "scan_end_lem",
    "stray-set": "stray_set_lem",
    "text-by": "text_by_lem",
    "value-of": "value_of_said",
    "work-length": "length_of_work",
}
# The same, in one file alone.
THERE = {
    "log_step/proofs/StepLaws.antt": {"is_number": "is_number_lem"},
    "log_texts/proofs/StepPlaces.antt": {"labels_at": "labels_there"},
}
TOKEN = re.compile(r"[^\s(){}\[\],;.:«»\"`|]+")
DECLARED = re.compile(r"(?m)^[ \t]*(?:abbrev[ \t]+|unfoldable[ \t]+)?(?:pub[ \t]+)?(?:abbrev[ \t]+|data[ \t]+|record[ \t]+|ruleset[ \t]+)?([^\s(){}\[\],;.:«»\"`|=]+)[ \t]*(?=:|=|\{|\()")
IMPORT = re.compile(r"(?m)^use\s+(\S+?)\.\{([^}]*)\}")
WALKS = ("Proof.antt", "Invariants.antt", "Answers.antt")


def files(root, endings):
    for folder, dirs, names in os.walk(os.path.join(root, "crates")):
        dirs[:] = sorted(d for d in dirs if d not in ("out", ".git"))
        for name in sorted(names):
            if name.endswith(endings):
                yield os.path.join(folder, name)


def snake(part):
    if part == "getD":
        return "get_or"
    if not part or part[0].isupper():
        return part
    return re.sub(r"([A-Z])", lambda m: "_" + m.group(1).lower(), part)


def is_own(path, crates):
    return path.startswith("Rattle.") and path.split(".")[1] in crates


def is_name(part, functions):
    return snake(part) in WORDS or part in functions


def respelled(name, functions):
    """The name in today's spelling."""
    parts = re.split(r"(?<=[\w?])-(?=[\w?])", name.replace("′", "'"))
    out = snake(parts[0])
    for before, part in zip(parts, parts[1:]):
        joined = is_name(before, functions) and is_name(part, functions)
        out += ("-" if joined else "_") + snake(part)
    return out


def old_spelling(name):
    return bool(re.search(r"[a-z0-9][A-Z]|\w-\w|′", name)) and not re.match(r"(Need|In|At|After|Lead)-", name)


def is_walk(path):
    """The proof of one function, and no file of lemmas or definitions."""
    return "/proofs/" in path and os.path.basename(path) in WALKS


def collect(root, crates):
    """The repository's own names that are to be respelled, and its functions of specs/ with names of several words."""
    declared, functions = set(), set()
    for path in files(root, ".antt"):
        with open(path, encoding="utf-8") as f:
            text = f.read()
        if is_walk(path):
            continue
        for m in DECLARED.finditer(text):
            declared.add(m.group(1))
        # Names of several to a signature, names that a pattern binds, and names given by `as`.
        bare = re.sub(r"(?m)(^|\s)--.*$", r"\1", text)
        declared |= {w for w in TOKEN.findall(bare) if old_spelling(w) and not w[0].isdigit()} - foreign(text, crates)
        if "/specs/" in path:
            functions |= {m.group(1) for m in re.finditer(r"(?m)^(?:abbrev |unfoldable )?(?:pub )?([a-z]\w*[A-Z]\w*\??) :", text)}
    for path in files(root, ".rt"):
        with open(path, encoding="utf-8") as f:
            declared |= {m.group(1) for line in re.findall(r"(?m)^ghost use .*$", f.read()) for m in re.finditer(r" as (\w+)", line)}
    return declared, functions


def foreign(text, crates):
    """Names that the file takes from the kit."""
    out = set()
    for m in IMPORT.finditer(text):
        if not is_own(m.group(1), crates):
            out |= {w.strip().split(" as ")[0] for w in m.group(2).split(",")}
    return out


def turn_words(text, names):
    return TOKEN.sub(lambda m: names.get(m.group(0), m.group(0)), text)


def turn_comment(text, names):
    """In a comment only what stands between backticks is a name."""
    return re.sub(r"`([^`]*)`", lambda m: "`" + turn_words(m.group(1), names) + "`", text)


def turn(text, names, mark):
    out = []
    for line in text.split("\n"):
        m = re.search(r"(?:^|\s)" + mark, line)
        at = m.start() if m else len(line)
        parts = re.split(r'("(?:[^"\\]|\\.)*")', line[:at])
        out.append("".join(p if i % 2 else turn_words(p, names) for i, p in enumerate(parts)) + turn_comment(line[at:], names))
    return "\n".join(out)


def fall_together(before, after, declared):
    """Names declared here that were two in a file and are one now. A function of src/ and the definition of what it answers may share one."""
    seen = {}
    for old, new in zip(TOKEN.findall(before), TOKEN.findall(after)):
        seen.setdefault(new, set()).add(old)
    return {n: sorted(o) for n, o in seen.items() if len(o & declared) > 1}


def main(argv):
    root = argv[0] if argv else "."
    crates = set(os.listdir(os.path.join(root, "crates")))
    declared, functions = collect(root, crates)
    mapping = {n: OTHERWISE.get(n) or respelled(n, functions) for n in declared if old_spelling(n)}
    mapping = {n: m for n, m in mapping.items() if n != m}
    bad = 0
    turned = {}
    for path in files(root, (".antt", ".rt")):
        with open(path, encoding="utf-8") as f:
            text = f.read()
        there = foreign(text, crates)
        if is_walk(path):
            # What a proof names after Rattle's goals keeps Rattle's spelling.
            there |= {m.group(1) for m in re.finditer(r"(?m)^([^\s:]+) : tie\.", text)}
        own = {n: m for n, m in mapping.items() if n not in there}
        own |= THERE.get(os.path.relpath(path, os.path.join(root, "crates")), {})
        new = turn(text, own, "--" if path.endswith(".antt") else "//")
        for name, olds in fall_together(re.sub(r"(?m)(^|\s)(--|//).*$", r"\1", text), re.sub(r"(?m)(^|\s)(--|//).*$", r"\1", new), declared).items():
            print(f"{path}: fall together as {name}: {', '.join(olds)}")
            bad += 1
        if new != text:
            turned[path] = new
    if os.environ.get("SHOW"):
        for n in sorted(mapping):
            print(n, "->", mapping[n])
    if bad:
        print(f"respell: {bad} names fall together; nothing was written")
        return 1
    if not os.environ.get("DRY"):
        for path, new in turned.items():
            with open(path, "w", encoding="utf-8") as f:
                f.write(new)
    print(f"respell: {len(mapping)} names in {len(turned)} files")
    return 0


if __name__ == "__main__":
    raise SystemExit(main(sys.argv[1:]))
