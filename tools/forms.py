#!/usr/bin/env python3
"""Counts the places of the older language's forms in crates/*/src and crates/*/proofs, point by point, as docs/DESIGN-PASS.md lists them.

    python3 tools/forms.py [--list] [COMMIT]

Without COMMIT it reads the working tree. With --list it names each place.
"""
import collections
import re
import subprocess
import sys

ARGS = [a for a in sys.argv[1:] if a != "--list"]
LIST = "--list" in sys.argv
COMMIT = ARGS[0] if ARGS else None


def git(*args):
    return subprocess.run(["git", *args], capture_output=True, text=True, check=True).stdout


def files():
    """(path, text) of each source and answer file."""
    names = git("ls-tree", "-r", "--name-only", COMMIT).split("\n") if COMMIT else git("ls-files", "-co", "--exclude-standard").split("\n")
    for name in names:
        if re.match(r"crates/\w+/(src/.*\.rt|proofs/.*/(Answers|Invariants|Proof)\.antt)$", name):
            try:
                yield name, git("show", f"{COMMIT}:{name}") if COMMIT else open(name).read()
            except FileNotFoundError:
                pass


def functions(text):
    """(name, parameters, clauses, body, line) of each function."""
    for m in re.finditer(r"^( *)(?:pub )?(?:const )?(?:extern \"C\" )?fn (\w+)(.*?)\n\1\}", text, re.S | re.M):
        whole = m.group(3)
        depth, end = 0, 0
        start = whole.index("(")
        for i, c in enumerate(whole[start:], start):
            depth += {"(": 1, ")": -1}.get(c, 0)
            if depth == 0:
                end = i
                break
        params = [p.strip() for p in re.split(r",(?![^<\[(]*[>\])])", whole[start + 1 : end].replace("\n", " ")) if ":" in p]
        rest = whole[end + 1 :]
        at = re.search(r"(\{|\n *\{)(\n|$)", rest)
        clauses, body = (rest[: at.start()], rest[at.end() :]) if at else (rest, "")
        yield m.group(2), params, clauses, body, text[: m.start()].count("\n") + 1


def blot(body):
    """A body without its names, numbers and types."""
    body = re.sub(r"//.*", "", body)
    body = re.sub(r"b?\"[^\"]*\"|b'[^']*'|\b\d+\w*\b", "0", body)
    body = re.sub(r"\b(?!(?:if|else|while|for|in|match|return|let|mut|break|continue|as)\b)[A-Za-z_]\w*(?:::\w+)*", "x", body)
    return re.sub(r"\s+", " ", body).strip()


def loops(body):
    """The bodies of `while` loops."""
    for m in re.finditer(r"^( *)while .*?\n\1\}", body, re.S | re.M):
        yield m.group(0)


POINTS = collections.OrderedDict((n, []) for n in (
    "1 own enums", "1 flags in structs", "1 numbers for kinds or refusals",
    "2 functions alike but for names, numbers and types",
    "3 loops that count by hand",
    "4 functions that convert, compare or print by hand",
    "5 facts in the contracts of three or more functions", "5 functions of six or more parameters",
    "6 room and index side by side, marks", "7 chains of tests on a number", "8 answers", "8 answer files"))

facts, alike = collections.defaultdict(set), collections.defaultdict(list)
for path, text in files():
    if path.endswith(".antt"):
        if path.endswith("Answers.antt"):
            POINTS["8 answer files"].append(path)
            POINTS["8 answers"] += [f"{path}: {n}" for n in re.findall(r"^pub ([\w-]+) :", text, re.M)]
        continue
    for m in re.finditer(r"^(?:pub )?enum (\w+)", text, re.M):
        POINTS["1 own enums"].append(f"{path}: {m.group(1)}")
    for m in re.finditer(r"^    (?:pub )?(\w+): bool,", text, re.M):
        POINTS["1 flags in structs"].append(f"{path}: {m.group(1)}")
    for m in re.finditer(r"^ *(?:pub )?(number|rule|kind|advance): (?:u8|u16),", text, re.M):
        POINTS["1 numbers for kinds or refusals"].append(f"{path}: {m.group(1)}")
    for name, params, clauses, body, line in functions(text):
        where = f"{path}:{line} {name}"
        for p in params:
            if re.match(r"(number|rule|kind|advance): (u8|u16)$", p):
                POINTS["1 numbers for kinds or refusals"].append(f"{where}: {p}")
        if len(re.findall(r"\n", body)) >= 5:
            alike[blot(body)].append(where)
        for loop in loops(body):
            if re.search(r"^ *(\w+) [+-]= 1;", loop, re.M):
                POINTS["3 loops that count by hand"].append(where)
        if re.match(r"(wide|same|equal|number_of|code|print_\w+|copy\w*)$", name) and len(re.findall(r"\n", body)) < 25:
            POINTS["4 functions that convert, compare or print by hand"].append(where)
        for r in re.findall(r"requires [^{\n]*\{(.*)\}", clauses):
            for part in re.split(r" × ", r):
                facts[part.strip(" ()")].add(where)
        if len(params) >= 6:
            POINTS["5 functions of six or more parameters"].append(where)
        if any(re.match(r"out: &mut \[u8\]|marks: &", p) for p in params):
            POINTS["6 room and index side by side, marks"].append(where)
        chain = collections.Counter(re.findall(r"if (\w+) == \d+ \{", body))
        if chain and max(chain.values()) >= 3:
            POINTS["7 chains of tests on a number"].append(where)
for fact, where in sorted(facts.items()):
    if len(where) >= 3:
        POINTS["5 facts in the contracts of three or more functions"].append(f"{len(where)} {fact}")
for body, where in alike.items():
    if len(where) > 1:
        POINTS["2 functions alike but for names, numbers and types"] += [" ~ ".join(where)]

for point, places in POINTS.items():
    print(f"{len(places):6}  {point}")
    if LIST and not point.startswith("8"):
        for p in places:
            print(f"            {p}")
