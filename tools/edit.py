#!/usr/bin/env python3
"""Makes a must-fail edit in this checkout, to look at what the prover says of it. `git checkout crates/CRATE` takes it back.

    python3 tools/edit.py CRATE/LABEL
"""
import pathlib
import sys

if len(sys.argv) != 2 or sys.argv[1].count("/") != 1:
    sys.exit(__doc__)
crate, label = sys.argv[1].split("/")
folder = pathlib.Path(__file__).resolve().parent.parent / "crates" / crate
edit = folder / "must-fail" / f"{label.removesuffix('.edit')}.edit"
if not edit.is_file():
    sys.exit(f"there is no {edit}")
texts, file, old = {}, None, None
for line in edit.read_text().split("\n"):
    if line.startswith("file: "):
        file = folder / line[len("file: ") :].strip()
    elif line.startswith("old: "):
        old = line[len("old: ") :]
    elif line.startswith("new:"):
        text = texts.get(file) or file.read_text()
        if text.count(old) != 1:
            sys.exit(f"{file}: an old text stands {text.count(old)} times: {old}")
        texts[file] = text.replace(old, line[len("new:") :].removeprefix(" "))
for file, text in texts.items():
    file.write_text(text)
    print(f"changed {file}")
