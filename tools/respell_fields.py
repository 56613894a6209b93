#!/usr/bin/env python3
"""Brings the fields of the records in specs/ to snake case: a dash in a field's name becomes an underscore; run once at the top.

A field is turned wherever it stands as a whole word in the .antt and .rt files of its own crate. Prints each field.
"""
import glob, re

RECORD = re.compile(r"^pub record [^\n]* where\n((?:(?:[ \t][^\n]*)?\n)*)", re.M)
FIELD = re.compile(r"^\s+pub ([a-z][A-Za-z0-9_]*(?:-[A-Za-z0-9_]+)+) :", re.M)

for crate in sorted(glob.glob("crates/*/")):
    fields = set()
    for path in glob.glob(crate + "specs/*.antt"):
        for body in RECORD.findall(open(path, encoding="utf-8").read()):
            fields |= set(FIELD.findall(body))
    if not fields:
        continue
    print(crate, " ".join(sorted(fields)))
    for path in glob.glob(crate + "specs/*.antt") + glob.glob(crate + "proofs/**/*.antt", recursive=True) + glob.glob(crate + "src/*.rt"):
        text = new = open(path, encoding="utf-8").read()
        for field in fields:
            new = re.sub(rf"(?<![A-Za-z0-9_-]){field}(?![A-Za-z0-9_-])", field.replace("-", "_"), new)
        if new != text:
            open(path, "w", encoding="utf-8").write(new)
