#!/usr/bin/env python3
"""Brings the repository's own definitions and lemmas to snake case; run once at the top, after the toolchain's port.

Takes every name that a file of specs/ or proofs/ declares and that has a capital behind a small letter or a digit, and
writes it in snake case wherever it stands as a word, or as a part between dashes, in the crates' .antt and .rt files.
Types, facts and modules begin with a capital and stay. Prints the names, and stops before it writes anything where two
names would fall together.
"""
import glob, re, sys

DECLARED = re.compile(r"^\s*(?:(?:abbrev|unfoldable|pub|ruleset|data|record)\s+)*([a-z][A-Za-z0-9_'-]*)\s*(?::|=)", re.M)
CAMEL = re.compile(r"[a-z0-9][A-Z]")


def snake(part):
    return re.sub(r"(?<=[a-z0-9])([A-Z])", lambda m: "_" + m.group(1).lower(), part)


def main():
    antt = sorted(glob.glob("crates/*/specs/**/*.antt", recursive=True) + glob.glob("crates/*/proofs/**/*.antt", recursive=True))
    code = sorted(glob.glob("crates/*/src/**/*.rt", recursive=True))
    texts = {p: open(p, encoding="utf-8").read() for p in antt + code}
    declared = {name for p in antt for name in DECLARED.findall(texts[p])}
    parts = {part for name in declared for part in re.split(r"[-_']", name) if part[:1].islower() and CAMEL.search(part)}
    words = {w for p in antt for w in re.findall(r"[A-Za-z][A-Za-z0-9_]*", re.sub(r"--.*", "", texts[p]))}
    taken = {p: snake(p) for p in parts if snake(p) in words}
    for old, new in sorted(taken.items()):
        print(f"taken: {old} would be {new}, which stands in a file of specs/ or proofs/")
    for p, text in texts.items():
        new = text
        for part in parts:
            new = re.sub(rf"(?<![A-Za-z0-9]){part}(?![A-Za-z0-9])", snake(part), new)
        texts[p] = (text, new)
    print(" ".join(f"{p}:{snake(p)}" for p in sorted(parts)))
    if "--write" in sys.argv:
        for p, (old, new) in texts.items():
            if old != new:
                open(p, "w", encoding="utf-8").write(new)


main()
