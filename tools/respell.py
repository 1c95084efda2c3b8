#!/usr/bin/env python3
"""Bring the names of this repository's own definitions and lemmas to the spelling of today's Rattle.

    python3 tools/respell.py

Run once at the top of the repository, right after the toolchain's own port script. A name with dashes
is then spelled in snake case (`phase-told` is `phase_told`), and a type in upper camel case (`So-far` is
`SoFar`). It goes by text over specs/, proofs/, the clauses of src/, must-fail edits, and the names in
backticks of README.md and docs/. Names that Rattle itself makes, such as `loop-i-preserved`, stay.
"""
import glob
import re

# Local variables and aliases with a dash, which no signature declares.
LOCAL = [
    "None-pass", "R-refl", "R-trans", "after-side", "after-space", "best-is", "carrier-meant", "f-is", "f-laws",
    "s-laws", "first-key", "last-lawful", "of-heading", "of-line", "told-so", "zero-j",
]

# What Rattle makes of the name of a variable: that it is the value that a branch gave it.
MADE = {"count-is", "memory-is"}

SIGNATURE = re.compile(r"^\s*(?:(?:pub|abbrev|unfoldable)\s+)*([^\s(){}:,;]+)\s*(?:\{[^}]*\}\s*)?:\s(.*)$")
TYPE = re.compile(r"^\s*(?:pub )?(?:record|data)\s+(\S+)")
EDGE = r"[^\s(){}\[\];,:.⌜⌝`\"|]"


def answers(path):
    return path.endswith(("/Answers.antt", "/Invariants.antt", "/Proof.antt"))


def logic():
    return sorted(p for d in ("specs", "proofs") for p in glob.glob(f"crates/*/{d}/**/*.antt", recursive=True))


def declared(path):
    for line in open(path):
        if line.strip().startswith("--"):
            continue
        found = TYPE.match(line)
        if found:
            yield found.group(1)
            continue
        found = SIGNATURE.match(line)
        if found and not (answers(path) and "goal." in found.group(2)):
            yield found.group(1)


def spelled(name):
    if name[0].isupper() and name not in LOCAL:
        first, *rest = name.split("-")
        return first + "".join(part[:1].upper() + part[1:] for part in rest)
    return name.replace("-", "_")


def main():
    names = {n for path in logic() for n in declared(path) if "-" in n} | set(LOCAL)
    by_length = sorted(names, key=len, reverse=True)
    token = re.compile(rf"(?<!{EDGE})({'|'.join(map(re.escape, by_length))})(?!{EDGE})")

    def respell(path, text):
        def turn(found):
            made = answers(path) and found.group(1) in MADE and found.string[: found.start()].endswith(".")
            return found.group(1) if made else spelled(found.group(1))

        if path.endswith(".md"):
            return re.sub(r"`[^`\n]+`", lambda quoted: token.sub(turn, quoted.group(0)), text)
        return token.sub(turn, text)

    paths = logic()
    for pattern in ("crates/*/src/**/*.rt", "crates/*/must-fail/*.edit", "docs/*.md", "README.md"):
        paths += sorted(glob.glob(pattern, recursive=True))
    for path in paths:
        old = open(path).read()
        new = respell(path, old)
        if new != old:
            open(path, "w").write(new)


main()
