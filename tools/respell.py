#!/usr/bin/env python3
"""Spells a checkout of the commit before the port, in which the toolchain's own script has run, as this repository is spelled: definitions and lemmas by names.txt, and
each file of theorems in the place of files.txt. What a comparison of the two then shows is more than spelling (docs/PORT.md says how to make it).
Names of functions, exported names and strings stay. Usage: respell.py FOLDER"""

import os
import re
import sys

HERE = os.path.dirname(os.path.realpath(__file__))


def rows(name):
    with open(f"{HERE}/{name}", encoding="utf-8") as it:
        return [line.split() for line in it if line.strip()]


def module(path):
    return "Rattle." + path.removesuffix(".antt").replace("/", ".")


NAMES = dict(rows("names.txt"))
FILES = dict(rows("files.txt"))
MODULES = {module(old): module(new) for old, new in FILES.items()}
# a name, whole: what may stand in one is letters, digits, and these signs
SIGNS = r"[\w'≢-]"
WORD = re.compile(rf"(?<!{SIGNS})({'|'.join(map(re.escape, sorted(NAMES, key=len, reverse=True)))})(?!{SIGNS})")
PATH = re.compile(rf"({'|'.join(map(re.escape, sorted(MODULES, key=len, reverse=True)))})(?!\w)")
# the lines of code that speak of definitions
CLAUSE = re.compile(r"\s*((old|new): )?\s*(requires|ensures|ghost|#\[tactic)\b")


def spelled(line):
    return WORD.sub(lambda m: NAMES[m[1]], PATH.sub(lambda m: MODULES[m[1]], line))


def respell(path):
    with open(path, encoding="utf-8") as it:
        lines = it.read().split("\n")
    whole = path.endswith(".antt")
    new = []
    for line in lines:
        if path.endswith(".edit") and line.startswith("file: "):
            whole = not line.startswith("file: src/")
        new.append(spelled(line) if whole or CLAUSE.match(line) else line)
    if new != lines:
        with open(path, "w", encoding="utf-8") as it:
            it.write("\n".join(new))


def main(top):
    crates = f"{top}/crates"
    for folder, inner, files in os.walk(crates):
        inner[:] = [it for it in inner if it != "out"]
        for name in files:
            if name.endswith((".antt", ".rt", ".edit")):
                respell(f"{folder}/{name}")
    for old, new in FILES.items():
        if os.path.isfile(f"{crates}/{old}"):
            os.makedirs(os.path.dirname(f"{crates}/{new}"), exist_ok=True)
            if os.path.exists(f"{crates}/{new}"):
                sys.exit(f"{old} and another file have one place")
            os.rename(f"{crates}/{old}", f"{crates}/{new}")


if __name__ == "__main__":
    if len(sys.argv) != 2:
        sys.exit(__doc__)
    main(sys.argv[1])
