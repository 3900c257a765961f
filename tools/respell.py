#!/usr/bin/env python3
"""Brings the repository's own names to today's spelling; docs/PORT.md says when each step ran.

usage: tools/respell.py crates    before port.py: renames the crates whose names are those of libraries of the kit
       tools/respell.py names     after port.py: definitions and lemmas to snake case
       tools/respell.py --list    the names that the second step renames, with what each becomes
"""

import os
import re
import subprocess
import sys

ROOT = os.path.dirname(os.path.dirname(os.path.realpath(__file__)))
CRATES = {"core": "unit_core", "csv": "csv_rows"}


def files(*endings):
    for folder, dirs, names in os.walk(os.path.join(ROOT, "crates")):
        dirs[:] = sorted(d for d in dirs if d != "out")
        for name in sorted(names):
            if name.endswith(endings):
                yield os.path.join(folder, name)


def read(path):
    with open(path, encoding="utf-8", newline="") as it:
        return it.read()


def write(path, text):
    with open(path, "w", encoding="utf-8", newline="") as it:
        it.write(text)


def rename_crates():
    for old, new in CRATES.items():
        if os.path.isdir(os.path.join(ROOT, "crates", old)):
            subprocess.run(["git", "mv", f"crates/{old}", f"crates/{new}"], cwd=ROOT, check=True)
    names = "|".join(CRATES)
    new = lambda m: m.group(1) + CRATES[m.group(2)]
    for path in files(".rt", ".antt", ".edit"):
        text = read(path)
        turned = re.sub(rf"(Rattle·)({names})(?=[.·])", new, text)
        # a path in code begins with the crate's name
        turned = re.sub(rf"((?<![\w.:])(?:use )?)({names})(?=::)", new, turned)
        # a crate's name in a comment of code, in backticks
        turned = re.sub(rf"(`)({names})(?=::)", new, turned)
        if turned != text:
            write(path, turned)
    path = os.path.join(ROOT, "crates.txt")
    write(path, re.sub(rf"(\b)({names})(?=[ :\n])", new, read(path)))


# Lemmas that port.py had turned already, whose names a definition takes: renamed in the files that name them.
LEMMAS = {
    "answers_by": ["runfile/proofs/RunClaims.antt", "catalog/proofs/TotalClaims.antt", "catalog/proofs/ListingClaims.antt"],
    "signed_by": ["text/proofs/TextLaws.antt", "text/proofs/write/knots/Proof.antt", "text/proofs/write/signed/Proof.antt"],
}
# Lemmas whose snake case is a definition's name.
LEMMAS_OF = ["answer-of", "in-range", "in-float"]

# A name of antt's. What stands between two of them is space, a bracket, a stop or one of a few signs.
TOKEN = re.compile(r"[^\s(){}\[\];,.λ`\"@«»]+")
DEFINED = re.compile(r"^[ \t]*(?:abbrev |unfoldable |opaque |private )*(?:pub )*([a-z][^\s:(){}.,;]*)(?:[ ]\{[^}]*\})?[ ]:(?=\s)", re.M)
IMPORTED = re.compile(r"use (?:mathlib|native|lib|mir|borrow|denote|seplogic|Prim|Rattle\.std|Rattle\.bytes)[\w.'-]*\.\{([^}]*)\}")


def snake(name):
    name = name.replace("-", "_")
    name = re.sub(r"(?<=[a-z0-9])(?=[A-Z\u2100-\u214f])", "_", name)
    name = re.sub(r"(?<=[\u2100-\u214f])(?=[A-Z])", "_", name)
    return re.sub(r"[A-Z](?![^\s]*\u2102)", lambda m: m.group(0).lower(), name)


def own(path):
    """Whether a file has definitions of the repository's own: specs/ whole, and what stands right in proofs/ but no function's proof."""
    return path.endswith(".antt") and os.path.basename(path) not in ("Proof.antt", "Answers.antt", "Invariants.antt")


def renamed():
    """The names that are not yet in snake case, each with its new spelling."""
    found, taken = {}, set()
    for path in files(".antt", ".rt"):
        text = read(path)
        for names in IMPORTED.findall(text):
            taken |= {it.split(" as ")[0].strip() for it in names.split(",")}
        if own(path):
            for name in DEFINED.findall(re.sub(r"--[^\n]*", "", text)):
                if snake(name) != name:
                    found.setdefault(name, set()).add(os.path.relpath(path, ROOT))
    to = {name: snake(name) for name in found if name not in taken}
    # a lemma with its definition's name gets another ending
    for name in to:
        if "-" in name and (name in LEMMAS_OF or any(it != name and to[it] == snake(name) for it in to)):
            to[name] = snake(name) + "_lem"
    return to, {name for name in found if name in taken}


def rename_names():
    to, _ = renamed()
    for path in files(".rt", ".antt"):
        text = read(path)
        for name, where in LEMMAS.items():
            if os.path.relpath(path, os.path.join(ROOT, "crates")) in where:
                text = re.sub(rf"(?<![\w'-]){name}(?![\w'-])", name + "_lem", text)
        turned = TOKEN.sub(lambda m: to.get(m.group(0), m.group(0)), text)
        if turned != text:
            write(path, turned)


def list_names():
    to, taken = renamed()
    there = {}
    for path in files(".rt", ".antt"):
        for word in TOKEN.findall(re.sub(r"--[^\n]*|//[^\n]*", "", read(path))):
            there.setdefault(word, set()).add(os.path.relpath(path, ROOT))
    for old, new in sorted(to.items()):
        also = sorted(there.get(new, ()))
        print(f"{old}  {new}" + (f"  THERE: {' '.join(also[:6])}" if also else ""))
    twice = {new for new in to.values() if list(to.values()).count(new) > 1}
    print("fall together:", sorted((old, new) for old, new in to.items() if new in twice))
    print("a library's too, left:", sorted(taken))


if __name__ == "__main__":
    if sys.argv[1:] == ["crates"]:
        rename_crates()
    elif sys.argv[1:] == ["names"]:
        rename_names()
    elif sys.argv[1:] == ["--list"]:
        list_names()
    else:
        sys.exit(__doc__)
