#!/usr/bin/env python3
"""Brings the definitions and lemmas that this repository declares to snake case: `respell.py`, once, at the top, right behind the kit's port.py.

A name that a file of specs/ or a file of lemmas declares, and that begins with a small letter, gets underscores for its dashes and for its
inner capitals, everywhere in crates/. Names of Rust, strings and types keep their spelling. A lemma that would fall together with the
definition that it is about gets `_lem` behind its name, and a name that is spelled like one of the library's lemmas stays.
"""
import glob
import os
import re
import subprocess
import sys
import tempfile

TURN = "/opt/rattle/port/notes/2026-11-18-names-are-in-snake-case/snake.py"
WORD = re.compile(r'[^\s(){}.;,@"«»]+')
DECLARED = re.compile(r"(?m)^ *(?:(?:pub|abbrev|unfoldable|private) +)*((?:[a-z][^\s(){}.;,@\"«»:]* +)+)(?=[:({])")
LIBRARY = re.compile(r"(?m)^\s*(?:ghost )?use ((?:Prim|mathlib|lib|native|denote|borrow|base|Rattle\.(?:std|core)|types|contract|mir)[^\n{;]*)\{([^}]*)\}")
WORDS_OF_ANTT = {"use", "module", "let", "record", "data", "mod", "where", "open", "in", "unfolding"}
# Lemmas that are spelled as a definition will be.
LEMMAS = {"any_below": "any_below_lem", "same_codes": "same_codes_lem", "tables_end": "tables_end_lem"}


def snake(name):
    words = re.sub(r"(?<=[a-z0-9])[A-Z]", lambda m: "_" + m[0].lower(), name)
    return words.replace("-", "_")


def texts(*patterns):
    return sorted(p for q in patterns for p in glob.glob(q, recursive=True) if "/out/" not in p)


def read(path):
    with open(path, encoding="utf-8") as f:
        return f.read()


def declared():
    """The names that specs and files of lemmas declare."""
    names = set()
    for path in texts("crates/*/specs/**/*.antt", "crates/*/proofs/*.antt"):
        for group in DECLARED.findall(re.sub(r"--[^\n]*", "", read(path))):
            names.update(group.split())
    return {n for n in names if re.match(r"[a-z]", n)} - WORDS_OF_ANTT


def table():
    """Each name with its new spelling."""
    sources = [read(p) for p in texts("crates/*/specs/**/*.antt", "crates/*/proofs/**/*.antt", "crates/*/src/*.rt")]
    theirs = {w for t in sources for _, items in LIBRARY.findall(t) for w in WORD.findall(items)}
    names = declared()
    new = {n: snake(n) for n in names if snake(n) != n and n not in theirs}
    new.update({n: m for n, m in LEMMAS.items() if n in names or n == "tables_end"})
    taken = theirs | {n for n in names if n not in new}
    taken |= {m for n, m in new.items() if "-" not in n}
    for name in sorted(n for n in new if "-" in n):
        if new[name] in taken:
            new[name] += "_lem"
        taken.add(new[name])
    return new


def main():
    new = table()
    with tempfile.TemporaryDirectory() as folder:
        path = os.path.join(folder, "names.tsv")
        with open(path, "w", encoding="utf-8") as f:
            f.writelines(f"{old}\t{spelled}\n" for old, spelled in sorted(new.items()))
        walks = texts("crates/*/proofs/*/**/*.antt")
        others = [p for p in texts("crates/**/*.antt", "crates/**/*.rt") if p not in walks]
        for files, more in ((others, []), (walks, ["--skip-behind", "goal,tie,c,w,l,g"])):
            run = subprocess.run([sys.executable, TURN, "--table", path, "--only", "antt,rt", "--prose", "file", *more, *files], capture_output=True, text=True)
            print(run.stdout[-400:], run.stderr[-400:])
    for crate in sorted(glob.glob("crates/*")):
        subprocess.run(["rt", "fmt"], cwd=crate, capture_output=True)
    if "--names" in sys.argv:
        for old in sorted(new):
            print(old, new[old])


if __name__ == "__main__":
    main()
