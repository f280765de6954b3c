#!/usr/bin/env python3
"""Checks that what a document names exists where it says: each `path` of the repository, and each `path#name` as a definition there.

A name of an .antt file is declared at the start of a line, after its modifiers; one of an .rt file by fn, struct, enum or const.
"""
import os
import re
import sys

MODIFIERS = r"(?:(?:abbrev|unfoldable|pub|record|data)\s+)*"


def declares(text, path, name):
    word = re.escape(name)
    if path.endswith(".antt"):
        pattern = rf"^\s*{MODIFIERS}{word}(?=[\s:({{]|$)"
    else:
        pattern = rf"\b(?:fn|struct|enum|const)\s+{word}\b"
    return re.search(pattern, text, re.M) is not None


def main(documents):
    seen, faults = 0, []
    for document in documents:
        with open(document, encoding="utf-8") as f:
            text = f.read()
        for path, name in re.findall(r"`([\w.\-/]+/[\w.\-/]+?)(?:#([^`\s]+))?`", text):
            seen += 1
            if not os.path.exists(path):
                faults.append(f"{document}: no file {path}")
            elif name:
                with open(path, encoding="utf-8") as f:
                    if not declares(f.read(), path, name):
                        faults.append(f"{document}: {path} declares no {name}")
    if seen == 0:
        faults.append("no place is named at all")
    for fault in faults:
        print(fault)
    print(f"{seen} places named, {len(faults)} wrong")
    return 1 if faults else 0


if __name__ == "__main__":
    sys.exit(main(sys.argv[1:]))
