#!/usr/bin/env python3
"""Checks why the must-fail edits were refused, by what rt ci printed: `edits.py target/ci.log`.

An edit shows something only where a fact is false. One that names what the file does not have, or that makes a proof file unfit for the
code, is refused for that, whatever the contracts say. Whether the first error is at the fact that the edit makes false is for a reader.
An edit that an earlier run on this machine refused over the same files is not tried again, and its reason is not printed again.
"""
import glob
import re
import sys

REFUSED = re.compile(r"^rt: must-fail (\S+): refused, as it must be(.*)")
OK = re.compile(r"^rt: ok;.* must-fail edits: (\d+) refused(.*)")
UNFIT = (
    r"only because a proof file names|is not in scope|that can be named (?:from )?here|has no field|no module has|was not admitted|: Parse: |: Scope: "
    r"|is not in the file|does not name|error: expected"
)


def main(path):
    with open(path, encoding="utf-8") as f:
        lines = f.read().splitlines()
    edits = len(glob.glob("crates/*/must-fail/*.edit"))
    told = [m for m in map(REFUSED.match, lines) if m]
    faults = [f"{m[1]}: {m[2][:200]}" for m in told if re.search(UNFIT, m[2])]
    verdicts = [m for m in map(OK.match, lines) if m]
    if len(verdicts) != 1:
        faults.append(f"{len(verdicts)} lines 'rt: ok' that count edits, and not one")
    elif int(verdicts[0][1]) != edits or " bad" in verdicts[0][2].split(";")[0]:
        faults.append(f"{edits} edits, but {verdicts[0][0]}")
    for fault in faults:
        print(fault)
    print(f"{edits} edits, {len(told)} reasons read, {len(faults)} faults")
    return 1 if faults else 0


if __name__ == "__main__":
    sys.exit(main(sys.argv[1]))
