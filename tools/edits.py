#!/usr/bin/env python3
"""Lists the must-fail edits that cannot be applied as the files stand: an old: text that is not there exactly once. It checks nothing else.

usage: python3 tools/edits.py [CRATE ..]      at the top of the repository; with no names, every crate of crates.txt
"""

import pathlib
import re
import sys

CRATES = sys.argv[1:] or re.findall(r"^(\w+)(?: \w+)*:", pathlib.Path("crates.txt").read_text(), re.M)
tried = bad = 0
for crate in CRATES:
    for edit in sorted(pathlib.Path("crates", crate, "must-fail").glob("*.edit")):
        tried += 1
        texts, file, old = {}, None, None
        for line in edit.read_text(encoding="utf-8").split("\n"):
            kind, _, text = line.partition(": ")
            if kind == "file":
                file = pathlib.Path("crates", crate, text.strip())
                texts.setdefault(file, file.read_text(encoding="utf-8") if file.is_file() else "")
            elif kind == "old":
                old = text
            elif line.startswith("new:"):
                found = texts[file].count(old)
                if found != 1:
                    bad += 1
                    print(f"{edit}: {found} times in {file}: {old}")
                    break
                texts[file] = texts[file].replace(old, text)
print(f"{tried} edits, {bad} of them bad")
sys.exit(bad > 0)
