#!/usr/bin/env python3
"""Gives the names that Rattle makes, in proof files of functions, today's spelling.

usage: tools/newnames.py CRATE..     in the repository; asks `rt check --generated` for the names of each function
"""

import json
import os
import re
import subprocess
import sys
import tempfile

TOKEN = re.compile(r"[\w'\u00b7-]+")


def strings(value):
    if isinstance(value, str):
        yield value
    elif isinstance(value, list):
        for v in value:
            yield from strings(v)
    elif isinstance(value, dict):
        for k, v in value.items():
            yield k
            yield from strings(v)


def flat(name):
    return name.replace("_", "-").replace("\u00b7", "-")


def folder(key, crate):
    """The folder below proofs/ of a function's names."""
    m = re.fullmatch(r"Rattle-" + re.escape(crate) + r"-proofs\.(.*)\.Lts", key)
    return m and m.group(1).split(".")


def turn(path, known):
    by_flat = {}
    for n in known:
        by_flat.setdefault(flat(n), set()).add(n)

    def one(m):
        word = m.group(0)
        if word in known or ("-" not in word and "\u00b7" not in word):
            return word
        found = by_flat.get(flat(word), set())
        return next(iter(found)) if len(found) == 1 else word

    with open(path, encoding="utf-8") as f:
        text = f.read()
    new = TOKEN.sub(one, text)
    if new != text:
        with open(path, "w", encoding="utf-8") as f:
            f.write(new)
    return new != text


def main(argv):
    for crate in argv:
        where = os.path.join("crates", crate)
        with tempfile.TemporaryDirectory() as d:
            subprocess.run(["rt", "check", "--generated", d, "--old-names"], cwd=where, stdout=subprocess.DEVNULL, stderr=subprocess.DEVNULL)
            names = json.load(open(os.path.join(d, "names.json"), encoding="utf-8"))
        count = 0
        for key, value in names.items():
            parts = folder(key, crate)
            if not parts:
                continue
            known = {s for s in strings(value) if TOKEN.fullmatch(s)}
            for last in (parts[-1], "+" + parts[-1]):
                at = os.path.join(where, "proofs", *parts[:-1], last)
                for name in ("Answers.antt", "Invariants.antt"):
                    path = os.path.join(at, name)
                    if os.path.exists(path):
                        count += turn(path, known)
        print(f"newnames: {crate}: {count} files")


main(sys.argv[1:])
