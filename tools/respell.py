#!/usr/bin/env python3
"""Brings the definitions and lemmas of specs/ and proofs/ to Rattle's spelling: words in snake case, types in camel case.

usage: tools/respell.py [ROOT] [--list]    after the toolchain's own port; --list prints the names and writes nothing

The names are read off the declarations themselves, so the same declaration gets the same name in any checkout. Constants in
capitals mirror those of src/ and keep their capitals. Functions of src/, strings, inputs and outputs are left alone: only the
names below are replaced, and in a .rt file only those that no Rust name can have.
"""

import glob
import os
import re
import sys

TOKEN = r"[\w'\u2032\u00b7-]"
HEAD = re.compile(r"^(?:(?:unfoldable|abbrev|pub|data|record|ruleset) +)*([^\s:({]+)(?: [({].*)? *: *(.*)$")
PART = re.compile(r"^  (?:pub )?([^\s:({]+) : ")
GOAL = re.compile(r"^(?:goal|need)\.")
LIBRARY = re.compile(r"^\s*(?:ghost )?use Rattle\.std\.\S*\{(.*)\}", re.M)

# names that would fall together with another name of their file
APART = {
    "Fewer-dashes": "FewerDashesFault",
    "More-dashes": "MoreDashesFault",
    "cut_as": "cut_as_lem",
}


def antt_files(root):
    found = []
    for part in ("specs", "proofs"):
        found += glob.glob(os.path.join(root, "crates", "*", part, "**", "*.antt"), recursive=True)
    return sorted(found)


def declared(root):
    """The names that are declared, each with its sorts: type, value or field."""
    names = {}
    for path in antt_files(root):
        answers = os.path.basename(path) in ("Answers.antt", "Invariants.antt")
        for line in open(path, encoding="utf-8"):
            m = HEAD.match(line)
            if m and not line.startswith(("use ", "--", " ", "mod ", "pub mod ")):
                name, what = m.group(1), m.group(2).strip()
                if answers and GOAL.match(what):
                    continue
                is_type = re.search(r"(^|→ *)Type( 0)?( where)?$", what) or re.match(r"^(pub )?(data|record)", line)
                names.setdefault(name, set()).add("type" if is_type else "value")
                continue
            m = PART.match(line)
            if m and not answers:
                names.setdefault(m.group(1), set()).add("field")
    return names


def spelled(name, sorts):
    if re.fullmatch(r"[A-Z][A-Z0-9]*(-[A-Z0-9]+)*", name) and "type" not in sorts:
        return name.replace("-", "_")
    if "type" in sorts:
        return "".join(w[:1].upper() + w[1:] for w in name.split("-"))
    words = name.replace("-", "_")
    words = re.sub(r"([a-z0-9])([A-Z])", r"\1_\2", words)
    words = re.sub(r"([A-Z])([A-Z][a-z])", r"\1_\2", words)
    return words if name[:1].isupper() else words.lower()


def changed(root):
    """Old name to new name and sorts. A lemma that would have its definition's name gets _lem."""
    out, found = {}, declared(root)
    taken = {n for n in found if "-" not in n}
    taken |= {spelled(n, found[n]) for n in taken}
    for name, sorts in found.items():
        if re.fullmatch(r"[\w'\u2032-]+", name):
            new = APART.get(name) or spelled(name, sorts)
            if "-" in name and "value" in sorts and new in taken:
                new += "_lem"
            if new != name:
                out[name] = (new, sorts)
    return out


def turned(text, names, rust):
    library = {w.split(" as ")[0].strip() for m in LIBRARY.finditer(text) for w in m.group(1).split(",")}

    def one(m):
        word, before = m.group(0), text[max(m.start() - 1, 0) : m.start()]
        if word not in names or word in library:
            return word
        new, sorts = names[word]
        if "-" in word and rust:
            # a subtraction in code has blanks round its sign, so this can only be a name of a clause
            return new
        if "-" in word and before == "." and "field" not in sorts:
            return word  # a step that Rattle named
        return new

    return re.sub(TOKEN + "+", one, text)


def main(argv):
    root = next((a for a in argv if not a.startswith("--")), ".")
    names = changed(root)
    if "--list" in argv:
        for name in sorted(names):
            print(name, names[name][0], ",".join(sorted(names[name][1])))
        return 0
    count = 0
    rust = glob.glob(os.path.join(root, "crates", "*", "src", "**", "*.rt"), recursive=True)
    edits = glob.glob(os.path.join(root, "crates", "*", "must-fail", "*.edit"))
    for path in antt_files(root) + sorted(rust) + sorted(edits):
        with open(path, encoding="utf-8") as f:
            text = f.read()
        new = turned(text, names, path.endswith((".rt", ".edit")))
        if new != text:
            count += 1
            with open(path, "w", encoding="utf-8") as f:
                f.write(new)
    print(f"respell: {len(names)} names, {count} files")
    return 0


if __name__ == "__main__":
    raise SystemExit(main(sys.argv[1:]))
