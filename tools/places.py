#!/usr/bin/env python3
"""Lists the places in crates/*/src that a point of docs/DESIGN-PASS.md is about.

    tools/places.py [POINT]      each place on a line, then how many
    tools/places.py --counts     only how many, point by point

Tests are left out. What no pattern finds (twins, what always travels together) was found by reading.
"""
import glob
import re
import sys

TESTS = ("_tests.rt",)


def sources():
    for path in sorted(glob.glob("crates/*/src/*.rt")):
        if not path.endswith(TESTS):
            with open(path, encoding="utf-8") as file:
                yield path, file.read().split("\n")


def matching(pattern, ghost=False):
    wanted = re.compile(pattern)
    for path, lines in sources():
        for number, line in enumerate(lines, 1):
            text = line.split("//")[0]
            is_ghost = re.match(r"\s*(ghost|requires|ensures)\b", text)
            if bool(is_ghost) == ghost and wanted.search(text):
                yield f"{path}:{number}: {line.strip()}"


def functions():
    """Each function as its path, line, name, parameters, clauses and body."""
    for path, lines in sources():
        text = "\n".join(lines)
        for found in re.finditer(r"\bfn (\w+)", text):
            at = found.end()
            if text[at] == "<":
                depth = 0
                while True:
                    depth += {"<": 1, ">": -1}.get(text[at], 0) if text[at - 1] != "-" else 0
                    at += 1
                    if depth == 0:
                        break
            at = text.find("(", at)
            depth, end = 0, at
            while True:
                depth += {"(": 1, ")": -1}.get(text[end], 0)
                end += 1
                if depth == 0:
                    break
            stop = re.compile(r"\n *\{\n|;\n| \{\n").search(text, end)
            head = text[end : stop.start()] if stop else ""
            line = text.count("\n", 0, found.start()) + 1
            yield path, line, found.group(1), text[at + 1 : end - 1], head


def identities():
    """Functions whose body is one of their parameters."""
    for path, lines in sources():
        text = "\n".join(lines)
        for found in re.finditer(r"\n\{\n    (\w+)\n\}\n|\n    \{\n        (\w+)\n    \}\n", text):
            line = text.count("\n", 0, found.start()) + 2
            yield f"{path}:{line}: {found.group(1) or found.group(2)}"


def facts():
    """Conjuncts of `requires` that stand in three functions or more of a crate."""
    seen = {}
    for path, line, name, _, head in functions():
        for clause in re.findall(r"requires \w* ?\{(.*)\}", head):
            for part in clause.split("×"):
                fact = re.sub(r"\b(so_far|from|self|reader|input)\b", "_", part.strip(" ()"))
                seen.setdefault((path.split("/")[1], fact), []).append(f"{name}")
    for (crate, fact), names in sorted(seen.items()):
        if len(names) >= 3:
            yield f"{crate}: {fact} ({', '.join(names)})"


def travellers():
    """Three parameters or more that travel together through three functions or more of a crate."""
    seen = {}
    for path, line, name, params, _ in functions():
        words = [w.strip() for w in params.split(",") if ":" in w]
        key = tuple(re.sub(r"\s+", " ", w.split(":")[0]) for w in words)
        for size in range(3, len(key) + 1):
            for start in range(len(key) - size + 1):
                seen.setdefault((path.split("/")[1], key[start : start + size]), set()).add(name)
    best = {k: v for k, v in seen.items() if len(v) >= 3}
    for (crate, key), names in sorted(best.items()):
        if not any(c == crate and set(key) < set(k) and v >= names for (c, k), v in best.items()):
            yield f"{crate}: {', '.join(key)} ({', '.join(sorted(names))})"


POINTS = {
    "1-flag-beside-value": lambda: matching(r"^    pub refused: Option<\w*Refusal>,$"),
    "1-refusal-as-option": lambda: matching(r"-> Option<(\w+::)?Refusal>"),
    "1-number-constants": lambda: matching(r"^pub const \w+: u(8|16) ="),
    "1-edition-as-number": lambda: matching(r"\bedition: u8|first: u8|last: u8"),
    "1-kind-as-number": lambda: matching(r"\b\w*kinds?: (&(mut )?('\w )?(mut )?\[)?u16|-> (Result<)?(Option<)?\(?u16"),
    "1-code-as-number": lambda: matching(r"\bcode: (Option<)?u16|code: \d+ \}|_if\(.*, \d+\)"),
    "3-while-and-loop": lambda: matching(r"^\s*('\w+: )?(while\b.*|loop) \{$"),
    "3-for-over-numbers": lambda: matching(r"\bfor \w+ in .*\.\."),
    "4-conversion-by-hand": lambda: matching(
        r"fn (number|value|letter|carry|raw_kind|escape_error|named|meaning|asked_by|checked)\b"
    ),
    "4-no-equality-or-debug": lambda: (
        f"{path}:{n}: {line.strip()}"
        for path, lines in sources()
        for n, line in enumerate(lines, 1)
        if re.match(r"(pub(\(crate\))? )?enum ", line) and "PartialEq" not in lines[n - 2]
    ),
    "4-printing-by-hand": lambda: matching(r"fn write_\w+"),
    "5-identity": identities,
    "5-fact-in-three-contracts": facts,
    "5-travel-together": travellers,
    "6-lent-slices-in-structs": lambda: matching(r"^\s+(pub(\(crate\))? )?\w+: &'a (mut )?\[\w+\],$"),
    "6-searched-by-hand": lambda: matching(r"fn (halve|look_up|standing|named|place_of)\b"),
    "7-class-and-test": lambda: matching(r"enum (Class|Sought|Column|InputColumn|Asked)\b"),
}


def main():
    wanted = sys.argv[1] if len(sys.argv) > 1 else ""
    for name, places in POINTS.items():
        if wanted in ("", "--counts") or name.startswith(wanted):
            found = list(places())
            if wanted != "--counts":
                print("\n".join([f"## {name}"] + found))
            print(f"{name}: {len(found)}")


main()
