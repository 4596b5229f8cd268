#!/usr/bin/env python3
"""Brings the repository's own definitions, fields and lemmas to the spelling that Rattle's library uses.

A type or a fact is written in upper camel case, everything else in snake case: `after-stop` becomes `after_stop`,
`Nobody-listens` becomes `NobodyListens`. Only names that a file of specs/ or proofs/ defines are respelled, and only
whole names; functions of src/, strings, comments, goals (whose names Rattle makes) and inputs keep their spelling.

    tools/respell.py [FOLDER]     respells every crate below FOLDER/crates, and prints the names that changed
"""
import glob
import re
import sys

NAME = r"[^\s(){}\[\].,;:|«»]+"
DEFINED = re.compile(r"^\s*(?:(?:pub|abbrev|unfoldable|record|data|ruleset)\s+)*(" + NAME + r")\s*(?:[({].*[)}])?\s*:(?:\s|$)")
RECORD = re.compile(r"^\s*(?:pub\s+)?(?:record|data)\s+(" + NAME + r")")
TOKEN = re.compile(NAME)

def respelled(name):
    if not re.search(r"[A-Za-z]", name):
        return name
    if name[0].isupper():
        parts = re.split(r"[-_]", name)
        return "".join(part[:1].upper() + part[1:] for part in parts)
    return name.replace("-", "_")


def of_a_goal(lines, at):
    """Whether the signature at this line is that of a goal, an invariant or a measure."""
    text = lines[at].split(":", 1)[1] if ":" in lines[at] else ""
    return re.match(r"\s*(goal|need)\.", text) is not None


def definitions(files):
    names = set()
    for path in files:
        lines = open(path, encoding="utf-8").read().split("\n")
        for at, line in enumerate(lines):
            if line.lstrip().startswith(("--", "use ")):
                continue
            for pattern in (DEFINED, RECORD):
                found = pattern.match(line)
                if found and not of_a_goal(lines, at):
                    names.add(found.group(1))
    return names


def in_antt(text, table):
    out = []
    for line in text.split("\n"):
        code, dashes, comment = line.partition("-- ") if not line.lstrip().startswith("--") else ("", "", line)
        out.append(TOKEN.sub(lambda m: table.get(m.group(0), m.group(0)), code) + dashes + comment)
    return "\n".join(out)


def in_source(text, table):
    """Respells in clauses and ghost items; strings and comments stay."""
    out = []
    for line in text.split("\n"):
        parts = re.split(r'("(?:[^"\\]|\\.)*"|//.*$)', line)
        for at in range(0, len(parts), 2):
            parts[at] = TOKEN.sub(lambda m: table.get(m.group(0), m.group(0)), parts[at])
        out.append("".join(parts))
    return "\n".join(out)


def main():
    top = sys.argv[1] if len(sys.argv) > 1 else "."
    defining = glob.glob(f"{top}/crates/*/specs/*.antt") + glob.glob(f"{top}/crates/*/proofs/**/*.antt", recursive=True)
    table = {name: respelled(name) for name in definitions(defining) if respelled(name) != name}
    sources = glob.glob(f"{top}/crates/*/src/**/*.rt", recursive=True) + glob.glob(f"{top}/crates/*/must-fail/*.edit")
    for paths, turn in ((defining, in_antt), (sources, in_source)):
        for path in paths:
            text = open(path, encoding="utf-8").read()
            turned = turn(text, table)
            if turned != text:
                open(path, "w", encoding="utf-8").write(turned)
    for name in sorted(table):
        print(name, table[name])


if __name__ == "__main__":
    main()
