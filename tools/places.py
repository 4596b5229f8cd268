#!/usr/bin/env python3
"""Lists the places in crates/*/src where an older form stands, point by point, and counts them.

    python3 tools/places.py [FOLDER]     the repository to look at, by default this one

It goes by text: what it finds is read by a person, and docs/DESIGN-PASS.md says of each place what became of it.
"""
import collections
import pathlib
import re
import sys

ROOT = pathlib.Path(sys.argv[1] if len(sys.argv) > 1 else pathlib.Path(__file__).parent.parent)
HEAD = re.compile(r"^( *)(?:pub(?:\(\w+\))? )?(?:const )?fn (\w+)", re.M)


def functions():
    """Every function outside tests: file, name, parameters, result, clauses, body."""
    for path in sorted(ROOT.glob("crates/*/src/**/*.rt")):
        if path.name == "tests.rt":
            continue
        text = path.read_text()
        name = path.relative_to(ROOT / "crates")
        for head in HEAD.finditer(text):
            end = text.find("\n" + head.group(1) + "}\n", head.end())
            whole = text[head.start():end]
            rest = whole[head.end() - head.start():].partition("(")[2]
            params = re.match(r"(?:[^()]|\([^()]*\))*", rest).group(0)
            after = rest[len(params) + 1:]
            result = re.match(r"\s*(?:->\s*([^\n{]*))?", after).group(1) or ""
            body = after.split("\n" + head.group(1) + "{", 1)
            clauses = re.findall(r"^\s*(?:requires|ensures)(?: \w+)? \{ (.*) \}$", body[0], re.M)
            code = re.sub(r"//.*", "", body[1] if len(body) > 1 else after.partition("{")[2])
            yield f"{name}: {head.group(2)}", params, result.strip(), clauses, code


def types():
    """Every struct and enum: file, name, and its fields or cases."""
    for path in sorted(ROOT.glob("crates/*/src/**/*.rt")):
        for kind, name, body in re.findall(r"^(?:pub )?(struct|enum) (\w+)[^{;]*\{\n(.*?)^\}", path.read_text(), re.M | re.S):
            fields = [line.strip().rstrip(",") for line in body.splitlines() if re.match(r"\s*(pub )?\w", line)]
            yield f"{path.relative_to(ROOT / 'crates')}: {name}", kind, [f for f in fields if not f.startswith("ghost")]


def shape(code):
    """The code with every name, number and text left out."""
    return re.sub(r"\s+", "", re.sub(r"[A-Za-z_]\w*|\d[\w_]*|b?'.'|b?\".*?\"", "a", code))


def show(title, places):
    print(f"{title}: {len(places)}")
    for place in places:
        print(f"    {place}")


ALL, TYPES = list(functions()), list(types())

BY_HAND = re.compile(r"Err\((\w+)\) => (return )?Err\(|Ok\((\w*|\(\))\) => Ok\(|None => None|None => return None|\{ Some\(\w+\) \} else \{ None \}|Some\(\w+\) => \*?\w+,\s*None =>|None => 0|Err\(_\) => return Err")
show("1a a flag beside a value", [t for t, k, f in TYPES if any(": bool" in x for x in f) and not all("bool" in x for x in f)])
show("1b an Option or a Result taken apart and made again", [p for p, _, _, _, c in ALL if BY_HAND.search(c)])
show("1c a number for a kind, or a test by bool that its caller turns into a refusal",
     [p for p, a, r, _, c in ALL if re.search(r"\b(number|code|dam): u", a) or p.endswith((": unknown", ": no_such_source"))])

groups = collections.defaultdict(list)
for p, _, _, _, c in ALL:
    if len(shape(c)) > 6 and not re.fullmatch(r"[a.:&]*\([a,.:&]*\)", shape(c)):
        groups[shape(c)].append(p)
show("2a functions that are the same but for names and numbers", [" = ".join(g) for g in groups.values() if len(g) > 1])
same = collections.defaultdict(list)
for t, k, f in TYPES:
    same[(k, tuple(re.sub(r": [A-Z]\w+$", ": T", x) for x in f))].append(t)
show("2b types that are the same but for a type", [" = ".join(g) for g in same.values() if len(g) > 1])

LOOP = re.compile(r"\b(for .* in .*|while .*|loop) \{")
show("3a loops", [f"{p}: {m.group(1)}" for p, _, _, _, c in ALL for m in LOOP.finditer(c)])
show("3b lists written out index by index",
     [f"{p}: {name}" for p, _, _, _, c in ALL for name in sorted(set(re.findall(r"(\w+(?:\.\w+)?)[\[(][345][\])]", c)))
      if len(re.findall(re.escape(name) + r"[\[(]\d[\])]", c)) > 4])

show("4a comparison, order or copying written by hand",
     [f"{path}: {x}" for path in sorted(ROOT.glob("crates/*/src/**/*.rt")) for x in re.findall(r"impl.* (?:PartialEq|Eq|PartialOrd|Ord|Clone|Copy|Hash) for \w+", path.read_text())])
show("4b a conversion or a text written by hand",
     [p for p, a, r, _, c in ALL
      if re.search(r"\bas u\d+\s*$", c.strip()) or p.endswith((": decode", ": bit", ": letter_of", ": capital", ": deepened"))
      or re.fullmatch(r"(number|code|outcome): [^,]*", a.strip()) or re.search(r"\boutcome: ", a)])

facts, pairs = collections.defaultdict(set), collections.defaultdict(set)
for p, a, _, cl, _ in ALL:
    for clause in cl:
        for fact in re.findall(r"\b(?:result|c|channel|priority|value|preload|count|word) [<≤] [\w^ ]*\w|Within \([^)]*\) \([^)]*\)", clause):
            facts[re.sub(r"\b(c|channel|result)\b(?= < 6)", "n", fact)].add(p)
    names = re.findall(r"(\w+): [^,]+", a)
    for i, x in enumerate(names):
        for y in names[i + 1:]:
            pairs[(x, y)].add(p)
show("5a a fact in three contracts or more", [f"{k}  in {len(v)}" for k, v in facts.items() if len(v) > 2])
show("5b parameters that go together in three functions or more", [f"{', '.join(k)}  in {len(v)}: {', '.join(sorted(v))}" for k, v in pairs.items() if len(v) > 2])

show("6a parallel arrays", [t for t, _, f in TYPES if sum("; 6]" in x for x in f) > 1])
show("6b a buffer with sizes beside it", [t for t, _, f in TYPES if any("Vec<" in x for x in f) and len(f) > 1])

show("7a a chain of tests for which reader to run", [p for p, _, _, _, c in ALL if len(re.findall(r"if let Some\(\w+\) = ", c)) > 1])
show("7b functions that differ in the step they take on a lent row", [p for p, _, _, _, c in ALL if "let row = &mut rows[" in c])
show("7c closures", [p for p, _, _, _, c in ALL if re.search(r"[(=,] ?(move )?\|[\w, &*()]*\| ", c)])
