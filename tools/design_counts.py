#!/usr/bin/env python3
"""Counts, in a checkout, the places that docs/DESIGN-PASS.md speaks of, and lists them: python3 tools/design_counts.py [FOLDER] [--list]."""

import re
import sys
from collections import defaultdict
from pathlib import Path

LIST = "--list" in sys.argv
folder = Path(next((a for a in sys.argv[1:] if not a.startswith("--")), "."))
sources = {p: p.read_text() for p in sorted(folder.glob("crates/*/src/**/*.rt"))}


def told(name, places):
    """A line of the count; with --list the places below it."""
    print(f"{len(places):4}  {name}")
    if LIST:
        for place in places:
            print("        " + place)


def lines(pattern, comments=False):
    """Each line of code that has the pattern; of comments where asked."""
    found = []
    for path, text in sources.items():
        for number, line in enumerate(text.split("\n"), 1):
            if line.lstrip().startswith("//") == comments and re.search(pattern, line):
                found.append(f"{path.relative_to(folder)}:{number}: {line.strip()}")
    return found


def functions():
    """Each function: its file, its name, its parameters and its body without comments."""
    for path, text in sources.items():
        for head in re.finditer(r"\bfn (\w+)(?:<[^>(]*>)?\(([^{]*?)\)", text):
            start = re.compile(r"^\s*(?:requires|ensures).*\n|^\s*\{|\{$", re.M)
            at = head.end()
            while True:
                m = start.search(text, at)
                if not m:
                    break
                at = m.end()
                if not re.match(r"\s*(requires|ensures)", m.group()):
                    depth, end = 1, at
                    while depth and end < len(text):
                        depth += {"{": 1, "}": -1}.get(text[end], 0)
                        end += 1
                    yield path, head.group(1), head.group(2), re.sub(r"//.*", "", text[at : end - 1])
                    break


FUNCTIONS = list(functions())

print("1. Flags, sentinels, numbers for kinds and refusals")
told("a field or parameter that is a refusal's number", lines(r"^(pub )?refusal: u64,?$|^\s+(pub )?refusal: u64,$"))
told("a function that answers a refusal's number", lines(r"fn \w*refusal\w*\(.*-> u64"))
told("a constant that numbers a kind, or marks what is none", lines(r"^(pub )?const [A-Z_]+: \w+ = (\d+|u\d+::MAX);"))
told("an answer that stands for none, as the comment says", lines(r"(; |answers .*; |, or )(the (text's |room's )?length|\d+|NONE|NOWHERE|i \+ 2|none) (where|behind)|^// word does. Elsewhere none", comments=True))

print("2. Twins")
shapes = defaultdict(list)
for path, name, _, body in FUNCTIONS:
    shape = re.sub(r"\b(?!(?:while|for|if|else|match|return|let|mut|loop|in|as|true|false|self)\b)[A-Za-z_]\w*\b|\d+", "x", re.sub(r"\s+", " ", body)).strip()
    if len(shape) > 60:
        shapes[shape].append(f"{path.relative_to(folder)}: {name}")
told("functions whose bodies differ in names and numbers alone", [f for fs in shapes.values() if len(fs) > 1 for f in fs])
records = defaultdict(list)
for path, text in sources.items():
    for m in re.finditer(r"\bstruct (\w+)(?:<[^>]*>)? \{\n((?:[^}]*\n)?)\}", text):
        fields = re.sub(r"\s*//.*", "", m.group(2))
        records[re.sub(r"\w+: ", "x: ", re.sub(r"pub |\s+", " ", fields))].append(f"{path.relative_to(folder)}: {m.group(1)}")
told("structs whose fields have the same types", [f for fs in records.values() if len(fs) > 1 for f in fs])

print("3. Loops that are written by hand")
told("a while or a loop", lines(r"^\s*('\w+: )?(while .*\{|loop \{)$"))

print("4. Comparison, order, conversion and printing by hand")
told("a function that is one comparison or one conversion", [f"{p.relative_to(folder)}: {n}" for p, n, _, b in FUNCTIONS if re.fullmatch(r"\s*(\w+ as u\d+|if \w+ < \w+ \{ \w+ \} else \{ \w+ \}|if x < y \{.*)\s*", b, re.S)])
told("a call of the least of two numbers by a function of the house", lines(r"(?<!fn )\blesser\("))
told("a wrapping sum by a function and not a method", lines(r"(?<!::)\bwrapping_add_u64\(|num::wrapping_add_u64\("))
told("a comparison with a byte string by as_slice", lines(r"\.as_slice\(\)"))

print("5. Facts of three contracts or more, parameters that travel together")
facts = []
for crate in sorted({p.parts[len(folder.parts) + 1] for p in sources}):
    count = defaultdict(set)
    for path, text in sources.items():
        if path.parts[len(folder.parts) + 1] == crate:
            for m in re.finditer(r"\bfn (\w+)[^{}]*?\n((?:\s*(?:requires|ensures)[^\n]*\n)+)", text):
                for fact in set(re.findall(r"\b[A-Z][A-Za-z]{3,}\b", m.group(2))) - {"List"}:
                    count[fact].add(m.group(1))
    facts += [f"{crate}: {fact}, {len(f)} functions: {', '.join(sorted(f))}" for fact, f in sorted(count.items()) if len(f) >= 3]
told("a fact that stands in the contracts of three functions of a crate or more", facts)
triples = []
for path in sources:
    count = defaultdict(set)
    for p, name, params, _ in FUNCTIONS:
        if p == path:
            names = [re.sub(r"\bmut |\s", "", x.split(":")[0]) for x in params.split(",") if ":" in x]
            for i, a in enumerate(names):
                for j in range(i + 1, len(names)):
                    for k in range(j + 1, len(names)):
                        count[(a, names[j], names[k])].add(name)
    triples += [f"{path.relative_to(folder)}: {', '.join(t)}, {len(f)} functions" for t, f in sorted(count.items()) if len(f) >= 3]
told("three parameters that travel together through three functions or more", triples)

print("6. Buffers with a length beside, parallel arrays, fixed arrays for lists")
parallel = []
for path, text in sources.items():
    for m in re.finditer(r"\bstruct (\w+)(?:<[^>]*>)? \{\n((?:[^}]*\n)?)\}", text):
        lengths = re.findall(r": \[\w+; (\w+)\]", m.group(2))
        if len(lengths) > len(set(lengths)):
            parallel.append(f"{path.relative_to(folder)}: {m.group(1)}")
told("a struct with two arrays of one length or more", parallel)
told("a length beside an array", lines(r"^\s+(pub )?length: usize,$"))
told("a name for an array of fixed length", lines(r"^(pub )?type \w+ = \[\w+; \w+\];"))

print("7. A switch on which step to run")
told("a match on a number that names the step", lines(r"^\s*match n \{$"))
told("an if in a chain on a name", lines(r"if operation == b\""))

print("8. Proofs")
goals = [p for p in sorted(folder.glob("crates/*/proofs/**/*.antt"))]
told("answers to goals", [f"{p.relative_to(folder)}: {n}" for p in goals for n in re.findall(r"^pub (\S+) : goal\.", p.read_text(), re.M)])
told("measures of loops", [f"{p.relative_to(folder)}: {n}" for p in goals for n in re.findall(r"^abbrev pub (decreases-\S+) : goal\.", p.read_text(), re.M)])
print(f"{sum(len(p.read_text().splitlines()) for p in goals):6}  lines of proofs/")

print("Kept, with the reason beside it")
told("a line 'By hand:'", lines(r"// By hand: ", comments=True))
