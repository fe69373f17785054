#!/usr/bin/env python3
"""Turns this repository's own words to snake case, once, right after the kit's port.py ran over it.

usage: tools/port_names.py        at the top of the repository

Definitions, fields, constructors and lemmas in camel case become snake case; types and modules stay as they are. Names
of Rattle source, strings, inputs and outputs stay. The pages and the edits under must-fail/ follow, which port.py leaves.
It goes by text, and says which names fall together.
"""

import os
import re
import sys

# Where the plain turn would meet a function of src/ in the same file, or says another thing.
OWN = {
    "isLetter": "is_letter_byte",
    "firstBad": "first_bad_place",
    "firstBad-all": "first_bad_place-all",
    "firstBad-none": "first_bad_place-none",
    "belowAt": "is_below_at",
    "keyPart": "key_part_text",
    "wordPart": "word_part_text",
    "leadsTo": "led_to",
    "waysUnder": "ways_below",
    "handedOut": "handed_over",
    "placeAt": "place_from",
    "getD-put": "get_or-put",
    "getD-joined": "get_or-joined",
}

# The kit's port.py turned these words, as its library has them; what it leaves, the edits and the pages, follows.
PORTED = """above-at add-a add-at add-half add-left add-r add-right add-start after-first after-is all-live allowed-all allowed-at and-i and-l
and-mono and-none and-r any-at append-at askedOf at-all at-cut at-least at-map at-mem at-place at-value atMost before-more begun-more
block-inside both-small callsOf count-none cutAt digits-number drop-head end-more end-none entry-length entry-ready entry-spec entryOf
fill-spec filled-more filled-next filter-map filter-none find-spec first-some first-spec fits-next from-past front-long goes-on
going-next handed-out head-spec in-parts in-window inRow isNumber joined-at laid-as laid-more laid-next laid-none least-at least-first
least-lt least-more left-less length-before length-digits length-more length-over letter-at lineOf list-cases list-right listed-more
live-small low-small main-spec markOf marked-more moves-more mul-at mul-left mul-power mul-right mul-wide new-is next-here next-le
next-low next-place next-row nextAt nextOf no-longer no-start none-left none-passed not-back not-left number-append number-digits
number-lt number-short number-small numberOf numbers-fit one-more one-on or-cases or-l or-mono or-r own-at ownOf packedAt partsOf
passed-first place-at place-of placeOf put-spec rank-same read-spec reads-none reads-whole rest-lt row-fits row-here row-inside
row-last row-low row-more row-small row-zero rowOf rowsSum run-spec running-more same-length same-refl same-start same-text seen-bytes
set-holds set-to sets-rows shifted-sum shr-word sign-above sign-below signed-above signed-equal signed-same size-small sizeOf some-left
spells-one start-spec step-spec stored-at sub-part sum-inside sum-kept sum-lt sum-twice sumOf tells-at too-large turn-low two-digits
under-one unwritten-at value-same value-spec wayOf wordAt write-spec written-all written-is written-last written-new written-none
xor-assoc same-parts""".split()

# The specs' files of this name, since Rattle makes a module of it.
MODULE = ("Contracts", "Promises")

WORD = re.compile(r"[A-Za-z_ℕΣκρΛ-][\w'′·-]*")
STRING = re.compile(r"(b?\"(?:[^\"\\]|\\.)*\"|b'(?:[^'\\]|\\.)')")


def snake(part):
    """One part of a name: camel case that begins small becomes snake case."""
    if not re.fullmatch(r"[a-z][\w']*", part) or not re.search(r"[A-Z]", part):
        return part
    return re.sub(r"(?<=[a-z0-9_'])([A-Z]+)", lambda m: "_" + m.group(1).lower(), part)


def turned(word):
    if word in OWN:
        return OWN[word]
    return "-".join(snake(p) for p in word.split("-"))


def texts(ends):
    for folder, dirs, files in os.walk("crates"):
        dirs[:] = sorted(d for d in dirs if d != "out")
        for name in sorted(files):
            if name.endswith(ends):
                yield os.path.join(folder, name)


def replace(text, change):
    """Turns each word of a text, strings aside."""
    out = []
    for piece in STRING.split(text):
        if STRING.fullmatch(piece):
            out.append(piece)
        else:
            out.append(WORD.sub(lambda m: change(m.group(0)), piece))
    return "".join(out)


def main():
    words, sources = set(), set()
    for path in texts(".antt"):
        text = open(path, encoding="utf-8").read()
        words |= set(WORD.findall(STRING.sub("", text)))
    for path in texts(".rt"):
        sources |= set(WORD.findall(open(path, encoding="utf-8").read()))
    change = {w: turned(w) for w in words if turned(w) != w}
    # Edits and pages also name what port.py turned.
    ported = {}
    for w in PORTED:
        ported[w] = "_".join(snake(p) for p in w.split("-"))
    for w, t in sorted(change.items()):
        if t in words:
            print(f"falls together: {w} and {t}")
        if t in sources and w in sources:
            print(f"stands in src/ too: {w} as {t}")
    files = list(texts((".antt", ".rt")))
    for path in files:
        text = open(path, encoding="utf-8").read()
        fixed = replace(text, lambda w: change.get(w, w))
        fixed = re.sub(r"(?<=specs\.)%s(?=\.)" % MODULE[0], MODULE[1], fixed)
        if path.endswith("specs/Lib.antt"):
            fixed = re.sub(r"^pub mod %s$" % MODULE[0], "pub mod " + MODULE[1], fixed, flags=re.M)
            fixed = re.sub(r"^(-- )%s  " % MODULE[0], lambda m: m.group(1) + MODULE[1] + "   ", fixed, flags=re.M)
        if fixed != text:
            open(path, "w", encoding="utf-8").write(fixed)
    for folder, dirs, _ in os.walk("crates"):
        old = os.path.join(folder, MODULE[0] + ".antt")
        if os.path.basename(folder) == "specs" and os.path.exists(old):
            os.rename(old, os.path.join(folder, MODULE[1] + ".antt"))
    more = {**ported, **change}
    # In an edit the old paths, brackets and projections are brought over too, as far as text goes.
    for path in texts(".edit"):
        lines = open(path, encoding="utf-8").read().split("\n")
        for i, line in enumerate(lines):
            if line.startswith(("old:", "new:")):
                lines[i] = line[:4] + edit(replace(line[4:], lambda w: more.get(w, w)))
            elif not line.startswith("file:"):
                lines[i] = replace(line, lambda w: more.get(w, w))
        open(path, "w", encoding="utf-8").write("\n".join(lines))
    pages = ["README.md"] + ["docs/" + p for p in sorted(os.listdir("docs")) if p.endswith(".md") and p not in ("LANDINGS.md", "PORT.md")]
    for path in pages:
        text = open(path, encoding="utf-8").read()
        fixed = re.sub(r"`[^`\n]+`", lambda m: WORD.sub(lambda n: more.get(n.group(0), n.group(0)), m.group(0)), text)
        fixed = fixed.replace("Rattle·", "Rattle.")
        if fixed != text:
            open(path, "w", encoding="utf-8").write(fixed)


def edit(t):
    t = re.sub(r"Rattle·(\w+)·(specs|proofs)\.\2\.", r"Rattle.\1.\2.", t)
    t = re.sub(r"Rattle·(\w+)", r"Rattle.\1", t)
    for m in re.finditer(r"\{ λ r\. ⌜ (.*?) ⌝ \}", t):
        inside = re.sub(r"(?<![\w'.-])r(?![\w'-])(?! =)", "result", m.group(1))
        t = t.replace(m.group(0), "{ " + inside + " }")
    lent = set(re.findall(r"now \((\w+) \.exit\)", t))
    t = re.sub(r"\(now \((\w+) \.exit\)\)|now \((\w+) \.exit\)", lambda m: (m.group(1) or m.group(2)) + ".new", t)
    t = re.sub(r"\(now \((\w+) \.entry\)\)|now \((\w+) \.entry\)", lambda m: (m.group(1) or m.group(2)) + (".old" if (m.group(1) or m.group(2)) in lent else ".now"), t)
    t = re.sub(r"getD\b", "get_or", t)
    t = re.sub(r"bitXor\b", "bit_xor", t)
    t = re.sub(r"(?<=[\w')]) \.(\w)", r".\1", t)
    return t.replace("′", "'")


if __name__ == "__main__":
    sys.exit(main())
