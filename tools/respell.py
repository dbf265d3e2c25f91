#!/usr/bin/env python3
"""Brings the repository's own names to today's spelling, once, after port.py of the toolchain: words in snake case.

usage: python3 tools/respell.py [--list]     at the top of the repository

A word of specs/ and proofs/, and a field or a local of src/, that is in camel case becomes snake case (`deviceType` is
`device_type`). In a lemma's name a dash stays only between two names; before any other word it is an underscore
(`length-packed_in`, `card_file_card`). Functions of src/, exported names, strings and types keep their spelling, and so do the
names that a check generates. A lemma that would have a word's name gets `_lem`. It
stops, and writes nothing, where two names would fall together.
"""

import os
import re
import sys

TOP = os.path.dirname(os.path.dirname(os.path.abspath(__file__)))
WORD = re.compile(r"(?<![\w'₀-₉·-])[A-Za-z_+][\w'₀-₉]*(?:-[\w'₀-₉+]+)*")
CAMEL = re.compile(r"^_?[a-z][a-z0-9]*(?:[A-Z][A-Za-z0-9]*)+'*[₀-₉]*'*$")
DECLARED = re.compile(r"^[ ]*(?:(?:pub|abbrev|unfoldable) )*([A-Za-z+][\w'₀-₉+-]*) :(?: |$)")
KIT = set("length drop take set sets map sum get_or append replicate add sub mul div mod zero one suc nil cons all any min max filter reverse take_at drop_at pow".split())
# Lemmas that would fall together with a word in the file where they stand, and what they are called there instead.
LEMMAS = {
    "benches/proofs/JoinedPassesCauses.antt": {"to_end": "to_end_lem"},
    "cards/proofs/FileOfFile.antt": {"by_itself": "by_itself_lem"},
}


def files(*ends):
    for folder, dirs, names in os.walk(os.path.join(TOP, "crates")):
        dirs[:] = sorted(d for d in dirs if d != "out")
        for n in sorted(names):
            if n.endswith(ends):
                yield os.path.join(folder, n)


def read(p):
    with open(p, encoding="utf-8") as f:
        return f.read()


def snake(word):
    return re.sub(r"(?<=[a-z0-9])([A-Z])", lambda m: "_" + m.group(1).lower(), word)


def parts(text, mark):
    """The text as (is code, part): comments and, in .rt, strings are no code."""
    pattern = r"--.*" if mark == "--" else r"//.*|\"(?:[^\"\\]|\\.)*\""
    at = 0
    for m in re.finditer(pattern, text):
        if mark == "--" and m.start() > 0 and text[m.start() - 1] not in " \n":
            continue
        yield True, text[at : m.start()]
        yield False, m.group()
        at = m.end()
    yield True, text[at:]


def plan():
    seen, declared, functions = set(), set(), set()
    for p in files(".antt", ".rt"):
        mark = "--" if p.endswith(".antt") else "//"
        text = read(p)
        for code, part in parts(text, mark):
            if code:
                seen |= set(WORD.findall(part))
        if mark == "//":
            functions |= set(re.findall(r"fn ([a-z_0-9]+)", text))
        elif not p.endswith(("/Proof.antt", "/Answers.antt", "/Invariants.antt")):
            declared |= {m.group(1) for line in text.split("\n") if (m := DECLARED.match(line))}
    names = {w for w in declared if "-" not in w} | {snake(w) for w in declared if "-" not in w} | functions | KIT
    new = {}
    for w in seen:
        if "-" not in w and CAMEL.match(w):
            new[w] = snake(w)
    for w in declared:
        if "-" in w:
            bits = [snake(b) if CAMEL.match(b) else b for b in w.split("-")]
            text = bits[0]
            for a, b in zip(bits, bits[1:]):
                text += ("-" if re.sub(r"[₀-₉']+$", "", a) in names and re.sub(r"[₀-₉']+$", "", b) in names else "_") + b
            if text != w:
                # a lemma that would have a function's or a word's name
                taken = text in seen or text in functions or any(snake(c) == text for c in new if "-" not in c)
                new[w] = text + "_lem" if taken else text
    return new, seen, functions


def clashes(new):
    back = {}
    for old, word in new.items():
        back.setdefault(word, set()).add(old)
    return [(word, olds) for word, olds in sorted(back.items()) if len(olds) > 1]


def main():
    new, seen, functions = plan()
    if "--list" in sys.argv:
        for old in sorted(new):
            print(old, new[old])
    bad = clashes(new)
    if bad:
        raise SystemExit("\n".join(f"{w}: {' '.join(sorted(o))}" for w, o in bad))
    if "--list" in sys.argv:
        return
    turn = lambda part, dashes: WORD.sub(lambda m: new.get(m.group(), m.group()) if dashes or "-" not in m.group() else m.group(), part)
    for p in files(".antt", ".rt", ".edit"):
        text = before = read(p)
        for word, other in LEMMAS.get(os.path.relpath(p, os.path.join(TOP, "crates")), {}).items():
            text = WORD.sub(lambda m: other if m.group() == word else m.group(), text)
        if p.endswith(".edit"):
            out = "\n".join(turn(line, True) if line.startswith(("old:", "new:")) else line for line in text.split("\n"))
        else:
            mark = "--" if p.endswith(".antt") else "//"
            out = "".join(part if not code and part[0] == '"' else turn(part, code) for code, part in parts(text, mark))
        if out != before:
            with open(p, "w", encoding="utf-8") as f:
                f.write(out)
    docs = [os.path.join(TOP, "docs", n) for n in sorted(os.listdir(os.path.join(TOP, "docs"))) if n.endswith(".md") and not n.startswith("PORT")]
    for p in docs:
        text = read(p)
        out = re.sub(r"`[^`\n]*`", lambda m: turn(m.group(), True), text)
        if out != text:
            with open(p, "w", encoding="utf-8") as f:
                f.write(out)


main()
