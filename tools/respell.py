#!/usr/bin/env python3
"""Brings the repository's own definitions and lemmas to today's spelling: words in snake case, types in camel case.

usage: python3 tools/respell.py [--dry | --anyway]      at the top of the checkout, once, right after the kit's port.py

It renames what specs/ and proofs/ define (definitions, lemmas, fields of records, constructors), in .antt files, in
the clauses and ghost items of .rt files, and where a page or a comment names one in backticks. Functions and types of
src/, strings, inputs and outputs keep their names, and so do the goals that Rattle names. It stops, with nothing
written, where two names would fall together (--anyway goes on; --dry writes nothing in any case). A definition may have the name of the function of src/ that it describes:
clauses and code never mean one another's names.
"""
import glob
import os
import re
import sys

DEF = re.compile(r"^\s*(?:abbrev pub |abbrev |unfoldable pub |unfoldable |pub )*(?:record |data )?([^\s(){}\[\]:.,;]+)(?: .*?)? : (.*)$")
GOAL = re.compile(r"^(?:goal|given)\.")
EDGE = r"[\w'′·◌-]"
ANTT_COMMENT = re.compile(r"--(?=\s|$)")


def files(kind):
    found = []
    for folder in ("specs", "proofs"):
        found += glob.glob(f"crates/*/{folder}/**/*.antt", recursive=True)
    if kind == "antt":
        return sorted(found)
    return sorted(glob.glob("crates/*/src/**/*.rt", recursive=True))


# Lemmas on `bit` whose plain respelling is the library's name of an operation.
BY_HAND = {"bit-and": "bit_of_and", "bit-or": "bit_of_or", "bit-xor": "bit_of_xor"}


def respelled(name):
    if name in BY_HAND:
        return BY_HAND[name]
    if name[0].isupper():
        return "".join(w[:1].upper() + w[1:] for w in re.split(r"[-_]", name))
    words = re.sub(r"(?<=[a-z0-9])([A-Z])", lambda m: "_" + m[1].lower(), name)
    return words.replace("-", "_")


def defined():
    names, goals = set(), set()
    for path in files("antt"):
        for line in open(path, encoding="utf-8"):
            if line.lstrip().startswith("--"):
                continue
            m = DEF.match(line.rstrip("\n"))
            if not m:
                continue
            (goals if GOAL.match(m[2]) else names).add(m[1])
    return names - goals


def imported_from_library():
    """Names that some file imports from the kit: those are the library's."""
    taken = set()
    for path in files("antt") + files("rt"):
        text = open(path, encoding="utf-8").read()
        for m in re.finditer(r"use (?:Rattle\.std|borrow|mathlib|native|Prim|lib|denote)\b[^;\n{]*\{([^}]*)\}", text):
            taken |= {part.split(" as ")[0].strip() for part in m[1].split(",")}
    return taken


def split_antt(text):
    """(is code, part) by comments."""
    parts = []
    for line in text.splitlines(keepends=True):
        m = ANTT_COMMENT.search(line)
        if m:
            parts += [(True, line[:m.start()]), (False, line[m.start():])]
        else:
            parts.append((True, line))
    return parts


def split_rt(text):
    parts, at = [], 0
    for m in re.finditer(r'//[^\n]*|"(?:\\.|[^"\\])*"', text):
        parts += [(True, text[at:m.start()]), (m[0].startswith("//") and False or None if m[0].startswith('"') else False, m[0])]
        at = m.end()
    return parts + [(True, text[at:])]


def main(argv):
    own = {n for n in defined() - imported_from_library()}
    turn = {n: respelled(n) for n in own if respelled(n) != n}
    if not turn:
        print("respell: nothing to do")
        return 0
    pattern = re.compile(rf"(?<!{EDGE})(" + "|".join(sorted(map(re.escape, turn), key=len, reverse=True)) + rf")(?!{EDGE})")
    swap = lambda t: pattern.sub(lambda m: turn[m[1]], t)
    spans = lambda t: re.sub(r"`[^`\n]*`", lambda m: swap(m[0]), t)
    clashes, out = [], {}
    for kind in ("antt", "rt"):
        for path in files(kind):
            text = open(path, encoding="utf-8").read()
            parts = split_antt(text) if kind == "antt" else split_rt(text)
            code = "".join(p for is_code, p in parts if is_code)
            for name in set(m[1] for m in pattern.finditer(code)):
                if kind == "rt" and re.search(rf"\bfn {re.escape(turn[name])}\b", code):
                    continue
                if re.search(rf"(?<![\w'′·◌.-]){re.escape(turn[name])}(?!{EDGE})", code):
                    clashes.append(f"{path}: {name} would become {turn[name]}, which stands there")
            new = "".join(swap(p) if is_code else spans(p) if is_code is False else p for is_code, p in parts)
            if new != text:
                out[path] = new
    for path in sorted(glob.glob("*.md") + glob.glob("docs/*.md") + glob.glob("boards/*.md")):
        text = open(path, encoding="utf-8").read()
        if spans(text) != text:
            out[path] = spans(text)
    seen = {}
    for name in sorted(own):
        if respelled(name) in seen:
            clashes.append(f"{name} and {seen[respelled(name)]} would both be {respelled(name)}")
        seen[respelled(name)] = name
    print("\n".join(clashes))
    print(f"respell: {len(turn)} names in {len(out)} files, {len(clashes)} that fall together")
    if "--dry" in argv or (clashes and "--anyway" not in argv):
        return 1 if clashes else 0
    for path, text in out.items():
        with open(path, "w", encoding="utf-8") as f:
            f.write(text)
    return 0


if __name__ == "__main__":
    raise SystemExit(main(sys.argv[1:]))
