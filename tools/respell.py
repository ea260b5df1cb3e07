#!/usr/bin/env python3
"""Brings the names that specs/ and proofs/ define to today's spelling: types in upper camel case, everything else in snake case.

usage: tools/respell.py [--dry]     at the top of the repository, once, after port.py

It takes the names that the files of specs/ and proofs/ define: definitions, lemmas, records and their fields, constructors, parameters
and local names. It turns each wherever it stands as a whole word in the clauses, imports and proofs. Names that Rattle generates
(goals, steps) and names of the code stay. It lists where two names would fall together. A word of std that was imported under the
name of another, AllByRecursion as All, is written out.
"""

import collections
import os
import re
import sys

TOP = os.path.dirname(os.path.dirname(os.path.abspath(__file__)))
NAME = r"[^\W\d][\w'\-]*"
GIVEN = re.compile(r"(?<![\w'\-])(?:goal|c|l|w|g|t|at|Goals|Given)((?:\.[\w'\-«»]+)+)")

# Names that would fall together with another name when their dashes go: a lemma with the name of a function gets _lem.
OTHER = {
    "read_number": "read_number_lem",
    "read-literal": "read_literal_lem",
    "words-of": "words_of_lem",
    "literalOf": "literal_by_sign",
    "outOfRange": "number_out_of_range",
    "next-room": "next_room_lem",
    "blocks-stand": "blocks_stand_lem",
    "formed-stands": "formed_stands_lem",
    "histories-stand": "histories_stand_lem",
    "numbers-stand": "numbers_stand_lem",
    "once-stands": "once_stands_lem",
    "reading-stands": "reading_stands_lem",
    "stored-stands": "stored_stands_lem",
    "texts-stand": "texts_stand_lem",
    "words-stand": "words_stand_lem",
    "Goes_on": "GoesOn",
}

# Lemmas of std that a proof's first word is read as a definition of.
LIBRARY = ("All-map", "All-weaker", "All-from_get_or")


def files(ending):
    for folder, dirs, names in os.walk(os.path.join(TOP, "crates")):
        dirs[:] = sorted(d for d in dirs if d not in ("out", "must-fail"))
        for name in sorted(names):
            if name.endswith(ending):
                yield os.path.join(folder, name)


def read(path):
    with open(path, encoding="utf-8") as f:
        return f.read()


def bare(text):
    """The text without comments."""
    return re.sub(r"(?m)--\s.*$", "", text)


def defined(text):
    """Each name that the text defines, and whether it is a type's."""
    for line in bare(text).split("\n"):
        m = re.match(r"\s*(?:abbrev |unfoldable )?(?:pub )?(?:abbrev |unfoldable )?(data |record )?(" + NAME + r")\s*((?:[({].*?)?):(?:\s|$)", line)
        if m and "goal." not in line and m[2] not in ("let", "where", "in"):
            yield m[2], bool(m[1]) or m[2][0].isupper()
        m = re.match(r"\s+((?:" + NAME + r" )+): ", line)
        if m and "goal." not in line:
            for name in m[1].split():
                if name not in ("pub", "abbrev", "unfoldable"):
                    yield name, name[0].isupper()
        for m in re.finditer(r"[({]((?:" + NAME + r" )+): ", line):
            for name in m[1].split():
                yield name, False
        for m in re.finditer(r"\blet (" + NAME + r")", line):
            yield m[1], False
        for m in re.finditer(r"λ ((?:" + NAME + r" ?)+)\.", line):
            for name in m[1].split():
                yield name, False
        for m in re.finditer(r" as (" + NAME + r")\b", line):
            yield m[1], m[1][0].isupper()


def turned(name, is_type):
    if name in OTHER:
        return OTHER[name]
    if is_type:
        return "".join(p[:1].upper() + p[1:] for p in name.split("-"))
    parts = []
    for p in name.split("-"):
        if p[:1].islower():
            p = re.sub(r"(?<=[a-z0-9])([A-Z])", lambda m: "_" + m[1].lower(), p)
        parts.append(p)
    return "_".join(parts)


def main(dry):
    texts = {p: read(p) for p in files(".antt")}
    sources = {p: read(p) for p in files(".rt")}
    names, types = {}, {}
    for path, text in texts.items():
        for name, is_type in defined(text):
            types[name] = types.get(name, False) or is_type
    generated = set()
    for path, text in texts.items():
        if os.path.basename(path) in ("Answers.antt", "Invariants.antt", "Proof.antt"):
            for m in re.finditer(r"(?m)^\s*(?:abbrev )?pub (" + NAME + r") : goal\.", text):
                generated.add(m[1])
            for m in GIVEN.finditer(text):
                generated |= set(m[1].split(".")[1:3])
    for name, is_type in types.items():
        new = turned(name, is_type)
        if new != name and name not in LIBRARY:
            names[name] = new
    words = collections.Counter()
    for text in list(texts.values()) + list(sources.values()):
        words.update(re.findall(r"(?<![\w'\-])" + NAME, text))
    kept = sorted(n for n in names if n in generated)
    clash = sorted((n, new) for n, new in names.items() if words[new] and n not in OTHER)
    twice = [(new, k) for new, k in collections.Counter(names.values()).items() if k > 1]
    print(f"{len(names)} names; also generated: {kept}")
    print("would fall together with a name that stands already:")
    for n, new in clash:
        print("  ", n, new, words[new])
    print("would fall together with one another:", [(new, sorted(n for n in names if names[n] == new)) for new, _ in twice])
    if dry:
        return 0
    whole = re.compile(r"(?<![\w'\-])(" + "|".join(sorted(map(re.escape, names), key=len, reverse=True)) + r")(?![\w'\-])")
    for path, text in list(texts.items()) + list(sources.items()):
        new = whole.sub(lambda m: names[m[1]], text)
        if "AllByRecursion as All" in new:
            new = re.sub(r"(?<![\w'\-])All(?![\w'\-])", "AllByRecursion", new.replace("AllByRecursion as All", "AllByRecursion"))
        if new != text:
            with open(path, "w", encoding="utf-8") as f:
                f.write(new)
    return 0


if __name__ == "__main__":
    raise SystemExit(main("--dry" in sys.argv))
