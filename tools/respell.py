#!/usr/bin/env python3
"""Brings the repository's own words of specs/ and proofs/ to snake case: run once, at the top, after the toolchain's
port.py.

Words in lowerCamelCase, and fields and constructors with a dash, get underscores, in antt files, in clauses, and in edits.
Functions of src/ have snake case already; inputs and outputs are left alone. It tells where two words of one file become
one.
"""
import glob
import re
import sys

WORD = re.compile(r"[A-Za-z_λ][\w'\-]*")
# parts of names that the check makes from a variant of the code
MADE = "WriteBack"
GLOBS = [
    "crates/*/specs/**/*.antt",
    "crates/*/proofs/**/*.antt",
    "crates/*/src/**/*.rt",
    "crates/*/must-fail/*.edit",
    "planted/**/*.edit",
]


def snake(word):
    word = word.replace("getD", "get_or")
    return re.sub(r"(?<=[a-z0-9])([A-Z])", lambda m: "_" + m.group(1).lower(), word)


def camel_words(texts):
    words = set()
    for text in texts:
        for word in WORD.findall(re.sub(r"--.*|//.*", "", text)):
            if word[0].islower() and re.search(r"[a-z0-9][A-Z]", word) and MADE not in word:
                words.add(word)
    return words


def dashed_members(text):
    """Fields of records and constructors of data, which have a dash."""
    words, inside = set(), False
    for line in text.split("\n"):
        if re.match(r"\s*(pub )?(record|data) ", line):
            inside = True
        elif line and not line.startswith((" ", "--")):
            inside = False
        elif inside and (m := re.match(r"\s+(?:pub )?([a-z][\w']*(?:-[\w']+)+) :", line)):
            words.add(m.group(1))
    return words


def main():
    paths = sorted(p for g in GLOBS for p in glob.glob(g, recursive=True))
    texts = {p: open(p, encoding="utf-8").read() for p in paths}
    names = {w: snake(w) for w in camel_words(texts[p] for p in paths if not p.endswith(".edit"))}
    for path in paths:
        if path.endswith(".antt"):
            names.update({w: w.replace("-", "_") for w in dashed_members(texts[path])})
    for path in paths:
        words = set(re.findall(r"(?<![\w'.\-])[A-Za-z_][\w'\-]*(?![\w'\-]|\.[a-z])", texts[path]))
        made = {}
        for word in sorted(words):
            other = made.setdefault(names.get(word, word), word)
            if path.endswith(".antt") and other != word:
                print(f"falls together in {path}: {word} and {other}")
    if "--dry" in sys.argv:
        for word in sorted(names):
            print(word, names[word])
        return
    for path, text in texts.items():
        new = WORD.sub(lambda m: names.get(m.group(0), m.group(0)), text)
        if new != text:
            open(path, "w", encoding="utf-8").write(new)


main()
