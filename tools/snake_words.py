#!/usr/bin/env python3
"""Turns the repository's own definitions and lemmas from camel case to snake case, in .antt files, clauses and must-fail edits.

usage: snake_words.py FOLDER     at the top of a repository that port.py has turned

A word is turned where some .antt file has it outside a text: `handlerAt` becomes `handler_at`, and so does that part of a lemma's name, as in
`handlerAt-some`. Types and modules begin with a capital and stay. Texts in quotes stay. A lemma whose name a definition now takes gets `_lem`.
"""
import os
import re
import sys

WORD = re.compile(r"(?<![\w'])[a-z][a-z0-9\u2080-\u2089]*(?:[A-Z][A-Za-z0-9\u2080-\u2089]*)+(?![\w])")
TEXT = re.compile(r'"(?:[^"\\\n]|\\.)*"')
OTHER = {"getD": "get_or"}
# Lemmas that had the spelling which a definition now has.
TAKEN = ["constant_number", "is_block", "is_made", "row_words", "same_number", "to_block", "whole_words"]
LEMMA = re.compile(r"(?<![\w'.\u00b7-])(" + "|".join(TAKEN) + r")(?![\w'-])")


def snake(word):
    return OTHER.get(word) or re.sub(r"(?<=[a-z0-9\u2080-\u2089])([A-Z])", lambda m: "_" + m.group(1).lower(), word)


def outside_texts(text, turn):
    parts, at = [], 0
    for m in TEXT.finditer(text):
        parts += [turn(text[at : m.start()]), m.group(0)]
        at = m.end()
    return "".join(parts + [turn(text[at:])])


def files(top):
    for folder, dirs, names in os.walk(os.path.join(top, "crates")):
        dirs[:] = sorted(d for d in dirs if d != "out")
        for name in sorted(names):
            if name.endswith((".antt", ".rt", ".edit")):
                yield os.path.join(folder, name)


def main():
    top = sys.argv[1]
    texts = {}
    for path in files(top):
        with open(path, encoding="utf-8") as f:
            texts[path] = f.read()
    words = set()
    for path, text in texts.items():
        if path.endswith(".antt"):
            code = re.sub(r"(?m)--.*$", "", text)
            words |= set(WORD.findall(TEXT.sub('""', code)))
    turn = lambda part: WORD.sub(lambda m: snake(m.group(0)) if m.group(0) in words else m.group(0), part)
    changed = 0
    for path, text in texts.items():
        new = text
        if path.endswith(".antt"):
            new = LEMMA.sub(lambda m: m.group(1) + "_lem", new)
        new = outside_texts(new, turn)
        if new != text:
            changed += 1
            with open(path, "w", encoding="utf-8") as f:
                f.write(new)
    print(f"{len(words)} words, {changed} files")


main()
