#!/usr/bin/env python3
"""Brings the repository's own words of specs/ and proofs/ to snake case: someOf becomes some_of.

usage: python3 tools/respell.py [FOLDER]     after the move to the newer spelling, once

A word is one of ours where it begins with a small letter and has a capital behind a small letter or a digit.
Types, modules and constructors that begin with a capital stay, and so do the words that the move itself made
(as is_Known) and hexadecimal digits. In .rt files only clauses, ghost use lines and comments have such words:
strings are passed over. A word whose new spelling stood already is listed as 'together', and is given the ending
that TOGETHER names.
"""

import os
import re
import sys

WORD = re.compile(r"(?<![\w'·◌-])[a-z][\w']*(?:-[\w']+)*")
STRING = re.compile(r'b?"(?:[^"\\]|\\.)*"')
STAY = {"aF", "eP", "eQ", "is_Known", "is_Within", "on_Row", "mut_slice_Tells", "shr_slice_Lawful", "shr_slice_Tells", "uint_Lawful", "uint_Makes", "uint_Tells", "walk_Meets"}
# Lemmas beside a word whose new spelling they have: each gets the ending _lem, as its like does in the library.
LEMMAS = {
    "crates/history/proofs/Fates.antt": ["is_open"],
    "crates/layout/proofs/Images.antt": ["table_fits"],
    "crates/ledger/proofs/Filling.antt": ["lines_at", "store_at"],
    "crates/ledger/proofs/Left.antt": ["lines_at", "store_at", "store_by"],
    "crates/ledger/proofs/Plain.antt": ["plain_lines"],
    "crates/run/proofs/Left.antt": ["left_by"],
    "crates/table/proofs/Read.antt": ["with_rows"],
}


def snake(word):
    if word in STAY or re.fullmatch(r"x[0-9A-F]+", word):
        return word
    if not re.search(r"[a-z0-9][A-Z]", word) or "_" in word and re.search(r"_[A-Z]", word):
        return word
    return re.sub(r"(?<=[a-z0-9])([A-Z])", lambda m: "_" + m.group(1).lower(), word)


def turn(text, strings_stay):
    def words(t):
        return WORD.sub(lambda m: snake(m.group(0)), t)

    if not strings_stay:
        return words(text)
    out, at = [], 0
    for m in STRING.finditer(text):
        out += [words(text[at:m.start()]), m.group(0)]
        at = m.end()
    return "".join(out + [words(text[at:])])


def main():
    root = sys.argv[1] if len(sys.argv) > 1 else "."
    files, renamed = [], {}
    for folder, dirs, names in os.walk(os.path.join(root, "crates")):
        dirs[:] = sorted(d for d in dirs if d not in ("out", "must-fail"))
        files += [os.path.join(folder, n) for n in sorted(names) if n.endswith((".rt", ".antt"))]
    for path in files:
        with open(path, encoding="utf-8") as f:
            old = f.read()
        text = old
        for lemma in LEMMAS.get(os.path.relpath(path, root), []):
            text = re.sub(rf"(?<![\w'.-]){lemma}(?![\w'-])", lemma + "_lem", text)
        stood = set(WORD.findall(re.sub(r"--.*", "", text)))
        for word in sorted(stood):
            if snake(word) != word:
                renamed[word] = snake(word)
                if path.endswith(".antt") and snake(word) in stood:
                    print(f"together: {path}: {word} {snake(word)}")
        text = turn(text, path.endswith(".rt"))
        if text != old:
            with open(path, "w", encoding="utf-8") as f:
                f.write(text)
    for word, new in sorted(renamed.items()):
        print(f"renamed: {word} {new}")


main()
