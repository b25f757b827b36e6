#!/usr/bin/env python3
"""Brings the repository's own definitions and lemmas to snake case, by the table respell.tsv beside this file: run once at the top, after port.py.
A row `old new` is a word everywhere in the proofs, the specs, the clauses, the must-fail edits, and between backticks in the pages. A row `lemma old new` gives a
lemma back the dash that kept it apart from a definition of that name: it goes for the files that declare or import the lemma. Strings keep their text."""
import glob
import os
import re

SEP = r"\s(){}\[\];,.\"`«»⟨⟩"
TOK = re.compile(r"[^%s]+" % SEP)
HERE = os.path.dirname(os.path.abspath(__file__))


def table():
    words, lemmas = {}, {}
    for line in open(os.path.join(HERE, "respell.tsv")):
        row = line.rstrip("\n").split("\t")
        if row[0] == "lemma":
            lemmas[row[1]] = (row[2], set(row[3:]))
        else:
            words[row[0]] = row[1]
    return words, lemmas


def respelled(text, words):
    return TOK.sub(lambda m: words.get(m.group(0), m.group(0)), text)


def dashed(text, name, new):
    # not a module or field of a path
    return re.sub(r"(?<![^%s])(?<!\.)%s(?![^%s])(?!\.[A-Z])" % (SEP, re.escape(name), SEP), new, text)


def outside_strings(text, words):
    parts = re.split(r'("(?:[^"\\\n]|\\.)*")', text)
    return "".join(p if i % 2 else respelled(p, words) for i, p in enumerate(parts))


def ticked(text, words):
    return re.sub(r"`[^`\n]+`", lambda m: respelled(m.group(0), words), text)


def main():
    words, lemmas = table()
    antt = glob.glob("crates/*/specs/**/*.antt", recursive=True) + glob.glob("crates/*/proofs/**/*.antt", recursive=True)
    turned = [(f, respelled) for f in antt]
    turned += [(f, outside_strings) for f in glob.glob("crates/*/src/**/*.rt", recursive=True)]
    turned += [(f, respelled) for f in glob.glob("crates/*/must-fail/*.edit")]
    turned += [(f, ticked) for f in ["README.md", "oracle/README.md"] + glob.glob("docs/**/*.md", recursive=True)]
    for path, turn in turned:
        with open(path) as f:
            old = f.read()
        new = old
        if path.endswith(".antt"):
            for name, (dash, files) in lemmas.items():
                if path in files:
                    new = dashed(new, name, dash)
        new = turn(new, words)
        if new != old:
            with open(path, "w") as f:
                f.write(new)


main()
