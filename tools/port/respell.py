#!/usr/bin/env python3
"""Turns this repository's own definitions and lemmas to the spelling of today's Rattle, once, right behind the kit's port.py.

usage: tools/port/respell.py        at the top of the repository

names.tsv beside it has a row for each name: the old spelling and the new one. A definition in camel case is in snake case now, a dash in a lemma's
name is an underscore where it joins plain words (two names of definitions keep their dash), and a lemma that would have a definition's name ends in _lem.
Whole words are turned, in the files of specs/ and proofs/, in the ghost text of src/ and in the must-fail edits. Strings stay. A name in snake case, which
port.py spelled so, and a name with a dash are left where they are a step's or a record's field, that is behind a dot that no module's name precedes.
"""
import glob
import os
import re

HERE = os.path.dirname(os.path.realpath(__file__))
NAMES = dict(line.rstrip("\n").split("\t") for line in open(os.path.join(HERE, "names.tsv"), encoding="utf-8"))
WORD = re.compile(r'"(?:[^"\\]|\\.)*"|--[^\n]*|[^\s(){}.;,@"«»\[\]\\]+')
CAMEL = re.compile(r"[a-z0-9]+[A-Z][A-Za-z0-9]*'*")
IN_SOURCE = re.compile(r"(?<![\w.\"'])((?:[A-Z]\w*\.)?)([a-z][\w']*(?:-[\w']+)*)(?![\w\"'])")


def in_proofs(text):
    def one(found):
        word = found[0]
        if word.startswith('"'):
            return word
        if word.startswith("--"):
            return re.sub(r"[A-Za-z][\w']*", lambda it: NAMES.get(it[0], it[0]) if CAMEL.fullmatch(it[0]) else it[0], word)
        if word not in NAMES:
            return word
        if CAMEL.fullmatch(word):
            return NAMES[word]
        before = text[max(0, found.start() - 60) : found.start()]
        if before.endswith(".") and not re.search(r"(?<![\w-])[A-Z][\w']*\.\Z", before):
            return word
        if re.search(r"[{;]\s*\Z", before) and text.startswith(" =", found.end()):
            return word
        return NAMES[word]

    return WORD.sub(one, text)


def in_source(text):
    """The ghost text of a source file: camel case names nothing else there, and a name with a dash none of the code's."""
    def one(found):
        word = found[2]
        return found[1] + NAMES[word] if word in NAMES and (CAMEL.fullmatch(word) or "-" in word) else found[0]

    return "\n".join(line if line.lstrip().startswith("//") and '"' in line else IN_SOURCE.sub(one, line) for line in text.split("\n"))


def main():
    turned = 0
    for path in sorted(glob.glob("crates/*/**/*", recursive=True) + glob.glob("tools/edits/**/*", recursive=True)):
        if not path.endswith((".antt", ".rt", ".edit")) or "/out/" in path:
            continue
        with open(path, encoding="utf-8") as it:
            text = it.read()
        of_source = path.endswith(".rt") or path.endswith(".edit") and "\nold:" in "\n" + text and re.search(r"(?m)^file: src/", text)
        new = in_source(text) if of_source else in_proofs(text)
        if new != text:
            with open(path, "w", encoding="utf-8") as it:
                it.write(new)
            turned += 1
    print(f"respell: {turned} files, {len(NAMES)} names")


main()
