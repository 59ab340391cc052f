#!/usr/bin/env python3
"""Brings the names of this repository's own definitions and lemmas to snake case, by the table respell.tsv beside this file.

usage: tools/respell.py        at the top of the repository, once, after the kit's port script

Words become snake case: `pairMatches` is `pair_matches`. In the names of lemmas a dash stays between two names, and a plain word is added with `_`. A lemma that would
have the name of a definition, or of another lemma, gets `_lem`. Functions of src/ keep their names, and so do the names of goals and steps that the kit makes.

A row is: old, new, kind. The kind is 'name' (a definition or a lemma), 'field' (a field of a record, also behind a dot) or 'lemma' (a name in snake case that makes room
for a definition: it turns in lemma files alone).
In a Proof.antt, where steps and goals have names like those of lemmas, a name with a dash turns only where the file imports it.
"""

import os
import re
import sys

HERE = os.path.dirname(os.path.realpath(__file__))
TOP = os.path.dirname(HERE)
WORD = r'[^\s(){}.;,@"«»\[\]`\0]+'
COMMENT = {".antt": r"--[^\n]*", ".rt": r"//[^\n]*"}
CLAUSE = re.compile(r"\b(?:requires|ensures)\*? *(?:\w+ *)?\{")
ITEM = re.compile(r"ghost use [^;]*;")


def rows():
    with open(os.path.join(HERE, "respell.tsv"), encoding="utf-8") as f:
        return {old: (new, kind) for old, new, kind in (line.rstrip("\n").split("\t") for line in f)}


def imported(text):
    """The names that the use lines of a file bring from this repository's crates."""
    lists = re.findall(r"^\s*(?:ghost )?use Rattle\.(?!std\b)[^{;\n]*\.\{([^}]*)\}", text, re.M)
    return {it.split()[0] for names in lists for it in names.split(",") if it.strip()}


def below_modules(text, table):
    """Names that the file cites below a module that it brings whole, as in `block.sizesFrom`."""
    for module in set(re.findall(r"use Rattle\.(?!std\b)[\w.+]* as (\w+)", text)) - {"tie"}:
        cited = re.compile(r"(?<![\w.'-])" + module + r"\.(" + WORD + ")")
        text = cited.sub(lambda m: f"{module}.{table[m[1]][0]}" if m[1] in table else m[0], text)
    return text


def turned(text, table, turns):
    """The text with each word that turns in its new spelling. Words of quoted text stay, and so do names behind a dot that are no field."""

    def word(m):
        dot, it = m[1] or "", m[2]
        if it not in table:
            return m[0]
        new, kind = table[it]
        if kind == "field":
            return dot + new
        return m[0] if dot or not turns(it, kind) else new

    return re.sub(r'"(?:[^"\\\n]|\\.)*"|((?<![\s({\[,])\.)?(' + WORD + ")", lambda m: m[0] if m[2] is None else word(m), text)


def in_antt(path, text, table):
    by_hand = os.path.basename(path) == "Proof.antt"
    brought = imported(text) if by_hand else set()

    def turns(it, kind):
        if by_hand:
            return it in brought if "-" in it or kind == "lemma" else True
        return True

    return turned(below_modules(text, table), table, turns)


def in_rt(text, table):
    """The clauses and the ghost use items of a source, with their new spelling. Code and labels stay."""
    out, at = [], 0
    turns = lambda it, kind: kind != "lemma"
    while True:
        found = [m for m in (CLAUSE.search(text, at), ITEM.search(text, at)) if m]
        if not found:
            return "".join(out) + text[at:]
        m = min(found, key=lambda it: it.start())
        end = m.end()
        if m.re is CLAUSE:
            depth = 1
            while depth:
                depth += {"{": 1, "}": -1}.get(text[end], 0)
                end += 1
        begin = m.end() if m.re is CLAUSE else m.start()
        out += [text[at:begin], turned(text[begin:end], table, turns)]
        at = end


def comments(ending, text, table):
    """Names with capitals inside them turn in comments too."""
    camel = lambda m: table[m[0]][0] if m[0] in table and re.search("[a-z][A-Z]", m[0]) else m[0]
    return re.sub(COMMENT[ending], lambda m: re.sub(r"[\w'-]+", camel, m[0]), text)


def main():
    table = rows()
    for folder, dirs, files in os.walk(os.path.join(TOP, "crates")):
        dirs[:] = sorted(it for it in dirs if it != "out")
        for name in sorted(files):
            path, ending = os.path.join(folder, name), os.path.splitext(name)[1]
            if ending not in COMMENT:
                continue
            with open(path, encoding="utf-8", newline="") as f:
                old = f.read()
            apart = re.split(f"({COMMENT[ending]})", old)
            if ending == ".antt":
                code = in_antt(path, "\0".join(apart[::2]), table).split("\0")
            else:
                code = in_rt("\0".join(apart[::2]), table).split("\0")
            new = comments(ending, "".join(a + b for a, b in zip(code, [*apart[1::2], ""])), table)
            if new != old:
                with open(path, "w", encoding="utf-8", newline="") as f:
                    f.write(new)
                print(os.path.relpath(path, TOP))


if __name__ == "__main__":
    sys.exit(main())
