#!/usr/bin/env python3
"""Counts the older forms in crates/*/src: python3 tools/forms.py [COMMIT] [--list]

Points as docs/DESIGN-PASS.md has them: 1 own enums of the shape of Option or Result, flags beside a value, numbers for kinds; 3 loops that count an index by hand;
4 equality, order, copying, conversion written by hand; 5 facts that stand in the contracts of three or more functions; 6 lengths beside buffers and arrays that run side by side.
Twins (2), switches on steps (7) and proofs (8) are found by reading."""
import collections
import os
import re
import subprocess
import sys

ROOT = os.path.dirname(os.path.dirname(os.path.abspath(__file__)))


def sources(commit):
    if commit:
        names = subprocess.run(["git", "-C", ROOT, "ls-tree", "-r", "--name-only", commit, "crates"], capture_output=True, text=True, check=True).stdout.split()
        for name in names:
            if re.fullmatch(r"crates/\w+/src/.*\.rt", name):
                yield name, subprocess.run(["git", "-C", ROOT, "show", f"{commit}:{name}"], capture_output=True, text=True, check=True).stdout
        return
    for folder, _, files in sorted(os.walk(os.path.join(ROOT, "crates"))):
        if "/src" not in folder or "/out/" in folder:
            continue
        for file in sorted(files):
            if file.endswith(".rt"):
                path = os.path.join(folder, file)
                with open(path, encoding="utf-8") as f:
                    yield os.path.relpath(path, ROOT), f.read()


FUNCTION = re.compile(r"^( *)(?:pub(?:\([a-z]+\))? )?(?:const )?(?:extern \"C\" )?fn (\w+)", re.M)

# by hand what a derive, From, TryFrom or a method of the library says
BY_HAND = {
    "of", "number", "new", "plus", "at_most", "before", "between", "flag", "negated", "copy", "clear", "least", "distance", "numbers", "is_fine", "takes_any",
    "lacks_study", "apart", "are_mates", "kept_number", "cell_size", "tries", "size_of", "is_cost", "met_one", "needs_study", "line_length",
}
CONVERSIONS = {"of": {"units"}, "number": {"units", "refusals", "lines"}, "new": {"units", "tables", "frames", "lines"}, "numbers": {"frames"}}


def functions(text):
    found = list(FUNCTION.finditer(text))
    for i, m in enumerate(found):
        end = found[i + 1].start() if i + 1 < len(found) else len(text)
        part = text[m.start() : end]
        body = re.search(r"^" + m.group(1) + r"\{ *$|\{ *$", part, re.M)
        yield m.group(2), part[: body.start()] if body else part, part[body.start() :] if body else ""


def facts(signature):
    for clause in re.findall(r"requires(?: \w+)? \{(.*?)\}\n", signature, re.S):
        depth, at, parts = 0, 0, []
        for k, c in enumerate(clause):
            depth += c in "({["
            depth -= c in ")}]"
            if c == "×" and depth == 0:
                parts.append(clause[at:k])
                at = k + 1
        parts.append(clause[at:])
        for part in parts:
            part = re.sub(r"\s+", " ", part).strip()
            if part.startswith("(") and part.endswith(")"):
                part = part[1:-1]
            yield part


def shape(fact):
    """a fact without its variables: what it says, and of how many things"""
    fact = re.sub(r"\b\w+(?:\.(?:now|old|new|entry|numbers|line))+\b", "x", fact)
    fact = re.sub(r"\(2 \^ \d+\)|2 \^ \d+", "N", fact)
    fact = re.sub(r"\b(?!length\b|x\b|N\b)[a-z]\w{0,10}\b(?=( |$|\)))", lambda m: m.group(0) if "_" in m.group(0) or m.group(0) in {"pairs", "trains", "size", "framed"} else "v", fact)
    return re.sub(r"\d+", "n", fact)


def main():
    args = [a for a in sys.argv[1:] if a != "--list"]
    rows = collections.OrderedDict((k, []) for k in ("1 enum", "1 flag", "1 is_fine", "1 code", "3 while", "4 by hand", "5 fact", "6 beside", "6 slice of a local array", "6 side by side"))
    said = collections.defaultdict(list)
    for name, text in sources(args[0] if args else None):
        crate = name.split("/")[1]
        lines = text.split("\n")
        for n, line in enumerate(lines, 1):
            place = f"{name}:{n} {line.strip()[:90]}"
            if re.search(r"\benum (New\w+|Verdict|Judged|Certificate|Line)\b", line):
                rows["1 enum"].append(place)
            if re.search(r"^\s+(?:pub )?\w+: bool,$", line):
                rows["1 flag"].append(place)
            if ".is_fine()" in line:
                rows["1 is_fine"].append(place)
            if re.search(r"\bconst (NO_\w+|UNKNOWN|TO_BEAT|LEFT_THEN|WALL|FORBIDDEN)\b|=> -1,", line):
                rows["1 code"].append(place)
            if re.search(r"^\s+while ", line):
                rows["3 while"].append(place)
            if re.search(r"&(?:mut )?\w+\[\.\.\w", line):
                rows["6 slice of a local array"].append(place)
        for function, signature, body in functions(text):
            where = f"{name} {function}"
            if function in BY_HAND and crate in CONVERSIONS.get(function, {crate}):
                rows["4 by hand"].append(where)
            for fact in set(map(shape, facts(signature))):
                said[fact].append(where)
            head = re.sub(r"\s+", " ", signature.split("requires")[0].split("ensures")[0])
            if re.search(r"(line: &\[u8\], bytes: usize|reply: &mut \[u8\], (at|from): usize|kept: usize|out: &mut \[\w+\], (from|start): usize|bytes: &\[u8\], n: usize|reply: &\[u8\], n: usize)", head):
                rows["6 beside"].append(where)
            if re.search(r"firsts: &|widths: &\[usize\], numbers", head) or re.search(r"let mut firsts", body):
                rows["6 side by side"].append(where)
    for fact, where in sorted(said.items(), key=lambda x: -len(x[1])):
        if len(where) >= 3:
            rows["5 fact"].append(f"{len(where):3} {fact}")
    for key, places in rows.items():
        print(f"{key}: {len(places)}")
        if "--list" in sys.argv:
            for place in places:
                print("    " + place)


main()
