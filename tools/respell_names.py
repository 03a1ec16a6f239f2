#!/usr/bin/env python3
"""Brings the repository's own definitions and lemmas to snake case: `covers-by` becomes `covers_by`.

usage: python3 tools/respell_names.py            at the top, once, after the kit's port.py
       python3 tools/respell_names.py --list     prints the renamings, and names that would fall together, and changes nothing

A name is the repository's own where a file of specs/ or proofs/ declares it. Names that Rattle makes (goals, invariants,
measures) keep their dashes, and so do names of functions of src/, exported names, strings, inputs and outputs.
"""
import collections
import glob
import re
import sys

NAME_END = r"(?![\w\-'])"
DECLARED = re.compile(r"^\s*(?:(?:abbrev|unfoldable|pub|data|record|ruleset)\s+)*([^\s(){}\[\]:;.,]+)\s*:(?!=)\s*(.*)$", re.M)
GENERATED = re.compile(r"^goal\.")
FACT = re.compile(r"^[A-Z]")
# a row has a field `value_length`, and the library has a `count_by`; `fiveGs` is in camel case
TAKEN = {"value-length": "length_of_value", "count_by": "count_kind", "fiveGs": "five_gs"}
# names that a proof or a pattern binds
LOCALS = ["at-hand", "joined-up", "whole-strike", "strike-rest"]


def antt_files():
    return sorted(glob.glob("crates/*/specs/**/*.antt", recursive=True) + glob.glob("crates/*/proofs/**/*.antt", recursive=True))


def text_of(path):
    with open(path, encoding="utf-8") as file:
        return file.read()


def respelled(name):
    if name in TAKEN:
        return TAKEN[name]
    if FACT.match(name):
        return "".join(part[:1].upper() + part[1:] for part in name.split("-"))
    return name.replace("-", "_")


def renamings():
    found = {name: respelled(name) for name in LOCALS}
    for path in antt_files():
        for declared in DECLARED.finditer(text_of(path)):
            name, kind = declared.group(1), declared.group(2)
            if ("-" in name.strip("-") or name in TAKEN) and not GENERATED.match(kind) and not name.startswith("--"):
                found[name] = respelled(name)
    return found


def clashes(found):
    """Names that would fall together: with one another, with another declared name, or with a name of src/."""
    told = []
    other = collections.defaultdict(list)
    for path in antt_files():
        for declared in DECLARED.finditer(text_of(path)):
            other[declared.group(1)].append(path)
    backward = collections.defaultdict(list)
    for old, new in found.items():
        backward[new].append(old)
    for new, olds in sorted(backward.items()):
        if len(olds) > 1:
            told.append(f"{new}: {', '.join(sorted(olds))}")
        if new in other:
            told.append(f"{new}: {olds[0]} and a declared name in {', '.join(other[new])}")
    code = "\n".join(text_of(path) for path in glob.glob("crates/*/src/**/*.rt", recursive=True))
    for new, olds in sorted(backward.items()):
        if re.search(rf"(?<![\w\-']){re.escape(new)}{NAME_END}", code):
            told.append(f"{new}: {olds[0]} and a name in src/")
    return told


def main():
    found = renamings()
    if "--list" in sys.argv:
        for old, new in sorted(found.items()):
            print(f"{old} -> {new}")
        for line in clashes(found):
            print(f"look: {line}")
        return
    pattern = re.compile(r"(?<![\w\-'])(" + "|".join(re.escape(n) for n in sorted(found, key=len, reverse=True)) + ")" + NAME_END)
    spelled = lambda text: pattern.sub(lambda m: found[m.group(1)], text)
    paths = antt_files() + sorted(glob.glob("crates/*/src/**/*.rt", recursive=True))
    for path in paths:
        old = text_of(path)
        # in a .rt file that is clauses, ghost lines and comments: a subtraction in code has spaces round it
        new = spelled(old)
        if new != old:
            with open(path, "w", encoding="utf-8") as file:
                file.write(new)
    # the pages cite names in backticks, those that port.py respelled too
    declared = {d.group(1) for path in antt_files() for d in DECLARED.finditer(text_of(path))}
    cited = lambda m: found.get(m.group(0), respelled(m.group(0)) if respelled(m.group(0)) in declared else m.group(0))
    for path in sorted(glob.glob("README.md") + glob.glob("docs/*.md")):
        old = text_of(path)
        new = re.sub(r"`[^`\n]*`", lambda m: re.sub(r"[\w']+(?:-[\w']+)*", cited, m.group(0)), old)
        if new != old:
            with open(path, "w", encoding="utf-8") as file:
                file.write(new)


main()
