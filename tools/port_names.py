#!/usr/bin/env python3
"""Spells this repository's own definitions, lemmas and record fields in snake case, as today's Rattle does.

usage: python3 tools/port_names.py [--check]     at the top, once, right after port.py

A name is the repository's own where a file of some crates/*/specs/, or a lemma file right in some crates/*/proofs/, declares it. A capital
inside a name and a dash become '_' and a small letter; types and modules keep their capitals. It turns whole words: in .antt files the
code and the comments, in .rt files the clauses and the imports, in must-fail edits the texts and what they refuse, and in the pages the
code spans. A function's own names in src/ and what stands in strings keep their spelling. A name with a dash whose new spelling is already another
name in a file where it stands keeps its dash: there it joins the names of what it speaks of (as the field `is-hex` of a promise, beside the
definition `is_hex`). TOLD_APART has the one lemma that would meet a constant. The crate `sha1` has the name of a library of the kit, and
becomes `sha_1`. With --check nothing is written.
"""

import os
import re
import sys

TOP = os.getcwd()
WORD = re.compile(r'[^\s(){}.;,@"«»`\[\]]+')
DECLARED = re.compile(r"(?m)^[ ]*(?:(?:pattern|unfoldable|abbrev|pub|axiom|open) )*([a-z][^\s(){}.;,@\"«»]*)(?: \{[^{}\n]*\})* :(?=\s)")
# A crate's lemma that would meet a constant of the same spelling: its new name, in the files of that crate.
TOLD_APART = {"mail": {"too_long": "too_long_found"}}


def files(ending, *parts):
    for folder, dirs, names in os.walk(os.path.join(TOP, *parts)):
        dirs[:] = sorted(d for d in dirs if d not in ("out", "target", ".git"))
        for name in sorted(names):
            if name.endswith(ending):
                yield os.path.join(folder, name)


def read(path):
    with open(path, encoding="utf-8") as f:
        return f.read()


def snake(name):
    words = re.sub(r"(?<=[a-z0-9])([A-Z]+)", lambda m: "_" + m[1].lower(), name)
    return re.sub(r"-", "_", words)


def is_own(path):
    parts = os.path.relpath(path, TOP).split(os.sep)
    return parts[2] == "specs" or (parts[2] == "proofs" and len(parts) == 4)


def declared():
    found = {}
    for path in files(".antt", "crates"):
        if is_own(path):
            text = re.sub(r"(?m)--.*$", "", read(path))
            for name in DECLARED.findall(text):
                found.setdefault(name, set()).add(path)
    return found


def words_of(path):
    return set(WORD.findall(re.sub(r"(?m)--.*$", "", read(path))))


USE = re.compile(r"(?m)^ *(?:pub |ghost )?use ([^\s{;]+?)\.?(?:\{([^}]*)\})?(?: as \S+)?;?$")


def of_libraries():
    """The names that some file takes from a library of the kit."""
    own = {"Rattle." + c for c in os.listdir(os.path.join(TOP, "crates"))}
    found = set()
    for ending in (".antt", ".rt"):
        for path in files(ending, "crates"):
            for module, items in USE.findall(read(path)):
                steps = module.split(".")
                if ".".join(steps[:2]) in own or steps[0] == "package":
                    continue
                found |= set(WORD.findall(items)) | {steps[-1]}
    return found


def table(found):
    """The new spelling of each name that gets one."""
    names = {n: snake(n) for n in found if snake(n) != n}
    dashed = {n for n in names if "-" in n}
    taken = {}
    for n in found:
        taken.setdefault(snake(n), set()).add(n)
    kept = {n for n in dashed if len(taken[snake(n)]) > 1}
    lent = of_libraries()
    for n in sorted(lent & set(names)):
        print(f"a library has it too: {n}: {' '.join(sorted(os.path.relpath(p, TOP) for p in found[n]))}")
        kept.add(n)
    for path in files(".antt", "crates"):
        words = words_of(path)
        kept |= {n for n in dashed & words if snake(n) in words}
    return {n: s for n, s in names.items() if n not in kept}, kept


def turn(text, names):
    return WORD.sub(lambda m: names.get(m[0], m[0]), text)


CLAUSE = re.compile(r"(?s)ghost use\b[^;]*;|\b(?:requires|ensures|ghost)\b[^{;=]*\{(?:[^{}]|\{(?:[^{}]|\{[^{}]*\})*\})*\}")
SPAN = re.compile(r"(?s)```.*?```|`[^`\n]*`")


def turn_rt(text, names):
    text = re.sub(r"(?m)^( *//.*)$", lambda m: SPAN.sub(lambda s: turn(s[0], names), m[0]), text)
    return CLAUSE.sub(lambda m: turn(m[0], names), text)


def turn_edit(text, names):
    out = []
    for line in text.split("\n"):
        m = re.match(r"(old: |new: |refuses: )", line)
        if m:
            line = m[0] + turn(line[len(m[0]):], names)
        out.append(line)
    return "\n".join(out)


def turn_page(text, names):
    return SPAN.sub(lambda m: turn(m[0], names), text)


CRATES = {"sha1": "sha_1"}


def turn_crates(path, text):
    """The new names of crates, in paths alone."""
    for old, new in CRATES.items():
        if path.endswith(".antt"):
            text = text.replace(f"Rattle.{old}.", f"Rattle.{new}.")
        elif path.endswith((".rt", ".edit")):
            text = text.replace(f"Rattle.{old}.", f"Rattle.{new}.")
            text = re.sub(rf"(?<![\w:.]){old}::(?=[A-Za-z])", f"{new}::", text)
        elif path.endswith(".md"):
            text = re.sub(rf"(?<![\w:.]){old}::(?=[A-Za-z])", f"{new}::", text)
            text = re.sub(rf"(?<![\w./-])((?:crates/)?){old}/(?=specs|src|proofs|must-fail)", rf"\1{new}/", text)
    return text


def move_crates():
    for old, new in CRATES.items():
        if os.path.isdir(os.path.join(TOP, "crates", old)):
            os.rename(os.path.join(TOP, "crates", old), os.path.join(TOP, "crates", new))
            path = os.path.join(TOP, "crates.txt")
            text = re.sub(rf"\b{old}\b", new, read(path))
            with open(path, "w", encoding="utf-8") as f:
                f.write(text)


def main():
    check = "--check" in sys.argv
    found = declared()
    names, kept = table(found)
    for n in sorted(kept):
        print(f"keeps its dash: {n}")
    changed = 0
    for ending, how, parts in ((".antt", turn, ("crates",)), (".rt", turn_rt, ("crates",)), (".edit", turn_edit, ("crates",)), (".edit", turn_edit, (".ci",)), (".md", turn_page, ("docs",)), ("README.md", turn_page, ())):
        for path in files(ending, *parts):
            text = read(path)
            parts_of = os.path.relpath(path, TOP).split(os.sep)
            apart = TOLD_APART.get(parts_of[1], {}) if parts_of[0] == "crates" else {}
            new = turn_crates(path, how(how(text, apart) if apart else text, names))
            if new != text:
                changed += 1
                if not check:
                    with open(path, "w", encoding="utf-8") as f:
                        f.write(new)
    if not check:
        move_crates()
    print(f"{len(names)} names, {changed} files")


main()
