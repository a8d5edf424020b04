#!/usr/bin/env python3
"""Respells the repository's own names of specs/ and proofs/, as today's Rattle spells its own.

usage: python3 tools/respell.py            in the repository's root, once, after port.py: rewrites the files in place
       python3 tools/respell.py --list     prints what it would rename, and which names would fall together

A fact or a type, which begins with a capital, goes to camel case (One-book and One_book: OneBook); every other name goes to snake case (first-step:
first_step). Names that Rattle makes (goals, steps, loops) and names of the library keep their dashes. Functions of src/, strings and
comments stay; in README.md and docs/ a name is respelled where it stands between backquotes.
"""

import glob
import os
import re
import sys

TOKEN = re.compile(r"(?<![\w'-])(?:[A-Za-zℕℤ][\w']*(?:-[A-Za-z0-9_][\w']*)+|[A-Z][a-z]+(?:_[a-z]+)+)(?![\w'-])")
DECLARES = re.compile(r"\s*(?:pub |abbrev |unfoldable |data |record |opaque )*([^\s:{}()]+)\s*(?:\{[^}]*\}\s*|\([^)]*\)\s*)*:\s")
LIBRARY = re.compile(r"(?:ghost )?use (?:Rattle\.std|borrow|lib|native|Prim|mathlib)[\w.]*\.\{(.*)\}")
ANSWERS = re.compile(r"/(?:Answers|Invariants|Choices|Proof)\.antt$")


def lines(path):
    with open(path, encoding="utf-8") as f:
        return f.read().split("\n")


def code(line, mark):
    at = line.find(mark)
    return (line, "") if at < 0 else (line[:at], line[at:])


def proofs_and_specs():
    return sorted(glob.glob("crates/*/specs/**/*.antt", recursive=True) + glob.glob("crates/*/proofs/**/*.antt", recursive=True))


def sources():
    return sorted(glob.glob("crates/*/src/**/*.rt", recursive=True))


def respelled(name):
    parts = re.split("[-_]" if name[0].isupper() else "-", name)
    if name[0].isupper():
        return "".join(p[0].upper() + p[1:] for p in parts)
    return "_".join(parts)


def names():
    """The names to respell, and those of the library."""
    own, library = set(), set()
    for path in proofs_and_specs():
        answers = ANSWERS.search(path)
        for line in lines(path):
            line, _ = code(line, "--")
            declared = DECLARES.match(line)
            if declared and TOKEN.fullmatch(declared.group(1)) and not (answers and re.search(r":\s*goal\.", line)):
                own.add(declared.group(1))
            brought = LIBRARY.match(line)
            if brought:
                library |= {x.strip().split(" as ")[0] for x in brought.group(1).split(",")}
    for path in sources():
        for line in lines(path):
            brought = LIBRARY.match(line)
            if brought:
                library |= {x.strip() for x in brought.group(1).split(",")}
    # in files of lemmas and definitions every such name is the repository's own, or the library's
    for path in proofs_and_specs():
        if not ANSWERS.search(path):
            for line in lines(path):
                own |= {t for t in TOKEN.findall(code(line, "--")[0])}
    return own - library, library


def together(own):
    """Names that fall together with one that is spelled so already."""
    new = {}
    for name in sorted(own):
        new.setdefault(respelled(name), set()).add(name)
    there = {}
    for path in proofs_and_specs() + sources():
        mark = "//" if path.endswith(".rt") else "--"
        for line in lines(path):
            for word in re.findall(r"[A-Za-zℕℤ][\w']*(?:-[\w']+)*", code(line, mark)[0]):
                if word in new:
                    there.setdefault(word, set()).add(path)
    return {n: (sorted(olds), sorted(there.get(n, ()))) for n, olds in new.items() if len(olds) > 1 or n in there}


def main(argv):
    own, _ = names()
    if argv == ["--list"]:
        print(f"{len(own)} names")
        for name in sorted(own):
            print(name, respelled(name))
        for name, (olds, paths) in sorted(together(own).items()):
            print("together:", name, olds, *paths)
        return
    swap = lambda m: respelled(m.group(0)) if m.group(0) in own else m.group(0)
    for path in proofs_and_specs() + sources():
        mark = "//" if path.endswith(".rt") else "--"
        new = []
        for line in lines(path):
            text, rest = code(line, mark)
            new.append(TOKEN.sub(swap, text) + rest)
        with open(path, "w", encoding="utf-8") as f:
            f.write("\n".join(new))
    for path in ["README.md"] + sorted(glob.glob("docs/*.md")):
        text = "\n".join(lines(path))
        text = re.sub(r"`[^`\n]*`", lambda m: TOKEN.sub(swap, m.group(0)), text)
        with open(path, "w", encoding="utf-8") as f:
            f.write(text)


if __name__ == "__main__":
    os.chdir(os.path.join(os.path.dirname(os.path.abspath(__file__)), ".."))
    main(sys.argv[1:])
