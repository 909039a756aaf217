#!/usr/bin/env python3
"""Gives the repository's own definitions and lemmas the spelling of today's Rattle: words in snake case, types in camel case.

Run once, at the top of the repository, after the kit's port.py. Names that Rattle makes (goals and steps) and names of
the library are left as they are, and so are comments, strings and all names of src/.
"""

import os
import re
import sys

STOPS = r"\s(){}\[\],;.:|"
TOKEN = re.compile(rf"[^{STOPS}]+")
DECLARED = re.compile(r"^\s*(?:abbrev\s+|pub\s+|unfoldable\s+)*(?:(data|record)\s+)?([^\s(){}\[\],;.:|]+)\s*(?::|\(|\{|where)")
BOUND = re.compile(r"[({]((?:[^\s(){}\[\],;.:|]+ )+): ")
LOCAL = re.compile(r"(?:\blet |λ )((?:[^\s(){}\[\],;.:|]+ ?)+)(?=[:=.])")
ALIAS = re.compile(r" as ([^\s(){}\[\],;.:|]+)")
LEFT = re.compile(r"^\s*([^=:|.]*?) =(?:\s|$)")
USED = re.compile(r"use ([^\s{]*)\.\{([^}]*)\}")
GOAL = re.compile(r"^\s*(?:abbrev )?(?:pub )?(\S+) : goal\.\1\b")


def files(ending):
    for folder, dirs, names in os.walk("crates"):
        dirs[:] = sorted(d for d in dirs if d != "out")
        for n in sorted(names):
            if n.endswith(ending):
                yield os.path.join(folder, n)


def code_of(line, mark):
    """The line without its comment, and the comment."""
    at = re.search(rf"(?:^|\s){mark}", line)
    return (line, "") if not at else (line[: at.start()], line[at.start() :])


def read(path):
    with open(path, encoding="utf-8") as f:
        return f.read()


def respelled(name):
    parts = name.split("-")
    if name[0].isupper():
        return "".join(p[:1].upper() + p[1:] for p in parts)
    return "_".join(p[:1].lower() + p[1:] for p in parts)


def from_library(text):
    """The names that a file imports from other places than this repository's crates."""
    crates = set(os.listdir("crates"))
    used = [m.groups() for m in USED.finditer(text)]
    outer = [names for path, names in used if not any(path.startswith(f"Rattle.{c}.") for c in crates)]
    return {n.split(" as ")[0].strip() for names in outer for n in names.split(",")}


def own_names():
    """All hyphenated names that the repository declares or binds: definitions, lemmas, fields, constructors, variables."""
    own = set()
    library = {n for path in files(".antt") for n in from_library(read(path))}
    for path in files(".antt"):
        text = read(path)
        goals = {m.group(1) for l in text.splitlines() if (m := GOAL.match(l))}
        found = set()
        for line in text.splitlines():
            code = code_of(line, "--")[0]
            if m := DECLARED.match(code):
                found.add(m.group(2))
            for m in [*BOUND.finditer(code), *LOCAL.finditer(code), *LEFT.finditer(code), *ALIAS.finditer(code)]:
                found.update(TOKEN.findall(m.group(1)))
        own |= {n for n in found - goals - library if re.fullmatch(r"[A-Za-z][\w']*(?:-[\w']+)+", n)}
    return own


def turn(path, names, mark):
    text = read(path)
    local = {n: t for n, t in names.items() if n not in from_library(text)}
    fallen = {}
    out = []
    for line in text.splitlines(keepends=True):
        code, comment = code_of(line, mark)
        pieces = re.split(r'("(?:[^"\\]|\\.)*")', code)
        for i in range(0, len(pieces), 2):
            for t in TOKEN.findall(pieces[i]):
                new = local.get(t, t)
                fallen.setdefault(new, set()).add(t)
            pieces[i] = TOKEN.sub(lambda m: local.get(m.group(0), m.group(0)), pieces[i])
        out.append("".join(pieces) + comment)
    for new, old in sorted(fallen.items()):
        if len(old) > 1:
            print(f"look: {path}: {', '.join(sorted(old))} are all {new} now")
    with open(path, "w", encoding="utf-8") as f:
        f.write("".join(out))


def main():
    if not os.path.isdir("crates"):
        sys.exit("run it at the top of the repository")
    names = {n: respelled(n) for n in own_names()}
    for path in files(".antt"):
        turn(path, names, "--")
    for path in files(".rt"):
        turn(path, names, "//")
    print(f"{len(names)} names respelled")


main()
