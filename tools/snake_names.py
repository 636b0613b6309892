#!/usr/bin/env python3
"""Spells the repository's own names of specs/ and proofs/ in snake case: a dash in them becomes an underscore.

usage: python3 tools/snake_names.py            in the repository's top folder; it rewrites the files below crates/

It knows as own what a .antt file declares: definitions, lemmas, fields, constructors and what a `let` or a
bracket binds. What Rattle
makes (the goals, and the facts that an answer cites), what a library declares, and functions of src/ keep their names. In a
comment only what stands in backticks is turned. `EXCEPTIONS` has the names that would fall together with another name.
"""

import os
import re
import sys

EXCEPTIONS = {"kind-c": "kind_c_figures"}

TOKEN = r"(?<![\w'-]){}(?![\w'-])"
HEAD = re.compile(
    r"(?m)^ *(?:(?:abbrev|unfoldable|pub|record|data|instance) )*([A-Za-z][\w']*(?:-[\w']+)+)(?: \{[^{}\n]*\}| \([^()\n]*\))* :[ \n]"
)
CONSTRUCTOR = re.compile(r"(?m)^ *(?:pub )?([A-Za-z][\w']*(?:-[\w']+)+) :[ \n]")
LET = re.compile(r"(?:\blet|;) ([A-Za-z][\w']*(?:-[\w']+)+)(?: :| =)")
BINDER = re.compile(r"[({]([^:(){}]*-[^:(){}]*) : ")
GOAL = re.compile(r"(?:pub )?([\w'-]+) : goal\.")
LIBRARY = re.compile(r"(?m)^(?:ghost )?use (?!Rattle\.(?:{})\.)[^{{\n]*\{{([^}}]*)\}}")


def texts(root, suffixes):
    for folder, dirs, files in os.walk(os.path.join(root, "crates")):
        dirs[:] = sorted(d for d in dirs if d not in ("out", ".git"))
        for f in sorted(files):
            if f.endswith(suffixes):
                yield os.path.join(folder, f)


def read(path):
    with open(path, encoding="utf-8") as f:
        return f.read()


def declared(text):
    code = re.sub(r"(?m)--.*$", "", text)
    made = set(GOAL.findall(code))
    found = set(HEAD.findall(code)) | set(CONSTRUCTOR.findall(code)) | set(LET.findall(code))
    found |= {w for it in BINDER.findall(code) for w in it.split() if re.fullmatch(r"[A-Za-z][\w']*(?:-[\w']+)+", w)}
    return found - made, made


def turned(text, table, mark):
    names = sorted(table, key=len, reverse=True)
    if not names:
        return text
    pattern = re.compile(TOKEN.format("(" + "|".join(map(re.escape, names)) + ")"))
    swap = lambda t: pattern.sub(lambda m: table[m[1]], t)
    lines = []
    for line in text.split("\n"):
        code, sign, note = line.partition(mark)
        note = re.sub(r"`[^`]*`", lambda m: swap(m[0]), note)
        lines.append(swap(code) + sign + note)
    return "\n".join(lines)


def main():
    root = os.getcwd()
    crates = sorted(os.listdir(os.path.join(root, "crates")))
    library = re.compile(LIBRARY.pattern.format("|".join(map(re.escape, crates))))
    own, made = set(), set()
    for path in texts(root, (".antt",)):
        mine, theirs = declared(read(path))
        own |= mine
        made |= theirs
    unclear = sorted(own & made)
    own -= made
    table = {name: EXCEPTIONS.get(name, name.replace("-", "_")) for name in own}
    for path in texts(root, (".antt", ".rt")):
        text = read(path)
        mark = "--" if path.endswith(".antt") else "//"
        code = re.sub(rf"(?m){mark}.*$", "", text)
        brought = {w for it in library.findall(code) for w in re.findall(r"[^\s,{}]+", it)}
        here = {old: new for old, new in table.items() if old not in brought and re.search(TOKEN.format(re.escape(old)), code)}
        for old, new in here.items():
            if re.search(r"(?<![\w'.-])" + re.escape(new) + r"(?![\w'-])", code):
                print(f"look: {os.path.relpath(path, root)}: {old} meets {new}")
        after = turned(text, here, mark)
        if after != text:
            with open(path, "w", encoding="utf-8") as f:
                f.write(after)
    print(f"{len(table)} names; as both goal and own name: {unclear}")


if __name__ == "__main__":
    sys.exit(main())
