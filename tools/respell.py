#!/usr/bin/env python3
"""Respells this repository's own names of definitions and lemmas, after the kit's port.py: words in snake case, facts and types
in camel case, no dash inside a name.

usage: python3 tools/respell.py     at the top of the repository, once

A name is respelled where a file of specs/ or proofs/ of this repository declares it: by a signature, a record's field, a section's
parameter or a let. Names of the library and names that the check makes (of goals, steps and their fields) stay, and so do comments; the
names of src/ have no dash. It stops, and writes nothing, where two names would fall together in one file.
"""
import collections
import os
import re

NAME = re.compile(r"(?<![\w'-])[A-Za-z_][\w']*(?:-[\w']+)+(?![\w'-])")
WORD = re.compile(r"(?<![\w'-])[A-Za-z_][\w']*(?:-[\w']+)*(?![\w'-])")
DECLARED = re.compile(r"^\s*(?:(?:pub|abbrev|unfoldable|record|data)\s+)*([A-Za-z_][\w']*(?:-[\w']+)*)\s*(?:\(.*\)\s*|\{.*\}\s*)*:\s*(.*)$")
BOUND = re.compile(r"[({]\s*((?:[A-Za-z_][\w'-]*\s+)*[A-Za-z_][\w'-]*)\s*:(?!:)")
LET = re.compile(r"\blet\s+([A-Za-z_][\w'-]*)")
ALIAS = re.compile(r"\bas\s+([A-Za-z_][\w'-]*)")
# Functions of src/ that have the new name of their definition, as `ranged` and `better` had all along: nothing falls together.
FUNCTIONS = {"agreements_in", "default_of", "find_is_exact", "masks_are_their_executors"}


def files(top):
    for folder, dirs, names in os.walk(os.path.join(top, "crates")):
        dirs[:] = sorted(d for d in dirs if d != "out")
        for name in sorted(names):
            if name.endswith((".antt", ".rt")):
                yield os.path.join(folder, name)


def parts(path, text):
    """The lines of a file, each as what is code and what is a comment."""
    mark = "--" if path.endswith(".antt") else "//"
    for line in text.split("\n"):
        at = line.find(mark)
        yield (line, "") if at < 0 else (line[:at], line[at:])


def declared(path, text):
    """The dashed names that a file of specs/ or proofs/ declares."""
    made = os.path.basename(path) in ("Answers.antt", "Invariants.antt")
    for code, _ in parts(path, text):
        yield from ALIAS.findall(code)
        if path.endswith(".rt"):
            continue
        found = DECLARED.match(code)
        if found and not (made and re.match(r"(goal|need|given)\.", found.group(2))):
            yield found.group(1)
        for group in BOUND.findall(code):
            yield from group.split()
        yield from LET.findall(code)


def respelled(name):
    words = name.replace("getD", "get_or").split("-")
    if name[0].isupper():
        return "".join(w[0].upper() + w[1:] for w in words)
    return "_".join(words)


def main():
    top = os.getcwd()
    texts = {}
    for path in files(top):
        with open(path, encoding="utf-8") as f:
            texts[path] = f.read()
    own = collections.Counter()
    for path, text in texts.items():
        own.update(n for n in declared(path, text) if "-" in n)
    new = {n: respelled(n) for n in own}
    out, clashes = {}, []
    for path, text in texts.items():
        before = set()
        lines = []
        for code, comment in parts(path, text):
            before.update(WORD.findall(code))
            lines.append(NAME.sub(lambda m: new.get(m.group(0), m.group(0)), code) + comment)
        for n in sorted(before & set(new)):
            if new[n] in before and new[n] not in FUNCTIONS:
                clashes.append(f"{os.path.relpath(path, top)}: {n} and {new[n]}")
        out[path] = "\n".join(lines)
    spelled = collections.defaultdict(set)
    for n, m in new.items():
        spelled[m].add(n)
    clashes += [" and ".join(sorted(ns)) for ns in spelled.values() if len(ns) > 1]
    if clashes:
        print("these fall together, and nothing was written:\n" + "\n".join(clashes))
        return 1
    for path, text in out.items():
        if text != texts[path]:
            with open(path, "w", encoding="utf-8") as f:
                f.write(text)
    print(f"{len(new)} names respelled")
    return 0


if __name__ == "__main__":
    raise SystemExit(main())
