#!/usr/bin/env python3
"""Spells the repository's own names of specs/ and proofs/ in snake case.

usage: tools/respell.py        at the top of the repository, once, after the toolchain's port.py

Each word of specs/ and of the lemma files of proofs/ turns that the toolchain's library does not lend (definitions, lemmas,
fields, constructors and the variables of lemmas): readFault into read_fault, went-next into went_next. Types, facts and what is
joined to one (Atom-then), modules and the names of src/ stay. So does a name with a dash whose new spelling some other name has:
a line 'stays:' says so. A line 'look:' names a new spelling that stands somewhere already.
In README.md and docs/ a code span that is one such name turns too. The map is printed; a second run finds nothing to turn.
"""

import os
import re

# A word of antt. In Rattle's own text a dash is no part of a word.
NAME = r"[^\W\d][\w'·+]*(?:-[\w'·+]+)*"
WORD = re.compile(rf"(?<![\w'·+-]){NAME}")
RUST_WORD = re.compile(r"(?<![\w'])[a-z][\w']*")
IMPORTED = re.compile(r"(?m)^use (\S+?)\.\{([^}]*)\}")
CAMEL = re.compile(r"^[a-z][a-z0-9_]*(?:[A-Z][a-z0-9]*)+'*$")
DASHED = re.compile(r"^[a-z][a-z0-9_']*(?:-[a-z0-9_']+)+$")
COMMENT = re.compile(r"--.*")
CODE_SPAN = re.compile(rf"`({NAME})`")


def texts():
    """Each file of the crates that has names, with its text."""
    found = {}
    for folder, below, files in os.walk("crates"):
        below[:] = sorted(set(below) - {"out"})
        for name in sorted(files):
            if name.endswith((".antt", ".rt", ".edit")):
                path = os.path.join(folder, name)
                with open(path, encoding="utf-8") as file:
                    found[path] = file.read()
    return found


def snake(name):
    return re.sub("[A-Z]", lambda letter: "_" + letter[0].lower(), name).replace("-", "_")


def of_the_library(text):
    """What a file imports from the toolchain's library keeps the spelling that it has there."""
    names = set()
    for path, items in IMPORTED.findall(text):
        if re.match(r"Rattle\.std\b", path) or not path.startswith("Rattle."):
            names.update(item.split(" as ")[0].strip() for item in items.split(","))
    return names


def of_a_function(path):
    """Whether the file answers a function's goals, whose names are Rattle's."""
    return re.search(r"/proofs/.*/", path) is not None


def own_names(files):
    names, library = set(), set()
    for path, text in files.items():
        if path.endswith(".antt"):
            code = COMMENT.sub("", text)
            library |= of_the_library(code)
            there = WORD.findall(code)
            names.update(name for name in there if CAMEL.match(name))
            if not of_a_function(path):
                names.update(name for name in there if DASHED.match(name))
    return names - library


def turned(text, path, names):
    word = WORD if path.endswith(".antt") else RUST_WORD
    return word.sub(lambda found: names.get(found[0], found[0]), text)


def in_document(name, there):
    turns = CAMEL.match(name) or DASHED.match(name)
    return snake(name) if turns and name not in there and snake(name) in there else name


def main():
    files = texts()
    words = {path: set(WORD.findall(COMMENT.sub("", text))) for path, text in files.items()}
    own = own_names(files)
    names = {}
    for old in sorted(own):
        new = snake(old)
        others = {other for other in own if snake(other) == new} - {old} | {new}
        if "-" in old and any(old in there and others & there for there in words.values()):
            print(f"stays: {old}, since {new} is another name where it stands")
            continue
        if any(new in there for there in words.values()):
            print(f"look: {old} -> {new}, which stands there already")
        names[old] = new
    for path, text in files.items():
        with open(path, "w", encoding="utf-8") as file:
            file.write(turned(text, path, names))
    # port.py has turned some names before, which the documents still have in their old spelling.
    there = {name for text in texts().values() for name in WORD.findall(text)}
    for page in ["README.md"] + sorted("docs/" + name for name in os.listdir("docs") if name.endswith(".md")):
        with open(page, encoding="utf-8") as file:
            text = file.read()
        with open(page, "w", encoding="utf-8") as file:
            file.write(CODE_SPAN.sub(lambda span: f"`{in_document(span[1], there)}`", text))
    print(f"{len(names)} names")
    for old, new in names.items():
        print(f"  {old} -> {new}")


if __name__ == "__main__":
    main()
