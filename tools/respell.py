#!/usr/bin/env python3
"""Respells this repository's own definitions and lemmas: snake case for words, camel case for types.

It was run once, when the repository was brought to the present kit, after the kit's own port.py, and is kept so
that the respelling can be repeated on an older checkout. Run it at the top of a checkout.

A name that specs/ or proofs/ gives by a signature `name : ..` in a file of definitions or lemmas is respelled
wherever it stands as a whole word: in specs/, in proofs/, and in the ghost lines and clauses of src/. Functions of
src/, names that the kit makes (goals and steps, in the folders of proofs/), strings and everything outside crates/
keep their spelling.
"""
import os
import re

# Two lemmas whose respelled names would fall together.
BY_HAND = {"byFirst": "by_first_byte"}

WORD = re.compile(r"[A-Za-z_][A-Za-z0-9_'\-]*")
GIVEN = re.compile(r"\s*(?:(?:abbrev|unfoldable|pub|mutual)\s+)*([^\s(){}:;.«»,]+)\s+:\s(?!=)")
STRING = re.compile(r'"(?:[^"\\]|\\.)*"')


def snake(name):
    if name in BY_HAND:
        return BY_HAND[name]
    if name[0].isupper():
        return name
    name = re.sub(r"(?<=[a-z0-9])([A-Z])", r"_\1", name)
    name = re.sub(r"([A-Z])(?=[A-Z][a-z])", r"\1_", name)
    return name.replace("-", "_").replace("__", "_").lower()


def files(ending):
    for folder, subfolders, names in os.walk("crates"):
        subfolders[:] = [s for s in subfolders if s != "out"]
        for name in names:
            if name.endswith(ending):
                yield os.path.join(folder, name)


def given_names():
    names = set()
    for path in files(".antt"):
        # Definitions and lemmas stand right in specs/ and proofs/; below proofs/ stand answers to the kit's goals.
        if os.path.basename(os.path.dirname(path)) not in ("specs", "proofs"):
            continue
        with open(path, encoding="utf-8") as file:
            for line in file:
                match = GIVEN.match(line)
                if match and not line.lstrip().startswith("--"):
                    names.add(match.group(1))
    return {name: snake(name) for name in names if WORD.fullmatch(name) and snake(name) != name}


def respell(text, names):
    return WORD.sub(lambda match: names.get(match.group(0), match.group(0)), text)


def respell_source(text, names):
    """Lines of src/: words with a dash are respelled only on ghost lines, as elsewhere a dash subtracts."""
    plain = {name: new for name, new in names.items() if "-" not in name}
    lines = []
    for line in text.split("\n"):
        known = names if line.startswith("ghost use") else plain
        parts, end = [], 0
        for string in STRING.finditer(line):
            parts += [respell(line[end:string.start()], known), string.group(0)]
            end = string.end()
        lines.append("".join(parts) + respell(line[end:], known))
    return "\n".join(lines)


def main():
    names = given_names()
    for ending, change in ((".antt", respell), (".rt", respell_source)):
        for path in files(ending):
            with open(path, encoding="utf-8") as file:
                text = file.read()
            new = change(text, names)
            if new != text:
                with open(path, "w", encoding="utf-8") as file:
                    file.write(new)


main()
