#!/usr/bin/env python3
"""Brings the repository's own names of specs/ and proofs/ to today's spelling: words in snake case, types in camel case.

usage: python3 tools/spell.py [FOLDER]        at the top of a repository that port.py has turned; run it once

A name with a dash that the repository declares in a file of specs/, or in a file of lemmas right in proofs/, gets
underscores, or is joined in camel case where it begins with a capital. Names that Rattle makes of the code
(goals, steps, arms) and names of the library keep their spelling, and so do strings, comments and the code of src/.
It prints each name with its new spelling, and stops where two names of one file would fall together.
"""
import collections
import glob
import os
import re
import sys

top = sys.argv[1] if len(sys.argv) > 1 else "."
ID = r"[^\W\d][\w']*(?:-[\w']+)*"
DASHED = re.compile(r"(?<![\w'·-])[^\W\d][\w']*(?:-[\w']+)+")
DECLARED = re.compile(r"(?m)^[ ]*(?:(?:abbrev|unfoldable|private) )*(?:pub )?(?:(?:abbrev|unfoldable) )*(?:(?:record|data) )?(?:pub )?(" + ID + r")(?: [({][^\n]*?)? : (.*)$")
ANTT = r'"(?:[^"\\]|\\.)*"|(?:(?<=\s)|^)--(?=\s)[^\n]*|(?:(?<=\s)|^)--$'
RT = r'b?"(?:[^"\\]|\\.)*"|b?\'(?:[^\'\\]|\\.)\'|//[^\n]*'


def files(*patterns):
    for pattern in patterns:
        yield from sorted(glob.glob(os.path.join(top, "crates", "*", pattern), recursive=True))


def parts(path, text):
    """The text in pieces, each with whether it is code: strings and comments are not."""
    at = 0
    for found in re.finditer(RT if path.endswith(".rt") else ANTT, text, re.M):
        yield True, text[at : found.start()]
        yield False, found.group(0)
        at = found.end()
    yield True, text[at:]


def code(path, text):
    return "".join(piece if is_code else " " * len(piece) for is_code, piece in parts(path, text))


# Names that would fall together with another.
APART = {"Row-fault": "OfRow", "Clash-fault": "OfClash"}
# A type that port.py spells as it spells a function.
TYPE = re.compile(r"\bGoes_on\b")


def new_spelling(name):
    if name in APART:
        return APART[name]
    words = name.split("-")
    if name[0].isupper():
        return "".join(word[:1].upper() + word[1:] for word in words)
    return "_".join(words)


def imported(text):
    """What a file imports: names from outside and names that Rattle makes, and the names from here under an alias."""
    outside, aliases = set(), set()
    for path, names in re.findall(r"use ([\w.+'-]+)\.\{([^}]*)\}", text):
        library = not path.startswith("Rattle.") or re.match(r"Rattle\.(std|core|io|alloc)\b", path)
        made = re.search(r"\.(Goals|Given)$", path)
        for name in names.split(","):
            name = name.strip().split(" as ")
            if library or made:
                outside.add(name[-1])
            elif len(name) == 2:
                aliases.add(name[1])
    return outside, aliases


own, fields, makes = set(), set(), set()
for path in files("specs/*.antt", "proofs/*.antt", "proofs/*/**/*.antt"):
    text = code(path, open(path, encoding="utf-8").read())
    for found in DECLARED.finditer(text):
        if re.match(r"\w+\.", found.group(2)) and found.group(2).split(".")[0] == "goal":
            makes.add(found.group(1))
        elif "-" in found.group(1):
            own.add(found.group(1))
            if found.group(0).startswith("  "):
                fields.add(found.group(1))
    own |= {name for name in imported(text)[1] if "-" in name}

said, clashes = {}, []
for path in files("specs/*.antt", "proofs/*.antt", "proofs/*/**/*.antt", "src/**/*.rt"):
    text = open(path, encoding="utf-8").read()
    bare = code(path, text)
    outside, _ = imported(bare)
    lemmas = re.search(r"/crates/\w+/(specs|proofs)/\w+\.antt$", os.path.abspath(path))
    bound = set(re.findall(r"(?:let |λ |[({])(" + ID + r")(?= [:=.])", bare)) if not path.endswith(".rt") else set()
    turned = collections.defaultdict(set)

    def turn(found):
        name = found.group(0)
        before = found.string[: found.start()]
        if name in outside or re.search(r"use [\w.+'-]+\.(Goals|Given)\.\{[^}]*$", before):
            return name
        if re.search(r"use Rattle\.(std|core|io|alloc)\b[\w.]*\.\{[^}]*$", before):
            return name
        selected = before.endswith(".") and not before.endswith("..")
        if lemmas:
            mine = True
        elif selected:
            mine = name in fields
        else:
            mine = name in own or (name in bound and name not in makes)
        if not mine:
            return name
        new = new_spelling(name)
        said[name] = new
        turned[new].add(name)
        return new

    out = "".join(TYPE.sub("GoesOn", DASHED.sub(turn, piece)) if is_code else piece for is_code, piece in parts(path, text))
    words = set(re.findall(ID, bare))
    for new, olds in turned.items():
        if len(olds) > 1 or (new in words and not path.endswith(".rt")):
            clashes.append((path, new, sorted(olds)))
    if out != text:
        open(path, "w", encoding="utf-8").write(out)

for name in sorted(said):
    print(name, said[name])
for path, new, olds in clashes:
    print(f"look: {path}: {', '.join(olds)} became {new}, which stands there too", file=sys.stderr)
