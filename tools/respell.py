#!/usr/bin/env python3
"""Spells the repository's own definitions and lemmas as today's Rattle does.

usage: tools/respell.py FOLDER [--list]

FOLDER is a checkout that /opt/rattle/port/port.py has turned. A name of a definition, a lemma, a field or a constructor that
has a dash gets an underscore for it, and the name of a type or a fact is written in camel case: `no-action` becomes
`no_action`, `Sound-action` becomes `SoundAction`. Names that the toolchain makes (`returns-then-a-b`) and names of its library
stay. In a .rt file only clauses, ghost items and `ghost use` lines have such names; strings and comments are left alone.

--list writes nothing and prints each old name with its new one. A name whose new spelling stands in the texts already is
named in a line 'falls together:', and left as it is.
"""

import os
import re
import sys

PART = r"[^\s(){}\[\],;.:@`\"'´λ]"
TOKEN = re.compile(PART + r"+(?:'+)?")
DECLARED = re.compile(r"^\s*(?:(?:abbrev|unfoldable|pub) )*(?:(record|data) )?(" + PART + r"+'*)(?= )(.*)$")
OWN_USE = re.compile(r"^\s*(?:ghost )?use ")
# lemmas whose new spelling is a function's or the library's
APART = {
    "bit-and": "bit-bit_and",
    "bit-or": "bit-bit_or",
    "carriers-stand": "carriers_stand_lem",
    "few-atoms": "few_atoms_lem",
    "rounds-end": "rounds_end_lem",
}
# fields of records that another type's field, or a function, has the name of
SHARED = {"adds-in", "goal-in", "needs-in", "pair-at", "removes-in", "start-in", "zero-at-goal"}


def texts(root, ending):
    for folder, dirs, names in os.walk(os.path.join(root, "crates")):
        dirs[:] = sorted(d for d in dirs if d != "out")
        for name in sorted(names):
            if name.endswith(ending):
                yield os.path.join(folder, name)


def read(path):
    with open(path, encoding="utf-8", newline="") as f:
        return f.read()


def declared(text):
    """The names that a text of antt declares."""
    for line in text.split("\n"):
        found = DECLARED.match(line)
        if not found or OWN_USE.match(line):
            continue
        kind, name, rest = found.groups()
        if kind or rest.startswith(" : ") and not rest.startswith(" : goal."):
            yield name


def respelled(name):
    if name in APART:
        return APART[name]
    parts = name.split("-")
    if name[0].isupper():
        return "".join(p[:1].upper() + p[1:] for p in parts)
    return "_".join(parts)


def tokens(text):
    return {it.group() for it in TOKEN.finditer(text)}


def renamings(root):
    names, standing = set(), set()
    for path in texts(root, ".antt"):
        text = read(path)
        names.update(declared(text))
        standing.update(tokens(text))
    new = {it: respelled(it) for it in names if "-" in it.strip("-") and it not in APART.values()}
    apart = {}
    for old in sorted(new):
        if old not in SHARED and new[old] in standing or list(new.values()).count(new[old]) > 1:
            print(f"falls together: {old}: {new[old]}")
        else:
            apart[old] = new[old]
    return apart


def turned(text, new):
    return TOKEN.sub(lambda it: new.get(it.group(), it.group()), text)


def turned_source(text, new):
    """A .rt text: whole lines of comments stay, and so do strings and what follows '//'."""
    out = []
    for line in text.split("\n"):
        if line.lstrip().startswith("//") or '"' in line:
            out.append(line)
            continue
        code, slashes, comment = line.partition("//")
        out.append(turned(code, new) + slashes + comment)
    return "\n".join(out)


def turned_antt(text, new):
    out = []
    for line in text.split("\n"):
        code, dashes, comment = (line, "", "") if "-- " not in line else line.partition("-- ")
        out.append(turned(code, new) + dashes + comment)
    return "\n".join(out)


def main():
    words = [it for it in sys.argv[1:] if it != "--list"]
    if len(words) != 1:
        raise SystemExit(__doc__)
    root = words[0]
    new = renamings(root)
    if "--list" in sys.argv:
        for old in sorted(new):
            print(f"{old} {new[old]}")
        return
    for ending, turn in ((".antt", turned_antt), (".rt", turned_source)):
        for path in texts(root, ending):
            old = read(path)
            text = turn(old, new)
            if text != old:
                with open(path, "w", encoding="utf-8", newline="") as f:
                    f.write(text)


if __name__ == "__main__":
    main()
