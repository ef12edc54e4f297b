#!/usr/bin/env python3
"""Spells the names that the toolchain makes of steps and goals as today's Rattle does, in the proof files of functions.

usage: tools/respell_steps.py FOLDER

A step or goal is named after the source, and a name of the source keeps its underscores: `put-set-at-requires` becomes
`put_set-at-requires` where a function `put_set` is called. The toolchain's own words get underscores too, as `in_err-cost`.
Run it after tools/respell.py.
"""

import os
import re
import sys

sys.dont_write_bytecode = True

from respell import read, texts

PART = r"[^\s(){}\[\],;.:@`\"'´λ]"
TOKEN = re.compile(PART + r"+")
LIBRARY = """
copy_from_slice count_ones from_be_bytes from_residual saturating_add saturating_sub to_be_bytes trailing_zeros type_inv
in_default
"""
# named after a test of two variables, `action < count`
TESTS = {"if-action-count", "returns-then-action-count"}
HEADS = """
in_ok in_err invariant_of overflow_add overflow_sub overflow_mul overflow_cast overflow_shl overflow_shr nonzero_div
slice_bounds offset_bounds
"""


def main():
    if len(sys.argv) != 2:
        raise SystemExit(__doc__)
    root = sys.argv[1]
    names = set(LIBRARY.split()) | set(HEADS.split())
    for path in texts(root, ".rt"):
        text = read(path)
        names.update(re.findall(r"\bfn (\w+)", text))
        names.update(re.findall(r"\blet (?:mut )?(\w+)", text))
    dashed = sorted((it for it in names if re.search(r"\w_\w", it)), key=len, reverse=True)
    forms = [(re.compile(r"(?<![^\-])" + re.escape(it.replace("_", "-")) + r"(?![^\-])"), it) for it in dashed]

    def turned(found):
        token = re.sub(r"·(\d+)$", r"-\1", found.group())
        if "-" not in token or token in TESTS:
            return token
        if token.startswith(("In-default", "In-ok", "In-err")):
            token = token.replace("-", "_", 1)
        for form, name in forms:
            token = form.sub(name, token)
        return token

    for path in texts(root, ".antt"):
        if os.path.basename(path) not in ("Answers.antt", "Invariants.antt"):
            continue
        old = read(path)
        # names of lemmas, which the file imports, stay
        lists = re.findall(r"^use (\S+)\.\{(.*)\}$", old, re.M)
        imported = {it.strip() for module, words in lists if not module.endswith(".Goals") for it in words.split(",")}
        text = TOKEN.sub(lambda it: it.group() if it.group() in imported else turned(it), old)
        if text != old:
            with open(path, "w", encoding="utf-8", newline="") as f:
                f.write(text)


main()
