#!/usr/bin/env python3
"""Respells the repository's own names in crates/: definitions and lemmas to the spelling of today's Rattle, by the rows of respell.tsv.

usage: tools/respell.py [FOLDER]      once, after the kit's port.py; FOLDER is the top of a checkout, by default the one of this script

A row is an old name, a tab and a new name. Whole names alone turn, in the files of crates/ that end in .antt and .rt, comments too. A row whose
new name has a dash brings back the name of a lemma that port.py had spelled like a definition: it turns only in .antt files
and where the name stands alone, since elsewhere it is a function, a module or a step of the code. The rows are applied in one pass, so no row turns what another made.
"""

import os
import re
import sys

HERE = os.path.dirname(os.path.realpath(__file__))
NAME = re.compile(r"[^\s(){}.;,@\"«»`]+")


def table():
    with open(os.path.join(HERE, "respell.tsv"), encoding="utf-8") as f:
        return dict(line.rstrip("\n").split("\t") for line in f)


def turned(text, names, is_code):
    def new(found):
        old = found[0]
        name = names.get(old, old)
        is_path = text[found.start() - 1 : found.start()] == "." or text[found.end() : found.end() + 2].strip(".").isalpha() and text[found.end()] == "."
        return old if "-" in name and "-" not in old and (is_path or is_code) else name

    return NAME.sub(new, text)


def main():
    top = sys.argv[1] if len(sys.argv) > 1 else os.path.dirname(HERE)
    names, changed = table(), 0
    for folder, folders, files in os.walk(os.path.join(top, "crates")):
        folders[:] = [it for it in folders if it != "out"]
        for name in files:
            if name.endswith((".antt", ".rt")):
                path = os.path.join(folder, name)
                with open(path, encoding="utf-8") as f:
                    old = f.read()
                new = turned(old, names, name.endswith(".rt"))
                if new != old:
                    with open(path, "w", encoding="utf-8") as f:
                        f.write(new)
                    changed += 1
    print(f"respell: {len(names)} names, {changed} files")


main()
