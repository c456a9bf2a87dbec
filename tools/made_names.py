#!/usr/bin/env python3
"""Spells, in the proofs of functions, the names that the toolchain makes as it makes them now: a Rust name keeps its underscores, and in_default, in_ok and in_err are one word.

usage: python3 tools/made_names.py CRATE..     at the top of the repository"""

import os
import re
import sys

IDENT = re.compile(r"[A-Za-z][A-Za-z0-9]*(?:_[A-Za-z0-9]+)+")


def files(crate, ending):
    for folder, dirs, names in os.walk(os.path.join("crates", crate)):
        dirs[:] = [d for d in dirs if d != "out"]
        for f in names:
            if f.endswith(ending):
                yield os.path.join(folder, f)


def read(path):
    with open(path, encoding="utf-8") as f:
        return f.read()


def main(crates):
    for crate in crates:
        idents = set()
        for path in files(crate, ".rt"):
            text = re.sub(r"//[^\n]*|\"(?:[^\"\\]|\\.)*\"", "", read(path))
            idents |= set(IDENT.findall(text))
        idents |= {"in_default", "in_ok", "in_err", "in_some", "in_none", "type_inv"}
        forms = sorted({i.replace("_", "-"): i for i in idents}.items(), key=lambda x: -len(x[0]))
        for path in files(crate, ".antt"):
            if len(path.split(os.sep)) < 5 or "specs" in path.split(os.sep)[2]:
                continue
            old = text = read(path)
            lines = []
            for line in text.split("\n"):
                if line.startswith("use ") and ".Goals" not in line and ".Given" not in line:
                    lines.append(line)
                    continue
                for a, b in forms:
                    line = re.sub(r"(?<![A-Za-z0-9_'])" + re.escape(a) + r"(?![A-Za-z0-9_'])", b, line)
                    if a.startswith("in-"):
                        line = re.sub(r"(?<![A-Za-z0-9_'])I" + re.escape(a[1:]) + r"(?![A-Za-z0-9_'])", "I" + b[1:], line)
                lines.append(line)
            text = "\n".join(lines)
            if text != old:
                with open(path, "w", encoding="utf-8") as f:
                    f.write(text)


main(sys.argv[1:])
