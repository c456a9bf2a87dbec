#!/usr/bin/env python3
"""Spells the repository's own definitions and lemmas as the language does: words in snake case, facts and types in camel case.

usage: python3 tools/respell.py     at the top of the repository, once, after the kit's own port script

A name is turned where it is declared at the top of a file of specs/ or proofs/ (definitions, lemmas, fields, constructors)
or given by `as` where it is brought in, and wherever it is used. Names that the toolchain makes, names of Rust items and
strings stay. Where a turned name would meet a name that a source file has already, ALIASES says what is written there."""

import os
import re

SKIP = {"out", ".git"}
WORD = r"[^\s(){}\[\];,.:«»\"λ→×≡◌]+"
DECLARED = re.compile(r"^\s*(?:\|?\s*)(?:(?:abbrev|unfoldable|pub|record|data|module)\s+)*(" + WORD + r")(?:\s[^:=]*)?\s?:(?:\s|$)")
TOKEN = re.compile(r"(?<![\w'◌-])([A-Za-z_][\w']*(?:-[\w'+*]+)+)(?![\w'◌-])")


def texts():
    for folder, dirs, files in os.walk("crates"):
        dirs[:] = sorted(d for d in dirs if d not in SKIP)
        for f in sorted(files):
            if f.endswith((".rt", ".antt")):
                yield os.path.join(folder, f)


def read(path):
    with open(path, encoding="utf-8") as f:
        return f.read()


def turned(name):
    parts = name.split("-")
    if name[0].isupper():
        return "".join(p[:1].upper() + p[1:] for p in parts)
    return "_".join(parts)


def own_file(path):
    """A file of definitions or lemmas: directly in specs/ or proofs/."""
    parts = path.split(os.sep)
    return path.endswith(".antt") and len(parts) == 4


def declared():
    names = set()
    for path in texts():
        text = read(path)
        if own_file(path):
            for line in text.splitlines():
                if line.lstrip().startswith("--"):
                    continue
                m = DECLARED.match(line)
                if m:
                    names.add(m[1])
        for use in re.findall(r"(?m)^\s*(?:ghost )?use [^\n;]*", text):
            names.update(re.findall(r" as ([^\s,}]+)", use))
    return {n for n in names if TOKEN.fullmatch(n)}


def library(names):
    """Names among these that some file brings in from the library: they are the library's there."""
    found = {}
    for path in texts():
        for m in re.finditer(r"use (Rattle\.std|borrow|mathlib|native|logic|lib|Prim|Rattle\.core)\.([\w.'◌-]*)\.\{([^}]*)\}", read(path)):
            for item in m[3].split(","):
                item = item.strip().split(" as ")
                if item[0] in names and len(item) == 1:
                    found.setdefault(path, set()).add(item[0])
    return found


# Where a source file has an item of a turned name, it brings the definition in under another.
ALIASES = {
    "nothing-new": "is_nothing_new",
    "in-range": "is_in_range",
    "queue-room": "has_queue_room",
    "answer-of": "answer_meant",
    "event-of": "event_meant",
    "put-of": "put_meant",
    "next-put": "next_put_in",
    "read-body": "body_read",
    "read-put": "put_read",
    "write-answer": "answer_written",
    "write-puts": "puts_written",
}

PLAIN = re.compile(r"//[^\n]*|--[^\n]*|\"(?:[^\"\\]|\\.)*\"")


def outside(text, f):
    """f of the text, but for comments and strings."""
    out, at = [], 0
    for m in PLAIN.finditer(text):
        out += [f(text[at : m.start()]), m[0]]
        at = m.end()
    return "".join(out) + f(text[at:])


def in_comments(text, names):
    """A comment that names a theorem names it as it is spelled."""
    return re.sub(r"//[^\n]*|--[^\n]*", lambda c: TOKEN.sub(lambda m: turned(m[1]) if m[1] in names and m[1][0].isupper() else m[1], c[0]), text)


def rust_words(text):
    words = set()
    outside(text, lambda t: words.update(re.findall(r"(?<![\w'-])[A-Za-z_][\w']*(?![\w'-])", t)) or t)
    return words


def turn(path, names):
    text = read(path)
    there = rust_words(text) if path.endswith(".rt") else set()
    said = set()

    def word(n):
        if n not in names:
            return n
        if turned(n) in there and n in ALIASES:
            said.add(n)
            return ALIASES[n]
        return turned(n)

    made = outside(text, lambda t: TOKEN.sub(lambda m: word(m[1]), t))
    for n in said:
        # the import names the definition, and the file's own name for it
        def use(m):
            line = re.sub(r"(?<![\w'])" + ALIASES[n] + r" as ", turned(n) + " as ", m[0])
            return re.sub(r"(?<![\w'])(?<! as )" + ALIASES[n] + r"(?![\w'])", turned(n) + " as " + ALIASES[n], line)

        made = re.sub(r"(?m)^\s*ghost use [^\n;]*;", use, made)
    return text, in_comments(made, names)


# Names that have no dash to turn, or that are bound inside a definition or a lemma; and a word of the library's older name.
OTHERS = {
    "cameOf": "came_of",
    "getOf": "get_of",
    "tellOf": "tell_of",
    "eventOf": "event_in",
    "eventIn": "event_in",
    "replyOf": "reply_of",
    "putsOf": "puts_of",
    "number_of_lem": "number_of",
    "is_held_lem": "is_held",
    "getD_pad": "get_or_pad",
    "getD_either": "get_or_either",
    "getD_zeros": "get_or_zeros",
    "is-me": "is_me",
    "is-most": "is_most",
    "is-own": "is_own",
    "is-told": "is_told",
    "read-i": "read_i",
    "read-j": "read_j",
    "right-f": "right_f",
    "right-g": "right_g",
    "same-own": "same_own",
    "text-size": "text_size",
    "with-x": "with_x",
    "counts-pieces": "counts_pieces",
    "counts-push": "counts_push",
    "hex-pieces": "hex_pieces",
}
OTHER = re.compile(r"(?<![\w'.-])(" + "|".join(map(re.escape, OTHERS)) + r")(?![\w'-])")


def turn_others(path):
    text = read(path)
    if path.split(os.sep)[2] in ("specs", "proofs", "src"):
        code = outside(text, lambda t: t)
        for m in set(OTHER.findall(PLAIN.sub("", code))):
            if re.search(r"(?<![\w'.-])" + re.escape(OTHERS[m]) + r"(?![\w'-])", PLAIN.sub("", text)):
                raise SystemExit(f"{path}: {m} would meet {OTHERS[m]}")
    made = outside(text, lambda t: OTHER.sub(lambda m: OTHERS[m[1]], t))
    if path.split(os.sep)[2] == "specs" and re.search(r"(?<![\w'])get_or(?![\w'-])", made):
        made = re.sub(r"(?m)^(use [^\n]*)(?<![\w'])get_or, ([^\n]*slice_index_or)", r"\1\2", made)
        made = outside(made, lambda t: re.sub(r"(?<![\w'])get_or(?![\w'-])", "slice_index_or", t))
    return text, made


def main():
    names = declared()
    for path in library(names):
        raise SystemExit(path + " brings in a name of the library's that is the repository's elsewhere")
    turns = {}
    for n in sorted(names):
        turns.setdefault(turned(n), []).append(n)
    for t, ns in turns.items():
        if len(ns) > 1:
            raise SystemExit(f"{ns} fall together as {t}")
    edits = [os.path.join(d, f) for d, ds, fs in os.walk("crates") for f in fs if f.endswith(".edit") and "out" not in d.split(os.sep)]
    count = 0
    for path in [*texts(), *sorted(edits)]:
        old, new = turn(path, names)
        if old != new:
            count += 1
            with open(path, "w", encoding="utf-8") as f:
                f.write(new)
    for path in [*texts(), *sorted(edits)]:
        old, new = turn_others(path)
        if old != new:
            count += 1
            with open(path, "w", encoding="utf-8") as f:
                f.write(new)
    print(f"{len(names)} names turned; {count} times a file was written")


if __name__ == "__main__":
    main()
