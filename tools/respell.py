#!/usr/bin/env python3
"""Spells this repository's own definitions and lemmas in snake case: `isCharacter` is `is_character`, `nibble-word` is `nibble_word`.

usage: tools/respell.py [TOP]

It was run once, in the commit that docs/PORT.md names. Turned are the names that the .antt files below crates/ declare, in .antt and .rt files, in must-fail
edits, and in the code spans of the documents. A name stays in a file that imports it from a library, and so do names that Rattle makes for a proof, and
each type, module and fact, which begin with a capital. Two names of one file that would fall together are printed, and then nothing is written.
"""

import collections
import os
import re
import sys

TOKEN = re.compile(r'[^\s(){}.;,@"«»\[\]]+')
DECLARED = re.compile(r"""(?m)^( *)((?:pub |abbrev |unfoldable )*)([^\s(){}.;,@"«»:]+)((?: +\{[^{}\n]*\}| +\([^()\n]*\))*) *:(?= |\n)""")
LET = re.compile(r"\blet ([^\s(){}.;,@\"«»:]+)")
BOUND = re.compile(r"[(λ{] ?((?:[^\s(){}.;,@\"«»:λ]+ )+):(?= )")
LIBRARY = re.compile(r"(?m)^ *(?:ghost )?use (?:mathlib|Prim|native|lib|borrow|contract|Rattle\.(?:std|core))\b[^{\n]*\{([^}]*)\}")
SPAN = re.compile(r"`[^`\n]+`")

# Lemmas that would have the name of the definition that they speak of.
LEMMAS = set(
    """acted-at answered-size behind-mask by-cell cells-number hello-head in-float is-chain is-nibble is-nowhere line-between may-carry nibble-word on-wire
    ones-in pairs-left part-value put-at read-covered read-head values-on write-head""".split()
)
# The same of lemmas that were in snake case, each with the crates in which it is one.
SNAKE_LEMMAS = {
    "covers_at": "letters/proofs/Between.antt roundtrip/",
    "has_part": "parts/proofs/Part.antt",
    "in_bytes": "promises/specs/CSideWhy.antt promises/proofs/CSideWhy.antt promises/proofs/WhyNumbers.antt",
    "line_on": "promises/proofs/CSide",
    "right_of": "promises/proofs/CSideWhy.antt",
}


def snake(name):
    if name in LEMMAS:
        return name.replace("-", "_") + "_lem"
    words = re.sub(r"(?<=[a-z0-9])[A-Z]", lambda m: "_" + m[0].lower(), name)
    return words.replace("-", "_")


def files(top, kinds):
    for folder, dirs, names in os.walk(top):
        dirs[:] = sorted(d for d in dirs if d not in ("out", "target", ".git"))
        for name in sorted(names):
            if name.endswith(kinds):
                yield os.path.join(folder, name)


def read(path):
    with open(path, encoding="utf-8", newline="") as it:
        return it.read()


def is_odd(name):
    return name[:1].islower() and ("-" in name or re.search("[A-Z]", name)) and not re.search(r"[^\w'₀-₉-]", name)


def own_names(top):
    """The names that the texts declare and that are not yet in snake case."""
    names = set()
    for path in files(os.path.join(top, "crates"), ".antt"):
        text = read(path)
        for it in DECLARED.finditer(text):
            if not text[it.end() :].lstrip().startswith("tie."):
                names.add(it[3])
        names.update(it[1] for it in LET.finditer(text))
        for it in BOUND.finditer(text):
            names.update(it[1].split())
    return {name for name in names if is_odd(name)}


def imported(text):
    return {word.split(" as ")[0].strip() for it in LIBRARY.finditer(text) for word in it[1].split(",")}


def code_and_comments(text, mark):
    """The text cut into (is_code, piece): a comment begins at the mark and ends with its line."""
    for line in text.splitlines(keepends=True):
        at = re.search(rf"(?:^|(?<=\s)){mark}(?=[\s]|$)", line)
        if at:
            yield True, line[: at.start()]
            yield False, line[at.start() :]
        else:
            yield True, line


def lemmas_of(path):
    return {name for name, places in SNAKE_LEMMAS.items() if any(it in path for it in places.split())}


def turned(text, names, mark, lemmas):
    stay = imported(text)
    if re.search(r"(?m)^use .*\bas ([^\s;{},]+)", text):
        aliases = {it[1] for it in re.finditer(r"(?m)^(?:ghost )?use [^{\n]* as ([^\s;{},]+)", text) if is_odd(it[1])}
    else:
        aliases = set()

    def word(it):
        name = it[0]
        if name in lemmas and it.string[it.start() - 1 : it.start()] != ".":
            return name + "_lem"
        if name in stay or not (name in names or name in aliases):
            return name
        return snake(name)

    def span(it):
        return "`" + TOKEN.sub(word, it[0][1:-1]) + "`"

    return "".join(TOKEN.sub(word, piece) if code else SPAN.sub(span, piece) for code, piece in code_and_comments(text, mark))


def met(text, names, mark, lemmas):
    """Pairs of names that would be one in this text."""
    stay = imported(text)
    groups = collections.defaultdict(set)
    for code, piece in code_and_comments(text, mark):
        if code:
            for it in TOKEN.finditer(piece):
                if piece[it.start() - 1 : it.start()] == ".":
                    continue
                name = it[0]
                if name in lemmas:
                    groups[name + "_lem"].add(name)
                else:
                    groups[snake(name) if name in names and name not in stay else name].add(name)
    return [sorted(group) for group in groups.values() if len(group) > 1]


def main(top):
    names = own_names(top)
    clash = False
    new = {}
    for path in files(os.path.join(top, "crates"), (".antt", ".rt", ".edit")):
        text = read(path)
        mark = "--" if path.endswith(".antt") else "//"
        lemmas = lemmas_of(path)
        # a clause may cite a definition that has its function's name
        if path.endswith(".antt"):
            for group in met(text, names, mark, lemmas):
                print(f"{os.path.relpath(path, top)}: would be one: {' '.join(group)}")
                clash = True
        new[path] = turned(text, names, mark, lemmas)
    for path in files(os.path.join(top, "docs"), ".md"):
        new[path] = SPAN.sub(lambda it: "`" + TOKEN.sub(lambda w: snake(w[0]) if w[0] in names else w[0], it[0][1:-1]) + "`", read(path))
    if clash and "--anyway" not in sys.argv:
        return 1
    for path, text in new.items():
        if text != read(path):
            with open(path, "w", encoding="utf-8", newline="") as it:
                it.write(text)
    return 0


if __name__ == "__main__":
    raise SystemExit(main(os.path.abspath(sys.argv[1] if len(sys.argv) > 1 else ".")))
