#!/usr/bin/env python3
"""Brings the repository's own definitions and lemmas to the spelling of rattle-kit-13f: words in snake case. It runs once, at the top, on what
/opt/rattle/port/port.py left of a commit that was written for the former kit (docs/PORT.md). Functions of src/, exported names, strings, inputs
and outputs keep theirs; types, facts and modules are in camel case already.

A word of ours is one in lower case at its first letter, with a hyphen or a capital within, that stands in specs/ or proofs/ and is not taken
from a library. Where two words would fall together, or one would hide a word that it does not mean, TOLD says the name."""

import glob
import re
import sys

# The words whose spelling in snake case is some other word's.
TOLD = {
    "oneMore": "with_one_more",
    "one-pass": "rows_in_one_pass",
    "next-head": "next_head_is",
    "refused-with": "list_refused",
    "adds-up": "adds_up_told",
    "balance-at": "balances_of_at",
    "in-table": "taken_in_table",
    "no-piece": "no_piece_there",
    "no-entry": "entries_without_18",
    "book-adds-up": "book_on",
}

# Lemmas that were in snake case, and had the name that a definition now gets.
LEMMAS = {"read_number": "number_read"}

# Words of ours that are English words too, and mean these in a comment.
ENGLISH = {"ill-formed"}

WORD = r"(?<![\w'·.-])[a-z_][\w']*(?:-[\w']+)*(?![\w'-])"
OURS = re.compile(r"[a-z_][\w']*(?:-[\w']+)+|[a-z_][a-z0-9_']*[A-Z][\w'-]*")
IMPORT = re.compile(r"^\s*(?:ghost )?(?:pub )?use ([^{;\s]*)\{([^}]*)\}", re.M)


def snake(word):
    word = word.replace("-", "_")
    word = re.sub(r"([a-z0-9'])([A-Z])", lambda m: m[1] + "_" + m[2].lower(), word)
    word = re.sub(r"_([A-Z])", lambda m: "_" + m[1].lower(), word)
    return re.sub("_+", "_", word)


def plain(text):
    """An antt file without its comments."""
    return re.sub(r"--.*", "", text)


def main():
    statements = sorted(glob.glob("crates/*/specs/*.antt") + glob.glob("crates/*/proofs/*.antt"))
    proofs = sorted(glob.glob("crates/*/proofs/*/**/*.antt", recursive=True))
    clauses = sorted(glob.glob("crates/*/src/**/*.rt", recursive=True))
    edits = sorted(glob.glob("crates/*/must-fail/*.edit"))
    texts = {path: open(path).read() for path in statements + proofs + clauses + edits}

    ours = tuple(f"Rattle.{path.split('/')[1]}." for path in glob.glob("crates/*/src"))
    library = set()
    for path in statements + proofs + clauses:
        for m in IMPORT.finditer(texts[path]):
            if not m[1].startswith(ours):
                library |= {word.strip().split(" as ")[0] for word in m[2].split(",")}
    words = set()
    for path in statements:
        for m in re.finditer(WORD, plain(texts[path])):
            if OURS.fullmatch(m[0]) and m[0] not in library:
                words.add(m[0])

    names = {word: TOLD.get(word, snake(word)) for word in words}
    # what stands in snake case already, at the start of its line: a definition or a lemma
    standing = {m[1] for path in statements for m in re.finditer(r"^\s*(?:(?:pub|abbrev|unfoldable) )*([a-z][a-z0-9_']*) :", plain(texts[path]), re.M)}
    together = {LEMMAS.get(name, name): [name] for name in standing}
    for word, name in names.items():
        together.setdefault(name, []).append(word)
    for name, found in sorted(together.items()):
        if len(found) > 1:
            print("fall together:", name, *sorted(found))

    held = re.compile(WORD)

    def said(part, comment):
        return held.sub(lambda m: m[0] if comment and m[0] in ENGLISH else names.get(m[0], m[0]), part)

    for path, text in texts.items():
        # In code a string and a comment stay as they are; a comment on definitions names them.
        rt = path.endswith(".rt")
        parts = re.split(r'("(?:[^"\\\n]|\\.)*"|//[^\n]*)' if rt else r"(--[^\n]*)", text)
        if path in statements:
            parts = [held.sub(lambda m: LEMMAS.get(m[0], m[0]), p) for p in parts]
        new = "".join(p if rt and i % 2 else said(p, i % 2) for i, p in enumerate(parts))
        # behind a dot: a field, a member or the last word of a path
        new = re.sub(r"(?<=\.)[a-z_][\w'-]*", lambda m: names.get(m[0], m[0]), new)
        if new != text:
            open(path, "w").write(new)
    text = open(".ci/theorems").read()
    open(".ci/theorems", "w").write(said(text, False))
    if "--list" in sys.argv:
        for word in sorted(names):
            print(word, names[word])
    print(f"names: {len(names)} words brought to snake case")


main()
