#!/usr/bin/env python3
"""Tells who owns a name: where it is defined, which code has it, which contracts promise it, which laws and tests speak of
it, and which crates pass it on.

    tools/owner.py NAME..     (at the top of a checkout)

A name is a definition of a spec file, a constructor or a field of one, an item or a variant of a source, or a lemma of
a proof; `tools/owner.py AreWaits circular` shows both sides of one rule. It looks at words, as grep does, and knows no
scopes: where two crates have the name, both are shown. Of the documents it shows the lines that have the name between
backquotes. The status is 1 where nobody defines it."""
import os
import re
import subprocess
import sys

# How many places of one kind are shown.
MOST_SHOWN = 6


def lines_with(name, *files):
    """The lines of these files that have the name as a word: file, number, text."""
    words = ["git", "grep", "-nwF", "--untracked", "-e", name, "--", *files]
    found = subprocess.run(words, capture_output=True, text=True, check=False).stdout
    return [(file, int(number), text) for file, number, text in (it.split(":", 2) for it in found.splitlines())]


def crate_of(file):
    return file.split("/")[1]


def is_in_enum(file, number):
    """Whether the item of a source in which this line stands is an enum."""
    with open(file, encoding="utf-8") as it:
        heads = [row for row in it.read().splitlines()[: number - 1] if re.match(r"[a-z]", row)]
    return bool(heads) and re.match(r"(pub(\([a-z]+\))? )?enum\b", heads[-1]) is not None


def rank(name, file, number, text):
    """What a line says of the name: the kind of place, or nothing."""
    word, bare = re.escape(name), text.strip()
    is_test = crate_of(file).endswith("_tests")
    if re.match(r"(ghost |pub )*use\b", bare):
        return "passed on" if bare.startswith("pub use") else None
    if file.endswith(".edit"):
        return "wrong body"
    if "/proofs/" in file:
        return "lemma" if re.match(rf"(abbrev |pub )*{word} :", bare) else None
    if file.endswith(".antt"):
        heads = rf"(abbrev |pub |data |record |module )*{word}\s*[:({{]|(data|record) (pub )?{word}\b"
        return "definition" if re.match(heads, bare) or re.match(rf"pub (data|record|abbrev|unfold) {word}\b", bare) else None
    if re.search(rf"\b(fn|struct|enum|trait|type|const|static) {word}\b", text):
        return "law" if file.endswith("laws.rt") else "test" if is_test else "code"
    if is_test:
        return "test"
    if re.match(rf"{word}(,| ?[({{])", bare) and text.startswith("    ") and is_in_enum(file, number):
        return "code"
    if re.match(r"(ensures|requires|[→×])", bare):
        return "law" if file.endswith("laws.rt") else "contract"
    return None


def owned_by(name):
    """The places of each kind."""
    places = {}
    for file, number, text in lines_with(name, "crates/*.antt", "crates/*.rt", "crates/*.edit"):
        kind = rank(name, file, number, text)
        if kind:
            places.setdefault(kind, []).append((file, number, text.strip()))
    return places


def tell(name):
    places = owned_by(name)
    print(name)
    for kind in ("definition", "code", "contract", "law", "lemma", "test", "wrong body", "passed on"):
        rows = places.get(kind, [])
        for file, number, text in rows[:MOST_SHOWN]:
            print(f"  {kind:<10}  {file}:{number}: {text[:110]}")
        if len(rows) > MOST_SHOWN:
            others = sorted({crate_of(file) for file, _, _ in rows[MOST_SHOWN:]})
            print(f"  {kind:<10}  and {len(rows) - MOST_SHOWN} more in {', '.join(others)}")
    quoted = re.compile(rf"`[^`]*\b{re.escape(name)}\b[^`]*`")
    written = lines_with(name, "docs/*.md", "README.md")
    documents = [f"{file}:{number}" for file, number, text in written if quoted.search(text)]
    if documents:
        print(f"  documents   {', '.join(documents[:MOST_SHOWN])}")
    return any(kind in places for kind in ("definition", "code", "law", "lemma"))


def main():
    names = sys.argv[1:]
    if not names or names[0].startswith("-") or not os.path.isfile("crates.txt"):
        print(__doc__)
        return 2
    found = [tell(name) for name in names]
    return 0 if all(found) else 1


if __name__ == "__main__":
    sys.exit(main())
