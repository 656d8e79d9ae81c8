#!/usr/bin/env python3
"""Sees that the documents speak of what is there.

    benches/documents.py

The tables of crates are those that tools/crate_table.py makes. Of README.md and docs/*.md each link leads to a file
and, where it names one, to a heading; and each path in backquotes that ends as a file of the repository does
(`transfer_rows/specs/Rows.antt`, `src/rows.rt` behind a crate's name in its line, `tools/owner.py`) is the end of the
path of some file. The lines of commands that a document shows name scripts that are there. A name that is told with
its crate (`lowering_laws::graphs_run_as_next`, `given` of `graph_facts`) or with its file (`IsPair` of
`program_equations/specs/Solutions.antt`) stands there. Each other name with a `_` or a capital inside stands in some
source, definition, proof or script. Where a file is told bare behind one with its crate, in a row or in one cell of a
table, the crate has a file of that name.

What a document says of them no script sees. The status is 1 where something is missing."""
import glob
import os
import re
import subprocess
import sys

ENDINGS = ("antt", "rt", "py", "sh", "awk", "md", "txt", "edit", "c", "h", "report", "ranges", "waits", "certificate")
# Files that a reader makes, or that stand outside of the repository.
OUTSIDE = {"compile_commands.json", "proof.txt", "log.sarif"}
# Names of grammars, of the kit and of its libraries, and what `join_units` makes of one.
OTHER_NAMES = set("any_name typedef_name pass_tests clap_on_literals try_get_matches_from matches_of rate___2".split())


def anchor(title):
    """The anchor of a heading."""
    bare = re.sub(r"[`*]|\[|\]\([^)]*\)", "", title).strip().lower()
    return re.sub(r"[^\w\- ]", "", bare).replace(" ", "-")


def headings(file, known={}):
    if file not in known:
        with open(file, encoding="utf-8") as it:
            known[file] = {anchor(row.lstrip("#")) for row in it if row.startswith("#")}
    return known[file]


def is_file(path, ends):
    """Whether a path is the end of that of a file: of each of its last parts the ends are known."""
    return path in ends or path.removeprefix("./") in ends


def has_word(place, name):
    """Whether a file, or some file of a folder, has the name as a word."""
    words = ["git", "grep", "-qwF", "--untracked", "-e", name, "--", place]
    return subprocess.run(words, check=False).returncode == 0


def words_of(files):
    """The words of these files."""
    found = set()
    for file in files:
        with open(file, encoding="utf-8", errors="replace") as it:
            found.update(re.findall(r"\w+", it.read()))
    return found


def foreign_files(text, files):
    """The files that are told bare behind one with its crate and that this crate has not, cell by cell."""
    for cell in re.split(r"(?<!\\)\||\n", text):
        crate = None
        for path in re.findall(r"`([\w./+-]+\.(?:antt|rt))`", cell):
            parts = path.split("/")
            if len(parts) > 2 and parts[1] in ("src", "specs", "proofs"):
                crate = parts[0]
            elif crate and len(parts) == 1:
                if not any(it.startswith(f"crates/{crate}/") and it.endswith(f"/{path}") for it in files):
                    yield f"{path} of {crate}"


def main():
    os.chdir(os.path.dirname(os.path.dirname(os.path.abspath(__file__))))
    words = ["git", "ls-files", "--cached", "--others", "--exclude-standard"]
    listed = subprocess.run(words, capture_output=True, text=True, check=True)
    files = [it for it in listed.stdout.splitlines() if os.path.exists(it)]
    ends = set()
    for file in files:
        parts = file.split("/")
        ends.update("/".join(parts[i:]) for i in range(len(parts)))
    named = words_of(it for it in files if not it.endswith((".md", ".1"))) | OTHER_NAMES
    named.update(os.path.basename(it) for it in glob.glob("crates/*"))
    wrong = 0
    for document in ["README.md", *sorted(glob.glob("docs/*.md")), *sorted(glob.glob("examples/*.md"))]:
        with open(document, encoding="utf-8") as it:
            text = it.read()
        missing = []
        for target in re.findall(r"\]\(([^)\s]+)\)", text):
            path, _, part = target.partition("#")
            if "://" in target:
                continue
            there = os.path.normpath(os.path.join(os.path.dirname(document), path)) if path else document
            if not os.path.exists(there) or (part and there.endswith(".md") and part not in headings(there)):
                missing.append(f"the link {target}")
        for word in re.findall(r"`([\w./+-]+)`", text):
            ending = word.rpartition(".")[2]
            is_path = ending in ENDINGS and ending != word and "NAME" not in word and word[0] not in "./"
            if is_path and word not in OUTSIDE and not is_file(word, ends):
                missing.append(word)
        for row in re.findall(r"^\$ ((?:\./)?(?:benches|tools)/\S+)", text, re.M):
            if not is_file(row, ends):
                missing.append(row)
        for crate, name in re.findall(r"`(\w+)(?:::\w+)*::(\w+)`", text):
            if os.path.isdir(f"crates/{crate}") and not has_word(f"crates/{crate}", name):
                missing.append(f"{name} of {crate}")
        for name, path in re.findall(r"`(\w+)` of `(\w[\w./-]+/[\w.-]+\.(?:antt|rt))`", text):
            if any(there.endswith(f"/{path}") for there in files):
                if not any(has_word(there, name) for there in files if there.endswith(f"/{path}")):
                    missing.append(f"{name} of {path}")
        for name, crate in re.findall(r"`(\w+)` of `(\w+)`", text):
            if os.path.isdir(f"crates/{crate}") and not has_word(f"crates/{crate}", name):
                missing.append(f"{name} of {crate}")
        for name in re.findall(r"`([A-Za-z]\w*(?:_\w+|[a-z][A-Z]\w*))`", text):
            if name not in named:
                missing.append(name)
        missing += foreign_files(text, files)
        for it in dict.fromkeys(missing):
            print(f"{document}: {it} is not there")
            wrong += 1
    wrong += subprocess.run(["tools/crate_table.py", "--check"], check=False).returncode
    return 1 if wrong else 0


if __name__ == "__main__":
    sys.exit(main())
