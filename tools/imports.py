#!/usr/bin/env python3
"""Sees that each import of definitions and lemmas leads somewhere, without a proof and in a second.

    tools/imports.py [NAME..]       looks at the files of these crates, or of all

Of each line `use Rattle.CRATE.specs...` or `use Rattle.CRATE.proofs...` in a .antt file, and `ghost use` in a .rt file,
the path is followed: through the crates that a Lib.antt passes on, to a module's file or to a type that a file of src/
declares; and each name in braces has to stand there. That the crate may be reached from there, crates.txt says, and only
the prover sees. Imports of the kit's libraries are left out. The status is 1 where something is missing."""
import functools
import glob
import os
import re
import sys

TOP = os.path.dirname(os.path.dirname(os.path.abspath(__file__)))
USE = re.compile(r"^\s*(?:pub )?(?:ghost )?use Rattle\.([^\s{;]+?)(?:\.\{([^}]*)\}|\s+as\s+\S+)?;?\s*$")


def text_of(path):
    with open(path, encoding="utf-8") as it:
        return it.read()


@functools.lru_cache(None)
def passed_on(path):
    """What a file passes on under a name: paths of crates and modules."""
    passed = {}
    for line in text_of(path).splitlines() if os.path.exists(path) else ():
        it = re.match(r"\s*pub use Rattle\.(\S+?)(?:\s+as\s+(\S+))?\s*$", line)
        if it:
            passed[it[2] or it[1].rpartition(".")[2]] = it[1].split(".")
    return passed


@functools.lru_cache(None)
def names_in(path):
    """The names that a file of definitions or lemmas declares, constructors and members too."""
    names = set()
    for line in text_of(path).splitlines():
        line = line.split("--")[0]
        if "use Rattle" in line:
            continue
        names.update(re.findall(r"[^\s(){}:,.;=]+", line))
    return names


@functools.lru_cache(None)
def types_in(path):
    """The types that a file of src/ declares, each with its variants."""
    text = text_of(path)
    found = {}
    for it in re.finditer(r"\b(struct|enum|union|trait)\s+([A-Za-z_0-9]+)", text):
        end = text.find("\n}", it.end())
        body = text[it.end() : end if end > 0 else len(text)]
        found[it[2]] = set(re.findall(r"\b([A-Z][A-Za-z_0-9]*)\b", body))
    return found


def declared(crate, rest, names):
    """What is wrong with an import of a type of src/, or of what the prover makes of it: `declared.MODULE..TYPE.{..}`,
    `declared.MODULE..TYPE.TheVariants.{..}`."""
    variants = bool(rest) and rest[-1] == "TheVariants"
    if rest and rest[-1] in ("TheVariants", "TheView", "TheInside", "TheBlock"):
        rest = rest[:-1]
    if not rest:
        return "names no type"
    *modules, name = rest
    base = f"{TOP}/crates/{crate}/src/" + "/".join(modules)
    for path in (f"{base}.rt", f"{base}/mod.rt", f"{TOP}/crates/{crate}/src/lib.rt"):
        if os.path.exists(path) and name in types_in(path):
            if variants and names:
                lacking = [it for it in names if it not in types_in(path)[name]]
                return f"has no variant {', '.join(lacking)}" if lacking else None
            return None
    return f"there is no type {name} in src/{'/'.join(modules)}.rt"


def followed(parts, names, depth=0):
    """What is wrong with an import of these names from this path."""
    crate, room, *rest = parts + [None] * (2 - len(parts))
    top = f"{TOP}/crates/{crate}/{room}"
    if depth > 12 or not rest or room not in ("specs", "proofs") or not os.path.isdir(f"{TOP}/crates/{crate}"):
        return None
    if room == "specs" and rest[0] == "declared":
        return declared(crate, rest[1:], names)
    if room == "specs" and rest[0] == "contracts":
        return None
    # The longest front of the path that a file passes on under its last part.
    for at in range(len(rest)):
        file = f"{top}/{'/'.join(rest[:at]) or 'Lib'}.antt"
        if rest[at] in passed_on(file):
            return followed(passed_on(file)[rest[at]] + rest[at + 1 :], names, depth + 1)
    file = f"{top}/{'/'.join(rest)}.antt"
    if os.path.exists(file):
        lacking = [it for it in names if it not in names_in(file) and it not in passed_on(file)]
        return f"does not declare {', '.join(lacking)}" if lacking else None
    # (the last part may be a name of the module before it, and the goals of a function have no file)
    file = f"{top}/{'/'.join(rest[:-1])}.antt"
    if len(rest) > 1 and os.path.exists(file):
        return None if rest[-1] in names_in(file) else f"does not declare {rest[-1]}"
    return None if room == "proofs" else "is no module"


def imports_of(path):
    """The imports of a file: line, path, names. Several lines may make one."""
    whole, begun = "", 0
    for number, line in enumerate(text_of(path).splitlines(), 1):
        if not whole and not re.match(r"\s*(pub )?(ghost )?use Rattle\.", line):
            continue
        whole, begun = (whole + " " + line.strip(), begun) if whole else (line.strip(), number)
        if "{" in whole and "}" not in whole:
            continue
        it = USE.match(whole)
        whole_line, whole = whole, ""
        if not it:
            yield begun, None, whole_line
            continue
        names = [name.split(" as ")[0].strip() for name in (it[2] or "").split(",") if name.strip()]
        yield begun, it[1].split("."), names


def main():
    crates = sys.argv[1:] or sorted(os.path.basename(it) for it in glob.glob(f"{TOP}/crates/*"))
    wrong = seen = 0
    for crate in crates:
        files = [
            path
            for room in ("src", "specs", "proofs")
            for path in glob.glob(f"{TOP}/crates/{crate}/{room}/**/*.*t*", recursive=True)
            if path.endswith((".antt", ".rt"))
        ]
        for path in sorted(files):
            for line, parts, names in imports_of(path):
                seen += 1
                told = "is not understood" if parts is None else followed(parts, names)
                if told:
                    wrong += 1
                    what = names if parts is None else "Rattle." + ".".join(parts)
                    print(f"{os.path.relpath(path, TOP)}:{line}: {what} {told}")
    print(f"{wrong} of {seen} imports lead nowhere")
    return 1 if wrong else 0


if __name__ == "__main__":
    sys.exit(main())
