#!/usr/bin/env python3
"""Counts the ways through crates.txt, and finds crates that a line names without need.

    benches/ways.py [--most N]

A way leads from a library along the lines of crates.txt to a crate below it. Twice for each library that it proves, a
kit makes a sum of the texts below: some kits read the text of a crate anew along each way that leads to it, so that
what a line names is paid for by all crates above, others once (which of the two the kit at hand is, its `rt` tells). A
line has to name each crate whose code or definitions the crate's text names by themselves (`tm_laid::Laid`,
`Rattle.tm_laid.specs.Layouts`), and no other one. A crate that is reached through another one as well may be left out
where that one passes on what is used, by `pub use` lines in src/lib.rt (code, item by item), in specs/Lib.antt
(definitions) and below proofs/low/ (lemmas): the ways that this would spare are told for the dearest ten.

The status is 1 where a line names a crate that the text does not, or the text one that the line does not, or where
there are more than N ways."""
import functools
import hashlib
import os
import re
import signal
import sys
import time

sys.dont_write_bytecode = True
PARTS = ("src", "specs", "proofs")


def read_lines(root):
    """The crates that each line of crates.txt names, without those of the kit."""
    named = {}
    with open(f"{root}/crates.txt", encoding="utf-8") as it:
        for line in it:
            head, _, rest = line.partition("#")[0].partition(":")
            if head.strip():
                named[head.split()[0]] = rest.split()
    return {name: [it for it in used if it in named] for name, used in named.items()}


def files_of(folder):
    for part in PARTS:
        for at, folders, files in os.walk(f"{folder}/{part}"):
            folders.sort()
            yield from (f"{at}/{it}" for it in sorted(files))


def used_by(root, name, crates):
    """The crates that the text of a crate names."""
    found = set()
    for file in files_of(f"{root}/crates/{name}"):
        is_code = file.endswith(".rt")
        with open(file, encoding="utf-8") as it:
            rows = [row for row in it if not row.lstrip().startswith("//" if is_code else "--")]
        for row in rows:
            found.update(re.findall(r"\bRattle\.(\w+)\.", row))
            if is_code:
                found.update(re.findall(r"(?<![\w:.])(\w+)(?=::)", row))
    return (found & crates) - {name}


def seconds_of(folder):
    """What one reading of a crate's text takes, as the kit does it; the least of three, for a busy machine."""
    found = []
    for _ in range(3):
        began, made = time.process_time(), hashlib.sha256()
        for file in files_of(folder):
            with open(file, "rb") as it:
                made.update(repr((file, it.read())).encode())
        found.append(time.process_time() - began)
    return min(found)


def seconds_of_kit(libraries, root):
    """What the two sums of each library take by the kit at hand, if it reads each text once; else None."""
    sys.path.insert(0, f"{root}/tools")
    from kept_crates import rt, rtlib

    if not hasattr(rt, "stamp_once"):
        return None
    rtlib.stop, rtlib.Crate = rt.stop, rt.Crate
    crates = [it for it in rtlib.crates_below(f"{root}/crates") if it.name in libraries]
    began = time.process_time()
    for it in crates:
        it.stamp()
    return 2 * (time.process_time() - began)


def main():
    words, root = sys.argv[1:], os.path.dirname(os.path.dirname(os.path.realpath(__file__)))
    if words and (len(words) != 2 or words[0] != "--most" or not words[1].isdigit()):
        print(__doc__)
        return 2
    named = read_lines(root)

    @functools.lru_cache(maxsize=None)
    def ways(name):
        return 1 + sum(map(ways, named[name]))

    @functools.lru_cache(maxsize=None)
    def below(name):
        return frozenset(named[name]).union(*map(below, named[name]))

    libraries = [it for it in named if os.path.isfile(f"{root}/crates/{it}/src/lib.rt") and not it.endswith("_tests")]
    # (how many ways lead to each crate, from all libraries)
    leading = {it: int(it in libraries) for it in named}
    for name in sorted(named, key=lambda it: -len(below(it))):
        for used in named[name]:
            leading[used] += leading[name]
    total = sum(map(ways, libraries))
    spent = seconds_of_kit(libraries, root)
    if spent is None:
        spent = 2 * sum(leading[it] * seconds_of(f"{root}/crates/{it}") for it in named)
    print(f"{total} ways of {len(libraries)} libraries: {spent:.0f} processor seconds of the kit in a run from nothing")
    for name in sorted(libraries, key=ways)[:-9:-1]:
        print(f"  {name}: {ways(name)}")
    lost, spared = 0, []
    for name, used in named.items():
        texts = used_by(root, name, {*named})
        for it in sorted({*used} - texts):
            print(f"{name} names {it} without need")
        for it in sorted(texts - {*used}):
            print(f"{name} uses {it}, which its line does not name")
        lost += len({*used} ^ texts)
        spared += [(leading[name] * ways(it), name, it) for it in used if any(it in below(of) for of in used)]
    for number, name, it in sorted(spared, reverse=True)[:10]:
        print(f"  {number} ways fewer if {name} reached {it} through another crate")
    is_over = words and total > int(words[1])
    if is_over:
        print(f"more than {words[1]} ways")
    return 1 if lost or is_over else 0


if __name__ == "__main__":
    signal.signal(signal.SIGPIPE, signal.SIG_DFL)
    sys.exit(main())
