#!/usr/bin/env python3
"""Tries the wrong bodies that stand in crates/NAME/tested/, which the tests of other crates have to refuse.

    benches/tested.py [--reads] [NAME..]

Each of these bodies is proved: it gives up for want of memory, of which no clause says when it comes, or it tells a
gate or leaves work to other workers in a way of which no clause speaks. An edit is as those of must-fail/, but begins
with a line `tests: NAME..`: the crates of which each has a test that refuses it. So the crate itself has to be proved
with the edit, and the tests of these crates have to be proved and to fail. --reads only looks whether each edit fits.

It works on a copy of the repository, one for each edit, and leaves this one as it is. What is proved is kept by
`tools/prove.py`, yet all crates from the edited one up to the tests are proved anew for each edit: minutes for
`engine_tests`, up to an hour for `program_tests` where the edit stands in a low crate."""
import os
import re
import shutil
import subprocess
import sys
import tempfile

TOP = os.path.dirname(os.path.dirname(os.path.realpath(__file__)))


def read(path):
    """The test crates that an edit names, and its steps: a file, a text that stands once in it, what comes there."""
    tests, file, steps, old = [], None, [], None
    with open(path, encoding="utf-8") as it:
        for line in it.read().splitlines():
            word, _, text = line.partition(": ")
            if word == "tests":
                tests = text.split()
            elif word == "file":
                file = text
            elif word == "old":
                old = text
            elif word == "new":
                steps.append((file, old, text))
            else:
                sys.exit(f"{path}: a line is neither tests:, file:, old: nor new:")
    return tests, steps


def changed(folder, path, steps):
    """The files of a crate that the steps change, with their new texts."""
    texts = {}
    for file, old, new in steps:
        if file not in texts:
            with open(f"{folder}/{file}", encoding="utf-8") as it:
                texts[file] = it.read()
        if texts[file].count(old) != 1:
            sys.exit(f"{path}: this does not stand once in {file}: {old}")
        texts[file] = texts[file].replace(old, new)
    return texts


def tried(name, path):
    """Tries an edit, and says whether its tests refuse it."""
    tests, steps = read(path)
    room = tempfile.mkdtemp()
    copy = f"{room}/copy"
    try:
        shutil.copytree(TOP, copy, ignore=shutil.ignore_patterns("out", ".git"))
        for file, text in changed(f"{copy}/crates/{name}", path, steps).items():
            with open(f"{copy}/crates/{name}/{file}", "w", encoding="utf-8") as it:
                it.write(text)
        well = True
        for test in tests:
            told = subprocess.run([f"{copy}/tools/prove.py", "--tests", test], cwd=copy, capture_output=True, text=True)
            # The log says that the tests failed only where they were proved and were run.
            fell = re.search(rf"^{test} tests: FAILED: read (\S+)", told.stdout, re.M)
            refused = False
            if fell:
                with open(fell[1], encoding="utf-8") as log:
                    refused = f"{test}: its tests FAILED" in log.read()
            well = well and refused
            print(f"{name}/{os.path.basename(path)}: {'refused' if refused else 'NOT REFUSED'} by {test}", flush=True)
            if not refused:
                print(told.stdout, end="", flush=True)
        return well
    finally:
        shutil.rmtree(room, ignore_errors=True)


def main():
    words = sys.argv[1:]
    only_read = "--reads" in words
    names = [it for it in words if it != "--reads"]
    found = sorted(it for it in os.listdir(f"{TOP}/crates") if os.path.isdir(f"{TOP}/crates/{it}/tested"))
    well = True
    for name in names or found:
        folder = f"{TOP}/crates/{name}/tested"
        for file in sorted(os.listdir(folder)):
            if only_read:
                changed(f"{TOP}/crates/{name}", f"{folder}/{file}", read(f"{folder}/{file}")[1])
            else:
                well = tried(name, f"{folder}/{file}") and well
    return 0 if well else 1


if __name__ == "__main__":
    sys.exit(main())
