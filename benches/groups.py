#!/usr/bin/env python3
"""Compares the notes on races of a program with those of another implementation.

    benches/groups.py PROGRAM CASES

PROGRAM is the built analyse_main. CASES has a JSON object in each line, with the source `stdin`, and `status` and
`stdout` of the other implementation: where the status is not 2, `stdout` is JSON with the lists `objects`, `tasks`,
`mutexes` and `races`, which refer to each other by their positions. Compared are of each object with a race the place
and the name, and of each access to it place, task, kind, the mutexes that are held and those that were found free, and
whether it races; of a refusal the whole line. The status is 1 where a case differs."""
import json
import subprocess
import sys


def wanted(case):
    """The groups of the other implementation."""
    notes = json.loads(case["stdout"])
    tasks = [it["name"] for it in notes["tasks"]]
    mutexes = [it["name"] for it in notes["mutexes"]]
    groups = []
    for group in notes["races"]:
        of = notes["objects"][group["object"]]
        accesses = [
            (
                it["line"],
                it["col"],
                tasks[it["task"]],
                it["kind"],
                tuple(mutexes[m] for m in it["held"]),
                tuple(mutexes[m] for m in it["free"]),
                it["racing"],
            )
            for it in group["accesses"]
        ]
        groups.append(((of["line"], of["col"], of["name"]), sorted(accesses)))
    return sorted(groups)


def access_of(place, words):
    """An access, of the words behind its place: TASK stores|loads holds MUTEX .. free MUTEX .. [races]"""
    free = words.index("free")
    racing = words[-1] == "races"
    last = len(words) - racing
    return (*place, words[0], words[1].removesuffix("s"), tuple(words[3:free]), tuple(words[free + 1 : last]), racing)


def told(text):
    """The groups in a text of the program."""
    groups = []
    for line in text.splitlines()[:-1]:
        first, *words = line.split(" ")
        place = tuple(int(it) for it in first.split(":"))
        if words[1] == "RACES":
            groups.append(((*place, words[0]), []))
        else:
            groups[-1][1].append(access_of(place, words))
    return sorted((of, sorted(accesses)) for of, accesses in groups)


def main():
    if len(sys.argv) != 3:
        sys.exit(__doc__.splitlines()[2].strip())
    same = differing = 0
    with open(sys.argv[2], encoding="utf-8") as cases:
        for line in cases:
            case = json.loads(line)
            ran = subprocess.run([sys.argv[1], "notes", "races"], input=case["stdin"].encode(), capture_output=True, check=False)
            text = ran.stdout.decode()
            is_same = text == case["stdout"] if case["status"] == 2 else told(text) == wanted(case)
            same += is_same
            differing += not is_same
            if not is_same:
                print(f"differs: {case.get('id', '')}")
    print(f"{same} are the same, {differing} differ")
    return 1 if differing else 0


if __name__ == "__main__":
    sys.exit(main())
