#!/usr/bin/env python3
"""Compares the notes on alarms of a program with those of another implementation.

    benches/contexts.py PROGRAM CASES

PROGRAM is the built analyse_main. CASES has a JSON object in each line, with the source `stdin`, and `status` and
`stdout` of the other implementation: where the status is not 2, `stdout` is JSON with the lists `alarms`, `objects`,
`tasks` and `mutexes`, which refer to each other by their positions. Compared are of each alarm other than a race, in
their order: place, class and operator; the type in which it computes, the length of an array, the cells of an element,
the mutex and the rule; the tasks with their priorities; whether each run ends there; and of each operand its role, its
least and greatest number and their stride, null and unset pointers, and the objects of the others with their places,
sizes and offsets, and what is bad about these; of a refusal the whole line. The status is 1 where a case differs."""
import json
import subprocess
import sys


def wanted_operand(operand, objects):
    """An operand of the other implementation."""
    numbers = (operand["lo"], operand["hi"], operand["step"]) if "lo" in operand else None
    led_to = []
    for it in operand.get("objects", []):
        of = objects[it["object"]]
        led_to.append((of["line"], of["col"], of["name"], it["size"], it["lo"], it["hi"], it["step"]))
    return operand["role"], numbers, operand.get("null", False), operand.get("invalid", False), led_to


def wanted_flaws(operands, objects):
    """What is bad about the objects of the operands of the other implementation."""
    flaws = set()
    for led_to in (it for operand in operands for it in operand.get("objects", [])):
        of = objects[led_to["object"]]
        flaws.update((of["line"], of["col"], of["name"], flaw) for flaw in led_to["bad"].split("|") if flaw)
    return flaws


def wanted(case):
    """The alarms of the other implementation."""
    notes = json.loads(case["stdout"])
    tasks = [(it["name"], "initial" if it["initial"] else str(it["priority"])) for it in notes["tasks"]]
    mutexes = [it["name"] for it in notes["mutexes"]]
    alarms = []
    for alarm in notes["alarms"]:
        if alarm["class"] == "RACE":
            continue
        about = {
            "in": alarm.get("type"),
            "of": alarm.get("length"),
            "cells": alarm.get("cells"),
            "mutex": mutexes[alarm["mutex"]] if "mutex" in alarm else None,
            "rule": alarm.get("rule"),
            "tasks": [tasks[it] for it in alarm["tasks"]],
            "always": alarm["always"],
        }
        operands = [wanted_operand(it, notes["objects"]) for it in alarm["operands"]]
        bad = wanted_flaws(alarm["operands"], notes["objects"])
        alarms.append(((alarm["line"], alarm["col"], alarm["class"], alarm["operator"]), about, operands, bad))
    return alarms


def place_of(word):
    """The line and the column of LINE:COL."""
    line, col = word.split(":")
    return int(line), int(col)


def told_head(words):
    """The first line of an alarm: LINE:COL CLASS OPERATOR .. edges N [always] tasks NAME PRIORITY .."""
    about = dict.fromkeys(["in", "of", "cells", "mutex", "rule"])
    at = 3
    if words[1] == "LOCK":
        about["mutex"], about["rule"] = words[3:5]
        at = 5
    edges = words.index("edges", at)
    if words[at] == "in":
        about["in"] = " ".join(words[at + 1 : edges])
    else:
        about.update((name, int(number)) for name, number in zip(words[at:edges:2], words[at + 1 : edges : 2]))
    about["always"] = words[edges + 2] == "always"
    pairs = words[edges + 3 + about["always"] :]
    about["tasks"] = list(zip(pairs[::2], pairs[1::2]))
    return (*place_of(words[0]), words[1], words[2]), about, [], set()


def told_operand(words):
    """The line of an operand: LINE:COL ROLE [LEAST GREATEST STRIDE] [null] [invalid]"""
    numbers = tuple(int(it) for it in words[2:5]) if len(words) > 4 else None
    return words[1], numbers, "null" in words[2:], "invalid" in words[2:], []


def told(text):
    """The alarms in a text of the program."""
    alarms = []
    for line in text.splitlines()[:-1]:
        words = line.split(" ")
        if len(words) > 2 and words[2] == "of":
            # LINE:COL NAME of SIZE at LEAST GREATEST STRIDE
            offsets = (int(it) for it in words[5:])
            alarms[-1][2][-1][4].append((*place_of(words[0]), words[1], int(words[3]), *offsets))
        elif len(words) > 2 and words[2] == "bad":
            # LINE:COL NAME bad FLAW
            alarms[-1][3].add((*place_of(words[0]), words[1], words[3]))
        elif words[1].isupper():
            alarms.append(told_head(words))
        else:
            alarms[-1][2].append(told_operand(words))
    return alarms


def main():
    if len(sys.argv) != 3:
        sys.exit(__doc__.splitlines()[2].strip())
    same = differing = 0
    with open(sys.argv[2], encoding="utf-8") as cases:
        for line in cases:
            case = json.loads(line)
            ran = subprocess.run([sys.argv[1], "notes", "alarms"], input=case["stdin"].encode(), capture_output=True, check=False)
            text = ran.stdout.decode()
            if case["status"] == 2:
                is_same = text == case["stdout"]
            else:
                alarms = wanted(case)
                is_same = told(text) == alarms and text.endswith(f"alarms {len(alarms)}\n")
                is_same = is_same and ran.returncode == (1 if alarms else 0)
            same += is_same
            differing += not is_same
            if not is_same:
                print(f"differs: {case.get('id', '')}")
    print(f"{same} are the same, {differing} differ")
    return 1 if differing else 0


if __name__ == "__main__":
    sys.exit(main())
