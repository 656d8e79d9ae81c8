#!/usr/bin/env python3
"""Compares the notes of a program, as JSON, with those of another implementation.

    benches/notes.py PROGRAM CASES

PROGRAM is the built analyse_main. CASES has a JSON object in each line, with the source `stdin`, and `status` and
`stdout` of the other implementation. The whole texts are compared, byte for byte; of one that differs it is told in
which members. Of the objects that are not of static storage both list also those that their advice names, which
need not be the same: a text that differs in these alone, with the numbers of objects that follow from it, counts as one
that differs in `advice`. The status is 1 where a case differs otherwise."""
import json
import subprocess
import sys


def named(notes):
    """Notes in which objects stand by their places and names, and those that are not static are not listed."""
    objects = notes["objects"]
    by = [(it["line"], it["col"], it["name"], it.get("task")) for it in objects]
    other = json.loads(json.dumps(notes))
    for alarm in other["alarms"]:
        for led_to in (it for one in alarm.get("operands", []) for it in one.get("objects", [])):
            led_to["object"] = by[led_to["object"]]
    for group in other["races"]:
        group["object"] = by[group["object"]]
    other["objects"] = [it for it in objects if it["static"]]
    return other


def parts(told, wanted, before=""):
    """The members in which two values differ, the deepest ones."""
    if isinstance(told, dict) and isinstance(wanted, dict):
        keys = sorted(set(told) | set(wanted))
        return [it for key in keys for it in parts(told.get(key), wanted.get(key), f"{before}.{key}")]
    if isinstance(told, list) and isinstance(wanted, list) and len(told) == len(wanted):
        return [it for one, other in zip(told, wanted) for it in parts(one, other, before)]
    return [] if told == wanted else [before.lstrip(".")]


def differences(text, case):
    """In what the line of a program differs."""
    if text == case["stdout"]:
        return []
    notes = json.loads(text)
    if text != json.dumps(notes, sort_keys=True, separators=(",", ":")) + "\n":
        return ["order"]
    wanted = json.loads(case["stdout"])
    return sorted(set(parts(named(notes), named(wanted)))) or ["advice"]


def main():
    if len(sys.argv) != 3:
        sys.exit(__doc__.splitlines()[2].strip())
    same = advised = differing = 0
    with open(sys.argv[2], encoding="utf-8") as cases:
        for line in cases:
            case = json.loads(line)
            ran = subprocess.run([sys.argv[1], "notes", "notes"], input=case["stdin"].encode(), capture_output=True, check=False)
            text = ran.stdout.decode()
            if case["status"] == 2:
                found = [] if text == case["stdout"] else ["refusal"]
            else:
                found = differences(text, case)
            if ran.returncode != case["status"]:
                found.append("status")
            same += not found
            advised += found == ["advice"]
            differing += bool(found) and found != ["advice"]
            if found:
                print(f"differs: {case.get('id', '')} in {', '.join(found)}")
    print(f"{same} are the same, {advised} differ in advice alone, {differing} differ")
    return 1 if differing else 0


if __name__ == "__main__":
    sys.exit(main())
