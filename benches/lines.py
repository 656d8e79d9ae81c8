#!/usr/bin/env python3
"""Sees that the lines of a report tell of each of its alarms once.

    benches/lines.py COUNTS LINES WHY RACES [NOTES]

All are files: COUNTS is the report as JSON, LINES are the lines, and WHY and RACES what `--why` and `--races` write of
the same source, which have a warning for each alarm, and each object with all accesses to it. NOTES is the whole
notes, where places of the text are those of its file: then the pairs are looked at too.

Each alarm of values and locks has a warning with its sentence, each object with a race has one where the first of its
alarms stands, and each alarm of a race stands where such an object is accessed. Below the warning of an object stand
its racing accesses, eight at most, each once, then how many more there are, and its declaration with its guard. The
last line has the numbers of alarms, of races and of objects. The status is 1 where something is otherwise."""
import json
import re
import sys

MOST = 8
ACCESS = r"(.*): note: (\w+) (store|load)s, holds (.*?)( and has found free .*?)?(, and races)?$"


def groups_of(races):
    """Of each object with a race, by the place of its declaration: its name, and its accesses."""
    groups = {}
    for line in races:
        if found := re.match(r"(.*): warning: tasks may access (\w+) at the same time", line):
            groups[found[1]] = group = {"name": found[2], "all": [], "racing": []}
        elif found := re.match(ACCESS, line):
            held = () if found[4] == "nothing" else tuple(found[4].split(", "))
            access = (found[1], found[3], found[2], held)
            group["all"].append(access)
            if found[6]:
                group["racing"].append(access)
    return groups


def noted(line, name):
    """The access that a note tells of."""
    found = re.match(r"(.*): note: (store|load) of (\w+)([\w.\[\]]*) in (\w+) \(priority \d+\), (.*) held$", line)
    if not found or found[3] != name:
        return None
    return found[1], found[2], found[5], () if found[6] == "no mutex" else tuple(found[6].split(", "))


def is_guarded(text, group):
    """Whether a declaration's note tells how the object is guarded."""
    if text == f"no mutex is held at any of the {len(group['all'])} accesses":
        return not any(access[3] for access in group["all"])
    found = re.match(r"(\w+) is held at (\d+) of the (\d+) accesses; racing accesses without it are in (.*)$", text)
    if not found:
        return False
    tasks = {access[2] for access in group["racing"] if found[1] not in access[3]}
    held = [access[3] for access in group["all"]]
    most = max(sum(name in it for it in held) for name in {name for it in held for name in it})
    here = sum(found[1] in it for it in held)
    return set(found[4].split(", ")) == tasks and here == int(found[2]) == most and len(held) == int(found[3])


def fault_of(block, groups, first):
    """What is wrong with the lines on an object, if something is, and the place of its declaration."""
    place, text = block[0].split(": warning: ")
    declared, _, rest = block[-1].partition(": note: ")
    if declared not in groups:
        return "no declaration", None
    group = groups[declared]
    name, racing = group["name"], list(group["racing"])
    if place != first(group):
        return "not at the first alarm", declared
    tail = f" without a common mutex: {len(racing)} of its {len(group['all'])} accesses race [RACE]"
    found = re.match(rf"{name} is accessed by (\w+) \(priority \d+\), (\w+) \(priority \d+\){re.escape(tail)}$", text)
    if not found:
        return f"not the sentence of {name}", declared
    accesses = [noted(line, name) for line in block[1:-1]]
    more = re.match(r".*: note: and (\d+) more$", block[-2])
    if more:
        accesses.pop()
    for access in accesses:
        if access not in racing:
            return f"an access that does not race, or stands twice: {access}", declared
        racing.remove(access)
    if len(racing) != (int(more[1]) if more else 0) or (racing and len(accesses) != MOST):
        return "not all accesses", declared
    one, other = accesses[:2]
    if (one[2], other[2]) != (found[1], found[2]) or one[2] == other[2] or "store" not in (one[1], other[1]):
        return "no pair", declared
    if set(one[3]) & set(other[3]):
        return "a pair with a common mutex", declared
    if not is_guarded(rest.removeprefix(f"{name} is declared here; "), group):
        return "not its guard", declared
    return None, declared


def least_ranks(notes):
    """Of each race how bad its worst pair is: both store, and the fewest mutexes."""
    least = {}
    for alarm in notes["alarms"]:
        for access in alarm.get("accesses", []):
            for partner in access["partners"]:
                both = access["kind"] == partner["kind"] == "store"
                rank = (not both, len(access["held"]) + len(partner["held"]))
                least[access["race"]] = min(least.get(access["race"], rank), rank)
    objects = [notes["objects"][group["object"]] for group in notes["races"]]
    return {f"{of['line']}:{of['col']}": least[race] for race, of in enumerate(objects)}


def main():
    if len(sys.argv) not in (5, 6):
        sys.exit(__doc__.splitlines()[2].strip())
    texts = []
    for path in sys.argv[1:5]:
        with open(path, encoding="utf-8", errors="surrogateescape") as it:
            texts.append(it.read().splitlines())
    report = json.loads(texts[0][-1])
    _, lines, why, races = texts
    warnings = [line for line in why if re.search(r": warning: [^:]* \[[A-Z]+\]$", line)]
    classes = [alarm["class"] for alarm in report["alarms"]]
    assert len(warnings) == len(classes) == report["count"]
    assert all(line.endswith(f"[{word}]") for word, line in zip(classes, warnings))
    groups = groups_of(races)
    at = {}
    for index, line in enumerate(warnings):
        if classes[index] == "RACE":
            at.setdefault(line.split(": warning: ")[0], index)
    wrong = []

    def first(group):
        return min((access[0] for access in group["racing"]), key=lambda place: at.get(place, len(warnings)))

    # The lines, cut at each warning; those of alarms of values and locks are as ever.
    *body, last = lines
    blocks = []
    for line in body:
        if ": warning: " in line:
            blocks.append([line])
        else:
            blocks[-1].append(line)
    others = [block for block in blocks if not block[0].endswith("[RACE]")]
    if [line for block in others for line in block] != [line for line in warnings if not line.endswith("[RACE]")]:
        wrong.append("not the alarms of values and locks")
    told = []
    ranks = {}
    for block in blocks:
        if block[0].endswith("[RACE]"):
            fault, declared = fault_of(block, groups, first)
            told.append(declared)
            if fault:
                wrong.append(f"{block[0]}: {fault}")
            else:
                pair = [noted(line, groups[declared]["name"]) for line in block[1:3]]
                ranks[declared] = (pair[0][1] != pair[1][1], len(pair[0][3]) + len(pair[1][3]))
    if sorted(told, key=str) != sorted(groups):
        wrong.append("not each object with a race once")
    # Each alarm of a race stands at one object first, and each racing access has its alarm.
    owner = {}
    for declared, group in groups.items():
        for access in group["racing"]:
            owner.setdefault(access[0], declared)
    if set(owner) != set(at):
        wrong.append("an alarm of a race is at no object, or an access has no alarm")
    count, raced = len(classes), classes.count("RACE")
    wanted = f"alarms {count}"
    if raced:
        objects = "1 object" if len(groups) == 1 else f"{len(groups)} objects"
        wanted += f": {count - raced} of values and locks, {raced} of races at {objects}"
    if last != wanted:
        wrong.append(f"the last line is {last!r} and not {wanted!r}")
    if len(sys.argv) == 6 and not wrong:
        with open(sys.argv[5], encoding="utf-8") as it:
            least = least_ranks(json.load(it))
        for declared, rank in ranks.items():
            if rank != least[":".join(declared.split(":")[-2:])]:
                wrong.append(f"{declared}: not the worst pair")
    for it in wrong:
        print(it)
    if not wrong:
        print(f"{count} alarms in {len(blocks)} warnings, {raced} of them of races at {len(groups)} objects")
    return 1 if wrong else 0


if __name__ == "__main__":
    sys.exit(main())
