#!/usr/bin/env python3
"""Checks logs against SARIF 2.1.0 (OASIS, 2020), property by property: benches/sarif.py FILE..

It reads each file with Python's json, and tells the first thing that is not as sections 3.13 to 3.58 of the standard have
it: which properties an object must have and which it may, of which types, that arrays of distinct values have each value
once, that lines and columns count from 1 and regions are not empty, that each result names a rule by its word and by its
position, that each uri is a reference, and that related places and frames of call paths stand in files of the log. Where a uri is a file's, that file must be there, and have the heading that the
fragment names. It tells also where a log is not what this project writes: the rules are those of RULES, each with its one
level, and the results come in four parts, alarms, waits, dead places and assumptions, and behind them those that are
absent; each has a fingerprint, and no two have one; the kind of assumptions, and of no others, is `review`; and the exit
status is 1 where something is to be mended."""
import json
import os
import re
import sys
import urllib.parse


# The rules, and the level of what each finds.
RULES = {
    **dict.fromkeys(["OVERFLOW", "DIV", "SHIFT", "INDEX", "POINTER", "DEREF", "LOCK", "RACE"], "warning"),
    "WAIT": "warning",
    "DEAD": "note",
    **dict.fromkeys(["CONST", "ENUM", "IMPLEMENTATION", "LAYOUT", "LIFETIME", "MEMBER", "ORDER", "PRAGMA", "RESERVED",
                     "RESTRICT", "UNSET"], "none"),
}

# The parts in which the results come.
PARTS = ["alarms", "WAIT", "DEAD", "assumptions"]

# What stands in a uri reference (RFC 3986).
REFERENCE = r"(?:[A-Za-z0-9._~/-]|%[0-9A-F]{2})*"


class Wrong(Exception):
    pass


def part(value, where, name, kind):
    """The property of an object that must be there, of this type."""
    if not isinstance(value, dict):
        raise Wrong(f"{where} is no object")
    if name not in value:
        raise Wrong(f"{where} has no {name}")
    found = value[name]
    if not isinstance(found, kind) or (kind is int and isinstance(found, bool)):
        raise Wrong(f"{where}.{name} is no {kind.__name__}")
    return found


def only(value, where, *names):
    """An object has no other properties."""
    others = set(value) - set(names)
    if others:
        raise Wrong(f"{where} has {sorted(others)[0]}")


def distinct(values, where):
    """An array of which the standard has it has no value twice."""
    texts = [json.dumps(value, sort_keys=True) for value in values]
    if len(set(texts)) != len(texts):
        raise Wrong(f"{where} has a value twice")


def text(value, where):
    """A message, or a message of several formats (3.11, 3.12)."""
    only(value, where, "text")
    if not part(value, where, "text", str):
        raise Wrong(f"{where}.text is empty")


def headings(file):
    """The headings of a document, as links name them."""
    found = set()
    with open(file, encoding="utf-8") as lines:
        for line in lines:
            if line.startswith("#"):
                words = line.lstrip("#").strip().lower()
                found.add(re.sub(r"[^a-z0-9 -]", "", words).replace(" ", "-"))
    return found


def resolves(uri, where):
    """A uri of a file, which is there and has the heading that the fragment names."""
    match = re.fullmatch(rf"file://(/{REFERENCE})#([a-z0-9-]+)", uri)
    if not match:
        raise Wrong(f"{where}: {uri!r} is no uri of a file and a heading")
    file = urllib.parse.unquote_to_bytes(match[1])
    if not os.path.isfile(file):
        raise Wrong(f"{where}: there is no file {match[1]}")
    if match[2] not in headings(file):
        raise Wrong(f"{where}: {match[1]} has no heading {match[2]}")


def location_of_file(value, where):
    """A location of an artifact (3.4)."""
    only(value, where, "uri")
    uri = part(value, where, "uri", str)
    if not re.fullmatch(REFERENCE, uri):
        raise Wrong(f"{where}: {uri!r} is no reference")
    return uri


def region(value, where):
    """A region by lines and columns (3.30)."""
    only(value, where, "startLine", "startColumn", "endColumn")
    for name in ("startLine", "startColumn", "endColumn"):
        if name in value and part(value, where, name, int) < 1:
            raise Wrong(f"{where}.{name} is below 1")
    part(value, where, "startLine", int)
    if "endColumn" in value and value["endColumn"] <= part(value, where, "startColumn", int):
        raise Wrong(f"{where} is empty")
    return value["startLine"], value.get("startColumn")


def location(value, where):
    """A location (3.28): a physical one (3.29), and the function in which it stands (3.33)."""
    only(value, where, "physicalLocation", "logicalLocations")
    physical = part(value, where, "physicalLocation", dict)
    only(physical, where, "artifactLocation", "region")
    uri = location_of_file(part(physical, where, "artifactLocation", dict), where)
    line, column = region(part(physical, where, "region", dict), where)
    functions = part(value, where, "logicalLocations", list)
    distinct(functions, f"{where}.logicalLocations")
    for function in functions:
        only(function, where, "kind", "name")
        if part(function, where, "kind", str) != "function" or not part(function, where, "name", str):
            raise Wrong(f"{where} has no function's name")
    if len(functions) > 1:
        raise Wrong(f"{where} stands in two functions")
    return uri, line, column


def site(value, where):
    """A location with a message: a related one, or that of a frame (3.27.22, 3.45.3)."""
    only(value, where, "message", "physicalLocation")
    text(part(value, where, "message", dict), where)
    return location({"physicalLocation": value.get("physicalLocation"), "logicalLocations": []}, where)


def stack(value, here):
    """A call stack (3.44): its frames (3.45) from the innermost one on, which is where the result stands."""
    where = "a stack"
    only(value, where, "frames", "message")
    text(part(value, where, "message", dict), where)
    places = []
    for frame in part(value, where, "frames", list):
        only(frame, "a frame", "location")
        places.append(site(part(frame, "a frame", "location", dict), "a frame"))
    if not places or places[0] != here:
        raise Wrong(f"{where} does not begin where its result stands")
    return places


def told(value, here):
    """The places that belong to a result, and those of its call paths: each list has each of its values once."""
    related, stacks = (part(value, "a result", name, list) for name in ("relatedLocations", "stacks"))
    distinct(related, "relatedLocations")
    distinct(stacks, "stacks")
    if stacks and part_of(value["ruleId"]) != 0:
        raise Wrong("what is no alarm has a call path")
    if related and value["ruleId"] != "RACE":
        raise Wrong("what is no race has related places")
    return [site(it, "a related place") for it in related] + [place for it in stacks for place in stack(it, here)]


def rules_of(driver):
    """The rules of the tool (3.49)."""
    found = []
    for rule in part(driver, "the driver", "rules", list):
        only(rule, "a rule", "id", "shortDescription", "help", "helpUri", "defaultConfiguration")
        word = part(rule, "a rule", "id", str)
        found.append(word)
        text(part(rule, "a rule", "shortDescription", dict), "a description")
        text(part(rule, "a rule", "help", dict), "a help")
        resolves(part(rule, "a rule", "helpUri", str), f"the rule {word}")
        configuration = part(rule, "a rule", "defaultConfiguration", dict)
        only(configuration, "a configuration", "level")
        if part(configuration, "a configuration", "level", str) != RULES.get(word):
            raise Wrong(f"the level of the rule {word} is not its own")
    distinct(found, "the rules")
    if found != list(RULES):
        raise Wrong("the rules are not those of the project, each once and in their order")
    return found


def tool(run):
    """The tool (3.18, 3.19)."""
    value = part(run, "a run", "tool", dict)
    only(value, "the tool", "driver")
    driver = part(value, "the tool", "driver", dict)
    only(driver, "the driver", "name", "version", "semanticVersion", "rules")
    if part(driver, "the driver", "name", str) != "Cedratcleat":
        raise Wrong("the driver has another name")
    for name in ("version", "semanticVersion"):
        if not re.fullmatch(r"\d+\.\d+\.\d+", part(driver, "the driver", name, str)):
            raise Wrong(f"the driver's {name} is no version")
    return rules_of(driver)


def notification(value):
    """What the tool tells of itself (3.58): why it refused a source."""
    where = "a notification"
    only(value, where, "descriptor", "level", "locations", "message")
    descriptor = part(value, where, "descriptor", dict)
    only(descriptor, where, "id")
    if not part(descriptor, where, "id", str):
        raise Wrong(f"{where} has no word")
    if part(value, where, "level", str) != "error":
        raise Wrong(f"{where} is no error")
    text(part(value, where, "message", dict), where)
    return [location(it, where) for it in part(value, where, "locations", list)]


def invocation(run):
    """The one invocation of a run (3.20): whether it came to its results, its status, and what it told."""
    found = part(run, "a run", "invocations", list)
    if len(found) != 1:
        raise Wrong("a run has not one invocation")
    only(found[0], "the invocation", "executionSuccessful", "exitCode", "toolExecutionNotifications")
    successful = part(found[0], "the invocation", "executionSuccessful", bool)
    status = part(found[0], "the invocation", "exitCode", int)
    told = part(found[0], "the invocation", "toolExecutionNotifications", list)
    places = [place for it in told for place in notification(it)]
    if successful != (not told) or successful != (status in (0, 1)):
        raise Wrong("the status of the invocation is not that of its notifications")
    return status, places


def suppression(value):
    """A suppression (3.35), which says why."""
    where = "a suppression"
    only(value, where, "kind", "justification", "status")
    if part(value, where, "kind", str) not in ("inSource", "external"):
        raise Wrong(f"{where} is of another kind")
    if not part(value, where, "justification", str):
        raise Wrong(f"{where} does not say why")
    if value.get("status", "accepted") not in ("accepted", "underReview", "rejected"):
        raise Wrong(f"{where} has another status")


def compared(values):
    """Whether results have states (3.27.24), and which are absent: all have one or none has, and so of suppressions."""
    for name in ("baselineState", "suppressions"):
        if len({name in value for value in values}) > 1:
            raise Wrong(f"some results have {name} and others not")
    for value in values:
        for it in part(value, "a result", "suppressions", list) if "suppressions" in value else []:
            suppression(it)
        if value.get("baselineState", "new") not in ("new", "unchanged", "absent"):
            raise Wrong("a result has another state")
    return [value.get("baselineState") == "absent" for value in values]


def result(value, rules):
    """A result (3.27)."""
    where = "a result"
    only(value, where, "kind", "ruleId", "ruleIndex", "level", "message", "locations", "partialFingerprints",
         "relatedLocations", "stacks", "baselineState", "suppressions")
    word = part(value, where, "ruleId", str)
    if rules[part(value, where, "ruleIndex", int)] != word:
        raise Wrong(f"the rule of a result is not {word}")
    if part(value, where, "level", str) != RULES[word]:
        raise Wrong(f"the level of a result is not that of {word}")
    # (3.27.9: what has no kind is a failure, and what has another kind than that has the level none)
    if value.get("kind", "fail") != ("review" if RULES[word] == "none" else "fail"):
        raise Wrong(f"a result of {word} is of another kind")
    text(part(value, where, "message", dict), "a message")
    marks = part(value, where, "partialFingerprints", dict)
    only(marks, "the fingerprints", "cedratcleat/v1")
    mark = part(marks, "the fingerprints", "cedratcleat/v1", str)
    if not re.fullmatch(r"[0-9a-f]{32}", mark):
        raise Wrong(f"{mark!r} is no fingerprint")
    here = part(value, where, "locations", list)
    if len(here) != 1:
        raise Wrong("a result has not one place")
    place = location(here[0], "a place")
    return word, mark, place, told(value, place)


def part_of(word):
    """The number of the part in which results of a rule stand."""
    if RULES[word] == "none":
        return PARTS.index("assumptions")
    return PARTS.index(word) if word in PARTS else 0


def results(run, rules):
    """The results of a run that were found, each with its place and its word, and the other places that are told of
    them. Behind them stand those that were not found."""
    found, others, marks, last = [], [], [], (False, 0)
    values = part(run, "a run", "results", list)
    for value, absent in zip(values, compared(values)):
        word, mark, here, of_it = result(value, rules)
        number = (absent, part_of(word))
        if number < last:
            raise Wrong(f"a result of {word} stands behind one of {PARTS[last[1]]}")
        last = number
        marks.append(mark)
        if not absent:
            found.append((*here, word))
            others += of_it
    distinct(marks, "the fingerprints")
    return found, others


def places(log):
    """The places of the results of a log, each with its word."""
    only(log, "the log", "$schema", "version", "runs")
    if part(log, "the log", "version", str) != "2.1.0":
        raise Wrong("the version is not 2.1.0")
    found = []
    for run in part(log, "the log", "runs", list):
        only(run, "a run", "tool", "artifacts", "columnKind", "invocations", "results")
        if part(run, "a run", "columnKind", str) != "utf16CodeUnits":
            raise Wrong("columns count something else")
        told, others = results(run, tool(run))
        status, refused = invocation(run)
        if status != 2 and status != any(RULES[word] == "warning" for *_, word in told):
            raise Wrong(f"the exit status is {status}")
        files = []
        for artifact in part(run, "a run", "artifacts", list):
            only(artifact, "an artifact", "location")
            files.append(location_of_file(part(artifact, "an artifact", "location", dict), "an artifact"))
        distinct(files, "the artifacts")
        for uri in [place[0] for place in told + others + refused]:
            if uri not in files:
                raise Wrong(f"{uri} is no artifact")
        found += told
    return found


def main():
    if not sys.argv[1:]:
        print(__doc__)
        return 2
    for file in sys.argv[1:]:
        try:
            with open(file, encoding="utf-8") as it:
                found = places(json.load(it))
        except (Wrong, ValueError) as why:
            print(f"{file}: {why}")
            return 1
        print(f"{file}: {len(found)} results")
    return 0


if __name__ == "__main__":
    sys.exit(main())
