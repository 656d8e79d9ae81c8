#!/usr/bin/env python3
"""What whole notes cost beside the analysis alone, on sources that are hard for them.

    benches/notes_cost.py ANALYSER [FILE..]

ANALYSER is the built analyse_main. Of each source, those made here and each FILE, it makes the report and the whole
notes in turn, three times; printed are the least processor seconds of each, their ratio, and the greatest memory. The
notes are read as JSON: a refusal, or counts that are not those of the report, end it with status 1. Made here are:
stores of unknown subscripts in two tasks, many accesses of one object, many call paths to one place, and 32 tasks."""
import json
import os
import resource
import subprocess
import sys
import tempfile


def unknown_subscripts(count):
    """Two tasks that store to an array at subscripts that nothing is known of, each in so many places."""
    stores = "".join("w[__input(0, 63)] = %d;" % (at % 100) for at in range(count // 2))
    return "int w[64]; __task(1) void a(void) { %s } __task(2) void b(void) { %s }" % (stores, stores)


def accesses(count):
    """One object that two tasks store in so many places."""
    stores = "x = 1;" * (count // 2)
    return "int x; __task(1) void a(void) { %s } __task(2) void b(void) { %s }" % (stores, stores)


def call_paths(depth):
    """A division that is reached on two to the power of DEPTH call paths."""
    calls = ["int r; void f0(int d) { r = 8 / d; }"]
    calls += ["void f%d(int d) { f%d(d); f%d(d); }" % (at, at - 1, at - 1) for at in range(1, depth + 1)]
    return "\n".join(calls) + "\n__task(1) void t(void) { f%d(__input(0, 3)); }" % depth


def tasks(count):
    """So many tasks that add to one object and divide by another one's."""
    lines = ["int x, y[%d];" % count]
    lines += [
        "__task(%d) void t%d(void) { x = x + 1; y[%d] = 100 / y[%d]; }" % (at + 1, at, at, (at + 1) % count)
        for at in range(count)
    ]
    return "\n".join(lines)


def answered(words, path):
    """The answer of a program to a source, its processor seconds and its greatest memory in MB."""
    before = resource.getrusage(resource.RUSAGE_CHILDREN)
    with open(path, "rb") as source:
        ran = subprocess.run(words, stdin=source, capture_output=True, check=False)
    after = resource.getrusage(resource.RUSAGE_CHILDREN)
    seconds = after.ru_utime + after.ru_stime - before.ru_utime - before.ru_stime
    return ran, seconds, after.ru_maxrss / 1024


def compared(name, path, analyser):
    """Prints the row of a source; whether its notes are those of its report."""
    best = {}
    for _ in range(3):
        for kind, words in (("report", [analyser, "analyse", "--json"]), ("notes", [analyser, "notes", "notes"])):
            ran, seconds, memory = answered(words, path)
            if ran.returncode > 1:
                print(f"{name}: refused by {kind}: {ran.stdout[:200]!r}")
                return False
            value = json.loads(ran.stdout)
            old = best.get(kind, (1e9, 0, value))
            best[kind] = (min(old[0], seconds), memory, value)
    (report, _, told), (notes, memory, noted) = best["report"], best["notes"]
    ratio = notes / report if report > 0.02 else 0
    print(f"{name}: {told['count']} alarms, report {report:.2f} s, notes {notes:.2f} s"
          + (f", {ratio:.2f} times" if ratio else "") + f", {memory:.0f} MB at most so far")
    keys = ("class", "col", "line")
    return [[it[key] for key in keys] for it in noted["alarms"]] == [[it[key] for key in keys] for it in told["alarms"]]


def main():
    if len(sys.argv) < 2:
        sys.exit(__doc__.splitlines()[2].strip())
    analyser, *files = sys.argv[1:]
    made = {
        "1,920 stores of unknown subscripts": unknown_subscripts(1920),
        "10,000 accesses of one object": accesses(10000),
        "256 call paths to one place": call_paths(8),
        "32 tasks": tasks(32),
    }
    good = True
    with tempfile.TemporaryDirectory() as folder:
        for name, text in made.items():
            path = os.path.join(folder, "source.c")
            with open(path, "w", encoding="ascii") as source:
                source.write(text + "\n")
            good &= compared(name, path, analyser)
    for path in files:
        good &= compared(os.path.basename(path), path, analyser)
    return 0 if good else 1


if __name__ == "__main__":
    sys.exit(main())
