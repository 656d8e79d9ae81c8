#!/usr/bin/env python3
"""What the program that checks certificates is made of: the crates below `check_main`, with the lines of code of each,
and their sum. No crate that solves equations, or that keeps the store of workers, may be among them.

    benches/checker.py

Lines of code are those of `src/` that are neither blank nor comments, clauses included. Status 1 where a solver is
among the crates, 2 where crates.txt has no line for the program."""
import os
import sys

PROGRAM = "check_main"
# what solves equations, or is made for those that do; whatever stands above one of them reaches it too
SOLVERS = (
    "least_tables", "least_assignments", "body_slots", "store_limits", "store_core", "thread_pass", "program_solutions",
    "analyser",
)


def lines_named(root):
    """The crates that each line of crates.txt names, without those of the kit."""
    named = {}
    with open(f"{root}/crates.txt", encoding="utf-8") as it:
        for line in it:
            head, _, rest = line.partition("#")[0].partition(":")
            if head.strip():
                named[head.split()[0]] = rest.split()
    return {name: [it for it in used if it in named] for name, used in named.items()}


def below(named, name):
    """The crates that a crate reaches, by their names."""
    found, left = set(), [name]
    while left:
        for used in named[left.pop()]:
            if used not in found:
                found.add(used)
                left.append(used)
    return found


def code_of(folder):
    """The lines of code of a crate."""
    count = 0
    for at, _, files in os.walk(f"{folder}/src"):
        for file in files:
            if file.endswith(".rt"):
                with open(f"{at}/{file}", encoding="utf-8") as it:
                    count += sum(bool(line.strip()) and not line.lstrip().startswith("//") for line in it)
    return count


def main():
    root = os.path.dirname(os.path.dirname(os.path.abspath(__file__)))
    named = lines_named(root)
    if PROGRAM not in named:
        print(f"checker: crates.txt has no line for {PROGRAM}", file=sys.stderr)
        return 2
    reached = [it for it in named if it in below(named, PROGRAM) or it == PROGRAM]
    total = 0
    for name in reached:
        lines = code_of(f"{root}/crates/{name}")
        total += lines
        print(f"{lines:6}  {name}")
    print(f"{total:6}  lines of code in {len(reached)} crates")
    solvers = [it for it in SOLVERS if it in reached]
    for name in solvers:
        users = [it for it in reached if name in named[it]]
        print(f"checker: {name} is among them, named by {' '.join(users)}", file=sys.stderr)
    return 1 if solvers else 0


if __name__ == "__main__":
    sys.exit(main())
