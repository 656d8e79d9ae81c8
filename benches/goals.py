#!/usr/bin/env python3
"""Where the proof of a crate spends its seconds: which functions' goals are left to the search, and what that takes.

    benches/goals.py [--least SECONDS] NAME..     each crate after the other

Each crate is checked anew by one job over libraries that are kept; a crate of which one is lacking is passed over, since
proving it would take the processors (`tools/prove.py --lacks NAME` tells which). Modules are checked one after another
and written as each ends, so what the check took between two files is what the later one took: processor seconds, read
five times a second. Told are the sums of each kind of module, and the functions whose goals without answers, or whose
answers, take at least SECONDS (1); a cycle of functions is one. `Lts` is how values are let go, `Tie` what stands
between a function and its theorem, and neither has answers. The status is 1 where a crate was passed over or is not
proved."""
import bisect
import collections
import os
import re
import shutil
import subprocess
import sys
import time

TICKS = os.sysconf("SC_CLK_TCK")
KINDS = re.compile(r"\.(Lts|Proof|Tie|Answers|Kinds|Mir)\b")
BEHIND = re.compile(r"\.(Lts|Proof|Tie|Statement|Code|Answers|Goals|Met|Given|Invariants|Kinds|View|Named)([.-].*)?$")


def taken(folder):
    """The processor seconds so far of the prover in a folder; 0 where none runs there."""
    for name in os.listdir("/proc"):
        try:
            if name.isdigit() and os.readlink(f"/proc/{name}/exe").endswith("/rattle"):
                if os.readlink(f"/proc/{name}/cwd") == folder:
                    with open(f"/proc/{name}/stat", encoding="utf-8", errors="replace") as it:
                        row = it.read().rpartition(")")[2].split()
                    return sum(map(int, row[11:13])) / TICKS
        except OSError:
            continue
    return 0.0


def check(top, name):
    """Checks a crate anew: its status, and what it had taken at some moments."""
    folder = f"{top}/crates/{name}"
    shutil.rmtree(f"{folder}/out/incremental", ignore_errors=True)
    words = ["python3", f"{top}/tools/prove.py", "--check", name, "--jobs", "1"]
    run = subprocess.Popen(words, stdout=subprocess.DEVNULL, stderr=subprocess.DEVNULL)
    times, seconds = [0.0], [0.0]
    while run.poll() is None:
        times.append(time.time())
        seconds.append(max(seconds[-1], taken(folder)))
        time.sleep(0.2)
    return run.returncode, times, seconds


def modules(folder, times, seconds):
    """The modules of a check in the order in which they ended, each with its processor seconds."""
    kept = f"{folder}/out/incremental"
    found = [f"{at}/{it}" for at, _, files in os.walk(kept) for it in files if not at.endswith("records")]
    ended = sorted((os.stat(it).st_mtime, os.path.basename(it)[:-6]) for it in found if it.endswith(".oantt"))
    before = 0.0
    for at, module in ended:
        now = seconds[bisect.bisect_right(times, at) - 1]
        yield module, now - before
        before = now


def tell(top, name, least):
    lacks = subprocess.run(["python3", f"{top}/tools/prove.py", "--lacks", name], capture_output=True, text=True)
    if [it for it in lacks.stdout.split() if it != name]:
        print(f"{name}: passed over, since what is below it is not kept")
        return 1
    status, times, seconds = check(top, name)
    kinds, goals = collections.Counter(), collections.Counter()
    for module, took in modules(f"{top}/crates/{name}", times, seconds):
        place = re.sub(r"^Rattle-\w+-(proofs|specs)\.", "", module)
        kind = KINDS.search(place)
        kinds[kind[1] if kind else "others"] += took
        if kind and kind[1] in ("Proof", "Answers"):
            goals[BEHIND.sub("", place), kind[1]] += took
    sums = ", ".join(f"{kind} {took:.0f}" for kind, took in kinds.most_common())
    print(f"{name}{'' if status == 0 else ' (NOT PROVED)'}: {seconds[-1]:.0f} seconds: {sums}")
    for (place, kind), took in goals.most_common():
        if took >= least:
            print(f"{took:8.1f}  {place}{' (its answers)' if kind == 'Answers' else ''}")
    return status != 0


def main(words):
    least = 1.0
    if len(words) > 1 and words[0] == "--least" and re.fullmatch(r"[0-9]+(\.[0-9]+)?", words[1]):
        least, words = float(words[1]), words[2:]
    if not words or words[0].startswith("-"):
        print(__doc__)
        return 2
    top = os.path.dirname(os.path.dirname(os.path.abspath(__file__)))
    return 1 if sum([tell(top, name, least) for name in words]) else 0


sys.exit(main(sys.argv[1:]))
