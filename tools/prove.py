#!/usr/bin/env python3
"""Proves crates side by side, and keeps what is proved, so that a crate is proved again only where its text or that of
a crate below it has changed.

    tools/prove.py [--tests] [--edits] [--jobs N] [NAME..]  proves the crates and all below them (no NAME: every crate)
    tools/prove.py --measure ..                             as without it, and proves anew what was never measured
    tools/prove.py --check NAME [rattle's flags]            as `rt check` in crates/NAME, over libraries that are kept
    tools/prove.py --edit NAME EDIT..                       tries edits of a crate, which the prover must refuse
    tools/prove.py --lacks [NAME..]                         lists what is not kept, and proves nothing
    tools/prove.py --kept NAME..                            writes where what is kept of the crates stands, a line each
    tools/prove.py --table [NAME..]                         processor seconds and memory of each kept part, as a table

--tests proves and runs the tests too, --edits tries the must-fail edits too: together they are what `rt ci` does, part
by part. A part is started when all below it is proved, those with the longest chain behind them first, as many at once
as there are processors and memory. A line tells each part that has ended, and about how long the rest will take, by
what the parts took when they last passed. When the run is interrupted, the next one goes on where it stopped.

What is proved is kept below $CEDRATCLEAT_KEPT, or else ~/.cache/cedratcleat, by the sum of the texts (kept_crates.py).
Where the kit keeps what `rt ci` proved on this machine, a library or program of the same text is taken from there, and
a crate is proved here only where neither has it; so --check and the others serve beside `rt ci NAME..`, whichever of
the two proved what is below. --measure takes nothing of the kit's, whose parts have no numbers. What prove.py proves
counts for nothing in `rt ci`, which alone is the verdict.

It calls functions of the kit's own `rt`, so a newer kit may ask for changes here."""
import contextlib
import fcntl
import glob
import heapq
import os
import shutil
import signal
import subprocess
import sys
import tempfile
import threading
import time
from concurrent.futures import FIRST_COMPLETED, ThreadPoolExecutor, wait

sys.dont_write_bytecode = True
from kept_crates import KitStore, crate_named, marks_of_any_text, numbers_of, read_crates, rt, rtlib

# A check of one crate gains little from more processors.
MOST_JOBS = 4
# What a check takes before its first line, and for each line of code, in processor seconds and bytes, where the crate
# was never measured.
FIRST_SECONDS = {"proof": 16, "tests": 40, "edits": 60}
LINE_SECONDS = {"proof": 0.14, "tests": 0.2, "edits": 0.14}
FIRST_MEMORY, LINE_MEMORY = 1_300_000_000, 1_000_000
# What a check has soon after it began: so much of its memory is no longer free then.
BEGUN_MEMORY = 500_000_000


# ----- One part of a crate, in a process of its own -----


def is_refused_unproved(crate, crates):
    """Whether the text of the crate is refused before any proof."""
    rtlib.stop_on_links(crate.folder)
    rtlib.stop_on_unread(crate.folder, crates)
    rtlib.stop_on_text(crate, "verdict")
    rt.stop_on_words(crate)
    return rtlib.fmt(crate.folder, "--check", crate.out)


def keep_program(crate, room):
    """Runs the program as each compiler built it, and keeps it."""
    for ending in rt.BACKENDS.values():
        built = f"{crate.folder}/out/{crate.name}{ending}"
        if os.path.isfile(built):
            if not rt.run(crate, False, ending):
                return False
            shutil.copyfile(built, f"{room}/{crate.name}{ending}")
            os.chmod(f"{room}/{crate.name}{ending}", 0o755)
            os.replace(f"{room}/{crate.name}{ending}", f"{crate.kept}/{crate.name}{ending}")
    return True


def keep_library(crate, room):
    crate.keep_library(f"{room}/{crate.name}.rlib")
    return True


def is_proved(crate, crates):
    """Proves a crate from nothing, and keeps its library or its program."""
    if is_refused_unproved(crate, crates):
        return False
    room = tempfile.mkdtemp(prefix="making-", dir=crate.kept)
    crate.made_at = f"{room}/{crate.name}.rlib"
    status = crate.ci(["--jobs", str(crate.jobs)], False)
    crate.made_at = None
    return not status and (keep_program if crate.is_program else keep_library)(crate, room)


def have_passed(crate):
    """Proves the tests of a crate from nothing, and runs them."""
    return not crate.ci(["--jobs", str(crate.jobs)], True) and rt.run(crate, True)


def try_edit(crate, edit, seed):
    """What the crate with the edit comes to, and what is said: over what was proved of it as it stands, or else, where
    that does not settle it, from nothing."""
    flags = ["--jobs", "1"]
    if seed:
        with tempfile.TemporaryDirectory(prefix=f"rt-edits-{os.getpid()}-") as room:
            rt.linked(f"{seed}/seed", f"{room}/seed")
            tried = rt.must_fail(crate, edit, flags, f"{room}/seed")
        if tried[0] in rt.SETTLED:
            return tried
    return rt.must_fail(crate, edit, flags)


def are_refused(crate, edits):
    with rt.ending():
        seed = rt.seeded(crate, ["--jobs", str(crate.jobs)]) if len(edits) > 1 else None
        passed = True
        for it in edits:
            kind, said = try_edit(crate, it, seed)
            print(said, file=crate.out, flush=True)
            passed = passed and kind in (rt.REFUSED, rt.AT_LIMIT)
    return passed


def end_with_parent():
    """Ends this process, and with it the prover that it started, when its parent ends, which holds a pipe to it."""
    while os.read(0, 1):
        pass
    os._exit(1)


def do_part(root, name, part, jobs):
    threading.Thread(target=end_with_parent, daemon=True).start()
    crates = read_crates(root)
    crate = next(it for it in crates if it.name == name)
    crate.out, crate.jobs = sys.stdout, jobs
    os.makedirs(f"{crate.folder}/out", exist_ok=True)
    try:
        if part == "edits":
            good, bad = rt.edits_of(crate)
            well = not bad and are_refused(crate, good)
        else:
            well = have_passed(crate) if part == "tests" else is_proved(crate, crates)
    except SystemExit as stopped:
        print(stopped, file=crate.out)
        well = False
    return 0 if well else 1


# ----- What parts take -----


class Costs:
    """What a part is likely to take, by its marks over any text, or else by its lines."""

    def __init__(self, crate_of):
        self.crate_of, self.seconds, self.memory = crate_of, {}, {}

    def seconds_of(self, key):
        """Processor seconds."""
        if key not in self.seconds:
            known = marks_of_any_text(*key)
            by_lines = FIRST_SECONDS[key[1]] + LINE_SECONDS[key[1]] * self.crate_of[key[0]].count(rb"\n")
            self.seconds[key] = known[0][0] if known else by_lines
        return self.seconds[key]

    def memory_of(self, key):
        """The most bytes at one time."""
        if key not in self.memory:
            # (some kernels answer more than the machine has, where a process shares its memory with others)
            most_of_all = 1024 * rtlib.number_in("/proc/meminfo", r"MemTotal:\s+(\d+)")
            known = [it for _, _, it in marks_of_any_text(key[0], "proof") if it <= most_of_all]
            by_lines = FIRST_MEMORY + LINE_MEMORY * self.crate_of[key[0]].count(rb"\n")
            self.memory[key] = max(known) if known else by_lines
        return self.memory[key]


# ----- All parts, side by side -----


class Running:
    def __init__(self, key, jobs, memory):
        self.key, self.jobs, self.memory, self.began = key, jobs, memory, time.time()


class Run:
    def __init__(self, root, names, parts, lanes):
        self.root, self.lanes, self.began = root, lanes, time.time()
        self.crates = read_crates(root)
        self.crate_of = {it.name: it for it in self.crates}
        self.waits = self.parts_of(names, parts)
        self.is_measuring = "measure" in parts
        if not self.is_measuring:
            KitStore().give([self.crate_of[name] for name, part in self.waits if part == "proof"])
        self.given = {key: True for key in self.waits if self.has(*key)}
        self.costs = Costs(self.crate_of)
        self.running, self.pids = {}, set()
        # Seconds that the parts which ended took by the clock, and those that were expected of them.
        self.took = self.expected = 0

    def has(self, name, part):
        crate = self.crate_of[name]
        return crate.is_kept(part) and not (self.is_measuring and numbers_of(crate.mark(part)) is None)

    def parts_of(self, names, parts):
        """The parts that are asked for, and the proofs below them, each with those that it waits for."""
        tops = [it for it in self.crates if it.name in names]
        lower = {it.name for top in tops for it in [*top.below(), top]}
        waits = {}
        for it in self.crates:
            if names and it.name not in lower:
                continue
            below = [(low.name, "proof") for low in it.below()]
            waits[it.name, "proof"] = below
            is_asked = not names or it.name in names
            if "tests" in parts and is_asked and it.has_tests():
                waits[it.name, "tests"] = below
            if "edits" in parts and is_asked and rt.edits_of(it)[0]:
                waits[it.name, "edits"] = [*below, (it.name, "proof")]
        return waits

    def lacking(self):
        """The parts that are not kept, those with the longest chain behind them first."""
        behind = {it: 0 for it in self.waits}
        for key in reversed([*self.waits]):
            behind[key] += self.costs.seconds_of(key)
            for it in self.waits[key]:
                behind[it] = max(behind[it], behind[key])
        return sorted((it for it in self.waits if it not in self.given), key=lambda it: -behind[it])

    def start_ready(self, pool):
        """Starts what is ready, as many parts as processors and memory bear, and at least one."""
        ready = [it for it in self.left if all(self.given.get(low) for low in self.waits[it])]
        for at, key in enumerate(ready):
            idle = self.lanes - sum(it.jobs for it in self.running.values())
            needs = self.costs.memory_of(key)
            # What runs has come about half the way, on an average, to the most that it will have.
            growth = sum(max(0, it.memory - BEGUN_MEMORY) for it in self.running.values()) // 2
            if idle > 0 and (not self.running or needs + growth < rt.free()):
                self.left.remove(key)
                jobs = 1 if key[1] == "edits" else max(1, min(MOST_JOBS, idle // (len(ready) - at)))
                self.running[pool.submit(self.one, key, jobs)] = Running(key, jobs, needs)

    def one(self, key, jobs):
        """Does a part in a process of its own, marks it if it passed, and returns this and its processor time."""
        name, part = key
        crate, began = self.crate_of[name], time.time()
        os.makedirs(crate.kept, exist_ok=True)
        with open(f"{crate.kept}/lock", "w", encoding="utf-8") as lock:
            fcntl.flock(lock, fcntl.LOCK_EX)
            if self.has(name, part):
                return True, 0
            with open(f"{crate.kept}/{part}.log", "w", encoding="utf-8") as log:
                words = [sys.executable, os.path.realpath(__file__), "--part", *key, str(jobs)]
                status, used = self.wait_for(words, log)
            seconds = used.ru_utime + used.ru_stime
            for it in glob.glob(f"{crate.kept}/making-*"):
                shutil.rmtree(it, ignore_errors=True)
            if status == 0:
                with open(f"{crate.kept}/mark.new", "w", encoding="utf-8") as it:
                    it.write(f"{seconds:.0f} {time.time() - began:.0f} {1024 * used.ru_maxrss}")
                os.replace(f"{crate.kept}/mark.new", crate.mark(part))
        return status == 0, seconds

    def wait_for(self, words, log):
        """Runs a command that ends when this process does, and returns its status and what it used."""
        how = {"cwd": self.root, "stdin": subprocess.PIPE, "stdout": log, "stderr": subprocess.STDOUT}
        child = subprocess.Popen(words, start_new_session=True, **how)
        self.pids.add(child.pid)
        _, status, used = os.wait4(child.pid, 0)
        self.pids.discard(child.pid)
        child.returncode = os.waitstatus_to_exitcode(status)
        child.stdin.close()
        return child.returncode, used

    def end(self, part, passed, seconds):
        """Notes and tells that a part has ended, how many of how many, minutes so far and what is likely to be left."""
        name, what = part.key
        clock, now = time.time() - part.began, (time.time() - self.began) / 60
        self.given[part.key] = passed
        self.count += 1
        if passed and seconds:
            self.took, self.expected = self.took + clock, self.expected + self.costs.seconds_of(part.key)
        log = f"{self.crate_of[name].kept}/{what}.log"
        how = f"FAILED: read {log}" if not passed else "proved" if what == "proof" else "passed"
        of = f"{self.count} of {self.all}, {now:.0f} minutes so far, about {self.minutes_left():.0f} left"
        what = "" if what == "proof" else f" {what}"
        print(f"{name}{what}: {how} ({seconds:.0f} processor seconds, {clock:.0f} s; {of})", flush=True)

    def minutes_left(self):
        """How long the rest is likely to take: its parts are put on processors as they will be, at the pace so far."""
        # (the first parts are short, and say little of the pace)
        pace, now = (self.took + 300) / (self.expected + 300), time.time()
        rest = lambda it: max(5.0, pace * self.costs.seconds_of(it.key) - (now - it.began))
        ends = [(rest(it), it.key) for it in self.running.values()]
        heapq.heapify(ends)
        left, done, clock = [*self.left], {it for it, passed in self.given.items() if passed}, 0.0
        while ends or left:
            for key in [it for it in left if done.issuperset(self.waits[it])][: self.lanes - len(ends)]:
                left.remove(key)
                heapq.heappush(ends, (clock + pace * self.costs.seconds_of(key), key))
            if not ends:
                break
            clock, key = heapq.heappop(ends)
            done.add(key)
        return clock / 60

    def drop_lost(self):
        """Gives up the parts that wait for one that failed."""
        for it in [it for it in self.left if any(self.given.get(low) is False for low in self.waits[it])]:
            self.left.remove(it)
            self.given[it] = False

    def go(self):
        """Does all parts that are lacking, and returns whether one failed."""
        self.left = self.lacking()
        self.all, self.count = len(self.left), 0
        for it in (signal.SIGTERM, signal.SIGHUP):
            signal.signal(it, signal.default_int_handler)
        with ThreadPoolExecutor(self.lanes) as pool:
            try:
                while self.left or self.running:
                    self.drop_lost()
                    self.start_ready(pool)
                    for it in wait(self.running, timeout=20, return_when=FIRST_COMPLETED).done:
                        self.end(self.running.pop(it), *it.result())
            except KeyboardInterrupt:
                self.stop()
        failed = [f"{name} {part}" for (name, part), passed in self.given.items() if not passed]
        for it in failed:
            print(f"FAILED: {it}")
        print(f"{len(self.given) - len(failed)} parts passed, {len(failed)} failed")
        return bool(failed)

    def stop(self):
        """Ends what runs, so that nothing is left half made, and this process."""
        for it in [*self.pids]:
            with contextlib.suppress(ProcessLookupError):
                os.kill(it, signal.SIGKILL)
        wait([*self.running], timeout=10)
        print(f"stopped: {self.count} of {self.all} parts are kept, and the next run goes on from there", flush=True)
        os._exit(130)


# ----- Words -----


def check(root, name, flags):
    """`rt check` of a crate over kept libraries; those that are lacking are proved first."""
    crate = crate_named(root, name)
    below = {it.name for it in crate.below()}
    if below and Run(root, below, (), 2).go():
        return 1
    crate.made_at = f"{crate.folder}/out/{name}.rlib"
    crate.out = sys.stdout
    if not any(it.startswith("--jobs") for it in flags):
        flags = [*flags, "--jobs", "1"]
    return crate.call(rtlib.RATTLE, "check", *crate.words(flags), "--incremental", "out/incremental", "--progress")


def try_edits(root, name, edits):
    crate = crate_named(root, name)
    KitStore().give(crate.below())
    crate.out, crate.jobs = sys.stdout, 1
    return 0 if are_refused(crate, [os.path.realpath(it) for it in edits]) else 1


def where(root, names):
    crates = {it.name: it for it in read_crates(root)}
    KitStore().give(crates.values(), names)
    found = [crates[it].made for it in names if it in crates and crates[it].is_kept("proof")]
    print("\n".join(found))
    return 0 if len(found) == len(names) else 1


def lines_of_code(crate):
    """Lines of the files below src/, as `benches/gate.sh` counts them."""
    files = [f"{at}/{it}" for at, _, files in os.walk(f"{crate.folder}/src") for it in files]
    return sum(rtlib.text_of(it).count("\n") for it in files)


def table(root, names):
    total = 0
    for crate in read_crates(root):
        if names and crate.name not in names:
            continue
        row = [numbers_of(crate.mark(part)) for part in ("proof", "tests", "edits")]
        total += sum(it[0] for it in row if it)
        cells = " | ".join(str(it[0]) if it else "" for it in row)
        print(f"| `{crate.name}` | {lines_of_code(crate)} | {cells} | {f'{row[0][2] / 1e9:.1f}' if row[0] else ''} |")
    print(f"in all {total} processor seconds")
    return 0


def prove(root, words):
    lanes = rt.processors()
    if "--jobs" in words:
        at = words.index("--jobs")
        lanes, words = int(words[at + 1]), words[:at] + words[at + 2 :]
    names = {it for it in words if not it.startswith("-")}
    flags = {it.removeprefix("--") for it in words} - names
    if flags - {"tests", "edits", "lacks", "measure"}:
        print(__doc__)
        return 2
    run = Run(root, names, flags, lanes)
    unknown = names - {*run.crate_of}
    if unknown:
        sys.exit(f"no crate is named {', '.join(sorted(unknown))}")
    if "lacks" in flags:
        print(*(name for name, part in run.waits if part == "proof" and (name, part) not in run.given))
        return 0
    return run.go()


def main():
    words, root = sys.argv[1:], os.getcwd()
    if not os.path.isfile(f"{root}/crates.txt") or "--help" in words:
        print(__doc__)
        return 2
    if words[:1] == ["--part"]:
        return do_part(root, words[1], words[2], int(words[3]))
    if words[:1] == ["--check"] and len(words) > 1:
        return check(root, words[1], words[2:])
    if words[:1] == ["--edit"] and len(words) > 2:
        return try_edits(root, words[1], words[2:])
    if words[:1] == ["--kept"] and len(words) > 1:
        return where(root, words[1:])
    if words[:1] == ["--table"]:
        return table(root, set(words[1:]))
    return prove(root, words)


if __name__ == "__main__":
    sys.exit(main())
