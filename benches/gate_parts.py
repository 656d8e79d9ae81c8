#!/usr/bin/env python3
"""Measures the parts of a run of `rt ci`, while it runs: the processor seconds of each proof, of each check with tests
and of the must-fail edits of each crate, and the most memory of one process.

    benches/gate_parts.py PID >ROWS     watches the `rt ci` of this process number until it ends
    benches/gate_parts.py PID ROWS      the same, and writes the file each minute, so that a run that is cut off has rows

So the run from nothing that a gate needs anyway gives the table of docs/GATE.md: `benches/gate.sh --of ROWS`
prints it. A row is `CRATE PART SECONDS MEGABYTES`, PART one of proof, tests and edits; the last row,
`rt own SECONDS 0`, is what `rt` took itself, for its sums and copies. What the run took as kept has no row. The
processes are read once a second, so that a row can lack about a second for each process that it sums."""
import collections
import os
import sys
import time

TICKS = os.sysconf("SC_CLK_TCK")


def numbers_of(pid):
    """The parent of a process, when it began, and its processor seconds, own and of children that have ended."""
    with open(f"/proc/{pid}/stat", encoding="utf-8", errors="replace") as it:
        row = it.read().rpartition(")")[2].split()
    own, ended = (sum(map(int, row[at : at + 2])) / TICKS for at in (11, 13))
    return int(row[1]), row[19], own, ended


def words_of(pid):
    with open(f"/proc/{pid}/cmdline", encoding="utf-8", errors="replace") as it:
        return it.read().split("\0")


def megabytes_of(pid):
    with open(f"/proc/{pid}/status", encoding="utf-8", errors="replace") as it:
        return next((int(row.split()[1]) // 1024 for row in it if row.startswith("VmHWM")), 0)


def part_of(pid):
    """The crate and the part that a process of the prover is for, if it is one."""
    words = words_of(pid)
    if os.path.basename(words[0]) != "rattle" or "--crate-name" not in words:
        return None
    name, at = words[words.index("--crate-name") + 1], os.readlink(f"/proc/{pid}/cwd")
    is_edit = os.path.basename(at).startswith("rt-edit-")
    return name, "edits" if is_edit else "tests" if "--test" in words else "proof"


class Watch:
    def __init__(self, top):
        self.top, self.parts, self.seconds, self.most, self.own = top, {}, {}, collections.Counter(), 0.0

    def look(self):
        """Reads all processes once, and returns whether the run goes on."""
        known, below = {}, collections.defaultdict(list)
        for name in os.listdir("/proc"):
            if name.isdigit():
                try:
                    known[int(name)] = numbers_of(name)
                    below[known[int(name)][0]].append(int(name))
                except (OSError, IndexError):
                    # (it has ended meanwhile)
                    pass
        if self.top not in known:
            return False
        self.own = known[self.top][2]
        for pid in below[self.top]:
            self.look_at(pid, known, below)
        return True

    def look_at(self, pid, known, below):
        """Notes what a process of the run and those that it started have taken so far."""
        key, all_of, at = (pid, known[pid][1]), [pid], 0
        while at < len(all_of):
            all_of += below[all_of[at]]
            at += 1
        try:
            # (a process that has just begun may not have become the prover yet)
            if not self.parts.get(key):
                self.parts[key] = part_of(pid)
            if self.parts[key]:
                memory = max(map(megabytes_of, all_of))
                self.most[self.parts[key]] = max(self.most[self.parts[key]], memory)
        except (OSError, ValueError):
            pass
        self.seconds[key] = sum(known[it][2] + known[it][3] for it in all_of)

    def rows(self):
        sums = collections.Counter()
        for key, part in self.parts.items():
            if part:
                sums[part] += self.seconds[key]
        rows = [f"{name} {part} {sums[name, part]:.0f} {self.most[name, part]}" for name, part in sorted(sums)]
        return "\n".join([*rows, f"rt own {self.own:.0f} 0"])

    def write(self, path):
        """Writes the rows so far, whole or not at all."""
        with open(f"{path}.new", "w", encoding="utf-8") as it:
            print(self.rows(), file=it)
        os.replace(f"{path}.new", path)


def main():
    if len(sys.argv) not in (2, 3) or not sys.argv[1].isdigit():
        print(__doc__)
        return 2
    watch, path, looks = Watch(int(sys.argv[1])), sys.argv[2] if len(sys.argv) == 3 else None, 0
    while watch.look():
        if path and looks % 60 == 59:
            watch.write(path)
        looks += 1
        time.sleep(1)
    if path:
        watch.write(path)
    else:
        print(watch.rows())
    return 0


if __name__ == "__main__":
    sys.exit(main())
