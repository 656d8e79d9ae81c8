#!/usr/bin/env bash
# What `waits` and `ranges` cost beside `analyse`, and what they take on hostile sources: benches/findings.sh PROGRAM. It
# needs python3. PROGRAM is what `./analyse --program` names.
#
# A row has the user's and the system's processor seconds of the three commands, each the least of three runs, and how
# much more than `analyse` the other two take. Each answer is looked at: a refusal is no answer.
set -eu
program=$(readlink -f -- "$1")
here=$(cd "$(dirname "$0")" && pwd)
top=${here%/*}
work=$(mktemp -d)
trap 'rm -rf -- "$work"' EXIT

# 32 tasks that each lock 16 mutexes one in the other, every task beginning with another one; the same in one order; as many
# static cells as may be; one object of as many.
python3 - "$work" <<'END'
import sys
room = sys.argv[1]


def write(name, lines):
    with open(f"{room}/{name}.c", "w", encoding="ascii") as it:
        it.write("\n".join(lines) + "\n")


def nested(order):
    return " ".join(f"__lock(m{it});" for it in order) + " " + " ".join(f"__unlock(m{it});" for it in reversed(order))


mutexes = [f"__mutex m{it};" for it in range(16)]
write("orders", mutexes + [
    f"__task({task % 8 + 1}) void t{task}(void) {{ {nested([(task + it) % 16 for it in range(16)])} }}" for task in range(32)])
write("one_order", mutexes + [f"__task({task % 8 + 1}) void t{task}(void) {{ {nested(range(16))} }}" for task in range(32)])
write("cells", [f"int x{it};" for it in range(4096)] + [
    "__task(1) void t(void) { " + " ".join(f"x{it} = x{it + 1} + 1;" for it in range(250)) + " }"])
write("one_object", ["int a[4096];", "__task(1) void t(void) { int i; for (i = 0; i < 4096; i++) a[i] = i; }"])
END
"$program" generate 400 >"$work/generated.c"
cp -- "$top"/examples/can_dispatch.c "$top"/examples/filter_bank.c "$work"

python3 - "$program" "$work" <<'END'
import os
import resource
import subprocess
import sys

program, room = sys.argv[1:]
LAST = {"analyse": b"alarms ", "waits": b"waits ", "ranges": b"dead "}


def run(command, source):
    """The last line of the answer, and the least processor seconds of three runs."""
    times = []
    for _ in range(3):
        before = resource.getrusage(resource.RUSAGE_CHILDREN)
        with open(source, "rb") as it:
            done = subprocess.run([program, command], stdin=it, capture_output=True, check=False)
        after = resource.getrusage(resource.RUSAGE_CHILDREN)
        times.append(after.ru_utime + after.ru_stime - before.ru_utime - before.ru_stime)
    last = done.stdout.rstrip(b"\n").split(b"\n")[-1]
    if done.returncode > 1 or not last.startswith(LAST[command]):
        sys.exit(f"{source}: {command} gives status {done.returncode} and {last!r}")
    return last.decode(), min(times)


print("| source | `analyse` | `waits` | `ranges` | more than `analyse` |")
print("|---|---|---|---|---|")
for name in sorted(os.listdir(room)):
    rows = {command: run(command, f"{room}/{name}") for command in LAST}
    base = rows["analyse"][1]
    more = ", ".join(f"{(rows[it][1] - base) / base:+.0%}" if base >= 0.01 else "" for it in ("waits", "ranges"))
    told = " | ".join(f"{seconds:.3f} s, {last}" for last, seconds in rows.values())
    print(f"| `{name}` | {told} | {more} |")
END
