#!/usr/bin/env bash
# How long the program takes beside Frama-C's Eva on a series of growing programs, and how much memory: N functions of
# control code (a limited integrator, a table that is searched, a counter under a mutex) which two tasks call, for
# N = 10 to 400. Eva has no tasks of static priorities: it is given the same text with the words of the language defined away
# and a main that calls the tasks one after the other.
#
#     benches/eva.sh PROGRAM [N..]
#     benches/eva.sh --control PROGRAM [LINES:TASKS..]
#
# PROGRAM is the built analyser (./analyse --program), which reads a source from its standard input. Each time is the
# least of three runs, in processor seconds, each run bound to one processor; a row says N, bytes of the source, seconds
# and MB of both, and the two ratios. Only a report counts: where a run has none, since it refuses the source or fails,
# the row says so, and the status is 1. Frama-C and GNU time have to be installed.
#
# With --control the programs are those of benches/control.py, and PROGRAM is asked for its report on the large scale
# (`notes large report`). Their tasks never end, so the main of Eva's text calls each where a number that may be 0 or 1
# is 1. Each program is run once then, and a row says lines in place of N.
set -eu
control=no
[ "${1-}" != --control ] || { control=yes && shift; }
[ $# -ge 1 ] || { sed -n 's/^#     /usage: /p' "$0"; exit 2; }
command -v frama-c > /dev/null || { echo 'frama-c is not on the PATH' >&2; exit 2; }

program=$(readlink -f "$1")
shift
here=$(cd "$(dirname "${BASH_SOURCE[0]}")" && pwd)
sizes=${*:-10 50 100 200 400}
runs='1 2 3'
asked=(analyse)
if [ $control = yes ]; then
    sizes=${*:-1000:6 2500:10 5000:15 10000:20}
    runs=1
    asked=(notes large report)
fi
work=$(mktemp -d)
trap 'rm -rf "$work"' EXIT
cd "$work"

cat > words.h <<'C'
#define __mutex static int
#define __task(priority)
#define __lock(mutex) ((void)0)
#define __unlock(mutex) ((void)0)
#define __yield() ((void)0)
int Frama_C_interval(int low, int high);
#define __input(low, high) Frama_C_interval(low, high)
C

# The program of N functions, on standard output.
text_of() { # N
    awk -v count="$1" 'BEGIN {
        print "__mutex busy;\nstatic int calls, level;\n"
        for (i = 0; i < count; i++) {
            printf "static int sum_%d, table_%d[4] = { %d, %d, %d, %d };\n", i, i, i + 1, i + 3, i + 7, i + 9
            printf "static int step_%d(int wanted)\n{\n    int k, error = wanted - sum_%d / 4;\n\n", i, i
            printf "    if (error > 100)\n        error = 100;\n    if (error < -100)\n        error = -100;\n"
            printf "    sum_%d = (sum_%d * 3 + error) / 4;\n", i, i
            printf "    for (k = 0; k < 4; k++)\n        if (table_%d[k] > error)\n            break;\n", i
            printf "    __lock(busy);\n    if (calls < 1000)\n        calls++;\n    __unlock(busy);\n"
            printf "    return k < 4 ? table_%d[k] : 0;\n}\n\n", i
        }
        print "__task(2) void fast(void)\n{\n    int wanted = __input(-500, 500);\n"
        for (i = 0; i < count; i += 2) printf "    level = step_%d(wanted);\n", i
        print "}\n\n__task(1) void slow(void)\n{"
        for (i = 1; i < count; i += 2) printf "    step_%d(level);\n", i
        print "}"
    }'
}

# Writes the source, and the text of Eva.
write_texts() { # SIZE
    if [ $control = no ]; then
        text_of "$1" > input
        { cat words.h input; echo 'int main(void) { fast(); slow(); return 0; }'; } > alone.c
        return
    fi
    "$here/control.py" "${1%:*}" "${1#*:}" > input
    {
        cat words.h input
        echo 'int main(void)'
        echo '{'
        seq -f '    if (Frama_C_interval(0, 1)) task_%g();' 0 $((${1#*:} - 1))
        echo '    return 0;'
        echo '}'
    } > alone.c
}

# Whether the answer is a report.
is_report() {
    tail -n 1 out | grep -qE '^alarms [0-9]+$|"count":[0-9]+\}$'
}

# "seconds MB" of the least of the runs of the command.
least() { # COMMAND..
    local run
    for run in $runs; do
        taskset -c 0 env time -o told -f '%U %S %M' "$@" > out 2> err < input || true
        tail -n 1 told
    done | awk '{ s = $1 + $2; if (NR == 1 || s < least) least = s; if ($3 > most) most = $3 }
        END { printf "%.3f %.0f\n", least, most / 1024 }'
}

status=0
printf '%5s %8s %9s %7s %9s %7s %7s %7s\n' N bytes eva_s eva_MB own_s own_MB time memory
for n in $sizes; do
    write_texts "$n"
    eva=$(least frama-c -machdep gcc_x86_32 -eva -eva-no-print alone.c)
    grep -q 'ANALYSIS SUMMARY\|eva:summary' out || { echo "$n: Eva gave no report: $(tail -n 1 err)" && status=1 && continue; }
    own=$(least "$program" "${asked[@]}")
    is_report || { echo "$n: no report: $(tail -n 1 out)" && status=1 && continue; }
    [ $control = no ] || n=$(wc -l < input)
    echo "$n $(wc -c < input) $eva $own" | awk '{
        printf "%5s %8s %9s %7s %9s %7s %7.1f %7.1f\n", $1, $2, $3, $4, $5, $6, $3 / ($5 > 0 ? $5 : 0.001), $4 / $6 }'
done
exit "$status"
