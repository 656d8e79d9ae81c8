#!/usr/bin/env bash
# How long the program takes beside Frama-C's Eva on the sources that it generates itself, and how much memory: N functions
# with two constants each and four tasks, which call them and share a table under a mutex, for N = 10 to 400.
# Eva has no tasks: it is given the same functions, and the bodies of the tasks' loops as functions that a main calls
# for ever in any order, each with the task's variable kept between two calls.
#
#     benches/generated.sh PROGRAM [N..]
#
# PROGRAM is the built analyser (./analyse --program). Each time is the least of three runs, in processor seconds, each
# run bound to one processor; a run below 0.3 seconds is made ten times in a row and divided. A row says N, bytes of the source, seconds
# and MB of both, and the two ratios (only a report counts: where a run has none, the row says so, and the status is 1);
# then how the time grows from the least to the greatest N, and with 1 and with 4
# workers on eight tasks (seconds by the clock). Frama-C and GNU time have to be installed.
set -eu
[ $# -ge 1 ] || { sed -n 's/^#     /usage: /p' "$0"; exit 2; }
command -v frama-c > /dev/null || { echo 'frama-c is not on the PATH' >&2; exit 2; }

program=$(readlink -f "$1")
shift
sizes=${*:-10 50 100 200 400}
work=$(mktemp -d)
trap 'rm -rf "$work"' EXIT
cd "$work"

# The source in `input` for an analyser without tasks, on standard output.
alone() {
    echo '/*@ requires low <= high; assigns \result \from low, high; ensures low <= \result <= high; */'
    echo 'extern int Frama_C_interval(int low, int high);'
    sed -E -e '/^__mutex/d' -e 's/__(un)?lock\(m\);//g; s/__yield\(\);//' \
        -e 's/^__task\(1\) void t([0-9])\(void\)\{int z;z=[0-9];while\(1\)\{(.*)\}\}$/static int z\1=\1; void t\1(void){int z=z\1;\2z\1=z;}/' input
    echo 'int main(void) { while (1) switch (Frama_C_interval(0, 3)) {'
    echo 'case 0: t0(); break; case 1: t1(); break; case 2: t2(); break; default: t3(); } return 0; }'
}

# "seconds MB" of COUNT runs of the command, one after another.
runs() { # COUNT COMMAND..
    local count=$1
    shift
    printf 'for i in $(seq %s); do %s; done\n' "$count" "$*" > many.sh
    taskset -c 0 env time -o told -f '%U %S %M' bash many.sh > out 2> err < /dev/null || true
    tail -n 1 told | awk -v count="$count" '{ printf "%.4f %.0f\n", ($1 + $2) / count, $3 / 1024 }'
}

# The least of three such.
least() { # COMMAND..
    local count=1
    [ "$(runs 1 "$@" | awk '{ print ($1 < 0.3) }')" = 0 ] || count=10
    for run in 1 2 3; do runs "$count" "$@"; done | sort -n | head -n 1
}

status=0
printf '%5s %8s %9s %7s %9s %7s %7s %7s\n' N bytes eva_s eva_MB own_s own_MB time memory
for n in $sizes; do
    "$program" generate "$n" < /dev/null > input
    alone > alone.c
    eva=$(least frama-c -machdep gcc_x86_32 -warn-invalid-pointer -eva -eva-no-print alone.c)
    grep -q 'ANALYSIS SUMMARY\|eva:summary' out || { echo "$n: Eva gave no report: $(tail -n 1 err)" && status=1 && continue; }
    own=$(least "$program" analyse '<' input)
    tail -n 1 out | grep -qx 'alarms [0-9]*' || { echo "$n: no report: $(tail -n 1 out)" && status=1 && continue; }
    echo "$n $(wc -c < input) $eva $own" | tee -a rows | awk '{
        printf "%5s %8s %9s %7s %9s %7s %7.1f %7.1f\n", $1, $2, $3, $4, $5, $6, $3 / ($5 > 0 ? $5 : 0.001), $4 / $6 }'
done
awk 'NR == 1 { n = $1; s = $5 } { m = $1; t = $5 }
    END { if (m > n && s > 0) printf "from %s to %s it grows as N^%.2f\n", n, m, log(t / s) / log(m / n) }' rows

# Eight tasks of equal size, each with its own functions, and each of which writes one cell that the others do not read.
awk 'BEGIN {
    for (t = 0; t < 8; t++) {
        printf "int s%d;\n", t
        for (i = 0; i < 100; i++) printf "int f%d_%d(int v){if(v>%d)return v-%d;return %d;}\n", t, i, i, i, i
        printf "__task(%d) void t%d(void){int b[16];int i;int a=0;int r;for(r=0;r<100;r++){for(i=0;i<16;i++){b[i]=a;}\n", t % 4 + 1, t
        for (i = 0; i < 100; i++) printf "a=f%d_%d(a);\n", t, i
        printf "s%d=a;}}\n", t
    }
}' > input
for workers in 1 4; do
    for run in 1 2 3; do
        env time -o told -f '%e' "$program" analyse --workers "$workers" < input > out 2> err || true
        grep -qx 'alarms [0-9]*' out || echo 'no report' >&2
        tail -n 1 told
    done | sort -n | head -n 1 | awk -v workers="$workers" '{ printf "eight tasks, workers %s: %s seconds\n", workers, $1 }'
done
exit "$status"
