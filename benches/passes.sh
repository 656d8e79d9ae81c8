#!/usr/bin/env bash
# How many passes 1, 2 and 4 workers make until all is quiet, counted in their histories: the median of nine runs, since
# with several workers the order differs from run to run; and how many versions the store has.
#
#     benches/passes.sh PROGRAM [FILE..]
#
# PROGRAM is the built analyser (./analyse --program). With no FILE it counts on three sources of eight tasks: tasks
# that move one counter on in turn, so that each step wants the next task; the same with the tasks in the other order;
# and tasks of equal size of which none reads what another writes.
set -eu

program=$(readlink -f "$1")
shift
work=$(mktemp -d)
trap 'rm -rf "$work"' EXIT

# Eight tasks with functions of their own. The body of each loop ends with a step on the shared counter.
tasks() { # STEP
    awk -v step="$1" 'BEGIN {
        printf "__mutex m;\nint counter;\n"
        for (t = 0; t < 8; t++) {
            printf "int s%d;\n", t
            for (i = 0; i < 10; i++) printf "int f%d_%d(int v){if(v>%d)return v-%d;return %d;}\n", t, i, i, i, i
            printf "__task(%d) void t%d(void){int b[16];int i;int a=0;int r;for(r=0;r<100;r++){for(i=0;i<16;i++){b[i]=a;}\n", t % 4 + 1, t
            for (i = 0; i < 10; i++) printf "a=f%d_%d(a);\n", t, i
            if (step == "none") printf "s%d=a;", t
            else {
                printf "__lock(m);switch(counter){"
                for (k = step == "up" ? t : 7 - t; k < 64; k += 8) printf "case %d:counter=%d;break;", k, k + 1
                printf "}__unlock(m);"
            }
            printf "}}\n"
        }
    }'
}

if [ $# = 0 ]; then
    tasks up > "$work/in_turn.c"
    tasks down > "$work/in_turn_backwards.c"
    tasks none > "$work/equal.c"
    set -- "$work"/*.c
fi
for file; do
    for workers in 1 2 4; do
        for run in 1 2 3 4 5 6 7 8 9; do
            "$program" analyse --history --workers "$workers" < "$file" | awk '
                $1 == "read" { passes++ }
                $1 == "publish" && $5 > versions { versions = $5 }
                END { print passes + 0, versions + 0 }'
        done | sort -n | sed -n 5p | awk -v name="$(basename "$file")" -v workers="$workers" \
            '{ printf "%-22s %2d workers: %4d passes, %3d versions\n", name, workers, $1, $2 }'
    done
done
