#!/usr/bin/env bash
# How the time of the analysis grows with the size of control programs (benches/control.py), and how it stands beside
# another build of the analyser on the same texts.
#
#     benches/sizes.sh PROGRAM [OTHER]
#     benches/sizes.sh --large PROGRAM [OTHER]
#
# PROGRAM is the built analyser (./analyse --program), OTHER one to compare it with, as that of an earlier state. With
# --large the programs are larger than the limits of the commands allow, and PROGRAM is asked for its report on the
# large scale (`notes large report`); a row then also says how many times the time of `gcc -O0 -c` of the same text that
# is, which takes the words of the language by include/cedratcleat.h. Each time is the least of three runs, in processor
# seconds; where there are two programs, they run in turn. A row says lines and tasks, alarms, seconds and MB, and how
# many times the time of the first the second takes; at the end stands the power of the number of lines with which the
# time grows from the first row to the last. Only a report counts: where a run has none, or the two differ, the row says
# so, and the status is 1. GNU time has to be installed.
set -eu
words=(analyse)
sizes=('250 3' '500 4' '750 5' '1000 6' '1400 8')
runs='1 2 3'
large=no
if [ "${1-}" = --large ]; then
    words=(notes large report)
    sizes=('1000 6' '2500 10' '5000 15' '10000 20' '20000 30')
    runs=1
    large=yes
    shift
fi
[ $# -ge 1 ] && [ $# -le 2 ] || { sed -n 's/^#     /usage: /p' "$0"; exit 2; }

here=$(cd "$(dirname "$0")" && pwd)
programs=()
for it; do programs+=("$(readlink -f "$it")"); done
work=$(mktemp -d)
trap 'rm -rf "$work"' EXIT

# Runs a program once, and notes what it took.
run_once() { # NUMBER
    env time -o "$work/told" -f '%U %S %M' "${programs[$1]}" "${words[@]}" <"$work/input" >"$work/report.$1" 2>"$work/err" || true
    tail -n 1 "$work/told" >>"$work/times.$1"
}

# "seconds MB" of a program: the least of its runs.
least() { # NUMBER
    awk '{ s = $1 + $2; if (NR == 1 || s < least) { least = s; most = $3 } } END { printf "%.3f %.0f\n", least, most / 1024 }' \
        "$work/times.$1"
}

# How many alarms the report of a program has; nothing where it has none.
count_of() { # NUMBER
    tail -n 1 "$work/report.$1" | sed -nE 's/^alarms ([0-9]+)$/\1/p; s/.*"count":([0-9]+)\}$/\1/p'
}

# How many times the time of the compiler SECONDS are.
beside_compiler() { # SECONDS
    cp "$work/input" "$work/input.c"
    env time -o "$work/told" -f '%U %S' gcc -w -O0 -std=gnu99 -DCEDRATCLEAT_ANY_TARGET -include "$here/../include/cedratcleat.h" -c -o "$work/made.o" \
        "$work/input.c" 2>"$work/err" || { echo 'no object' && return; }
    awk -v own="$1" '{ printf "%.1f of gcc", own / ($1 + $2) }' "$work/told"
}

status=0
printf '%6s %5s %7s %9s %6s %7s\n' lines tasks alarms seconds MB times
for it in "${sizes[@]}"; do
    read -r lines tasks <<<"$it"
    "$here/control.py" "$lines" "$tasks" >"$work/input"
    rm -f "$work"/times.*
    for _ in $runs; do
        for number in "${!programs[@]}"; do run_once "$number"; done
    done
    alarms=$(count_of 0)
    [ -n "$alarms" ] || { echo "$lines: no report: $(tail -n 1 "$work/report.0")" && status=1 && continue; }
    read -r seconds most <<<"$(least 0)"
    times=
    if [ ${#programs[@]} -gt 1 ]; then
        cmp -s "$work/report.0" "$work/report.1" || { echo "$lines: the reports differ" && status=1 && continue; }
        times=$(least 1 | awk -v own="$seconds" '{ printf "%.1f", $1 / own }')
    fi
    [ $large = no ] || times="$times $(beside_compiler "$seconds")"
    lines=$(wc -l <"$work/input")
    printf '%6s %5s %7s %9s %6s %7s\n' "$lines" "$tasks" "$alarms" "$seconds" "$most" "$times"
    echo "$lines $seconds" >>"$work/grown"
done
[ ! -s "$work/grown" ] || awk 'NR == 1 { lines = $1; seconds = $2 } { last = $1; took = $2 }
    END { if (last > lines) printf "grows with the power %.1f of the lines\n", log(took / seconds) / log(last / lines) }' "$work/grown"
exit "$status"
