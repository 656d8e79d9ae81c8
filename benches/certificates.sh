#!/usr/bin/env bash
# What certificates cost: how long `certify` and `check` take beside `analyse`, with how much memory, and how large the
# text is, on the sources that the program generates and on files.
#
#     benches/certificates.sh PROGRAM [N|FILE..]
#
# PROGRAM is the built analyser (./analyse --program). Each time is the least of twelve runs, in processor seconds; the
# three commands run in turn, so that what else the machine does meets each alike. A row says the source, its bytes and
# those of its certificate, seconds and MB of the three commands, and how many times those of `analyse` the other two
# take. Only a report, a whole certificate and `certified` count: where a run has none, the row says so, and the status
# is 1. GNU time has to be installed.
set -eu
[ $# -ge 1 ] || { sed -n 's/^#     /usage: /p' "$0"; exit 2; }

program=$(readlink -f "$1")
shift
here=$(cd "$(dirname "$0")" && pwd)
[ $# -gt 0 ] || set -- 50 100 200 400 "$here"/../examples/{can_dispatch,calibration_table,filter_bank}.c
work=$(mktemp -d)
trap 'rm -rf "$work"' EXIT

# Runs a command of the program once, and notes what it took.
run_once() { # COMMAND INPUT
    local TIMEFORMAT='%3U %3S'
    { time "$program" "$1" <"$2" >"$work/$1" 2>"$work/err" || true; } 2>>"$work/$1.times"
}

# "seconds MB" of a command of the program: the least of its runs, and the memory of one more.
least() { # COMMAND INPUT
    env time -o "$work/told" -f 'MB %M' "$program" "$1" <"$2" >"$work/$1" 2>"$work/err" || true
    { cat "$work/$1.times" && tail -n 1 "$work/told"; } |
        awk '/^MB/ { most = $2; next } { s = $1 + $2; if (NR == 1 || s < least) least = s }
            END { printf "%.3f %.0f\n", least, most / 1024 }'
}

status=0
printf '%-20s %7s %9s %16s %24s %24s\n' source bytes text 'analyse s MB' 'certify s MB times' 'check s MB times'
for it; do
    name=${it##*/}
    if [[ $it =~ ^[0-9]+$ ]]; then
        name="generate $it"
        "$program" generate "$it" </dev/null >"$work/input"
    else
        cp -- "$it" "$work/input"
    fi
    rm -f "$work"/*.times
    for _ in 1 2 3 4 5 6 7 8 9 10 11 12; do
        run_once analyse "$work/input"
        run_once certify "$work/input"
        run_once check "$work/certify"
    done
    analyse=$(least analyse "$work/input")
    certify=$(least certify "$work/input")
    check=$(least check "$work/certify")
    bad=
    tail -n 1 "$work/analyse" | grep -qx 'alarms [0-9]*' || bad="no report: $(tail -n 1 "$work/analyse")"
    tail -n 1 "$work/certify" | grep -qx end || bad="no certificate: $(tail -n 1 "$work/certify")"
    { cat "$work/analyse" && echo certified; } | cmp -s - "$work/check" ||
        bad="not certified: $(tail -n 1 "$work/check")"
    [ -z "$bad" ] || { echo "$name: $bad" && status=1 && continue; }
    echo "$(wc -c <"$work/input") $(wc -c <"$work/certify") $analyse $certify $check" | awk -v name="$name" '
        function times(more, one) { return sprintf("%.1f", more / (one > 0 ? one : 0.001)) }
        { printf "%-20s %7s %9s %10s %5s %10s %5s %4s x%4s %9s %5s %4s x%4s\n", name, $1, $2, $3, $4,
            $5, $6, times($5, $3), times($6, $4), $7, $8, times($7, $3), times($8, $4) }'
done
exit "$status"
