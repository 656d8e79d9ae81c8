#!/usr/bin/env bash
# Writes anew what stands beside each example of its circular waits and its ranges, examples/NAME.waits and
# examples/NAME.ranges, why its alarms stand, examples/NAME.why, and its certificate, examples/NAME.certificate, where that has at most 300,000 bytes, by the
# program that ./analyse --program names; and of each project of several units its lines, waits, rings, races and ranges,
# examples/NAME/NAME.report, examples/NAME/NAME.waits and so on, by ./analyse: benches/answers.sh [--unproved].
#
# benches/view.sh compares all but the certificates, and benches/certified.sh checks these: look at what has changed
# before it is committed.
set -eu
here=$(cd "$(dirname "$0")" && pwd)
top=${here%/*}
program=$("$top/analyse" "$@" --program)
work=$(mktemp -d)
trap 'rm -rf -- "$work"' EXIT

for source in "$top"/examples/*.c; do
    for command in waits ranges certify; do
        status=0
        "$program" "$command" <"$source" >"$work/answer" || status=$?
        if [ "$status" -gt 1 ]; then
            echo "$command of ${source##*/}: status $status" >&2
            exit 1
        fi
        told=$(tail -n 1 "$work/answer")
        beside=${source%.c}.$command
        if [ "$command" = certify ]; then
            told="a certificate of $(wc -c <"$work/answer") bytes"
            beside=${source%.c}.certificate
            [ "$(wc -c <"$work/answer")" -le 300000 ] || { rm -f -- "$beside" && beside=/dev/null; }
        fi
        cat -- "$work/answer" >"$beside"
        echo "${source##*/}: $told"
    done
    status=0
    (cd "$top/examples" && "$top/analyse" "$@" --why --preprocessed "${source##*/}") >"$work/answer" || status=$?
    [ "$status" -le 1 ] || { echo "why of ${source##*/}: status $status" >&2 && exit 1; }
    cat -- "$work/answer" >"${source%.c}.why"
done

# Writes what ./analyse answers with these words in the folder of a project.
write() { # PROJECT ENDING WORDS..
    local status=0
    (cd "$top/examples/$1" && "$top/analyse" "${@:3}") >"$work/answer" || status=$?
    if [ "$status" -gt 1 ]; then
        echo "$2 of $1: status $status" >&2
        exit 1
    fi
    cat -- "$work/answer" >"$top/examples/$1/$1.$2"
    echo "$1: $(tail -n 1 "$work/answer")"
}

for project in boiler gateway motor; do
    mapfile -t units < <(cd "$top/examples/$project" && printf '%s\n' *.c)
    write "$project" report "$@" "${units[@]}"
    for command in waits rings races ranges; do write "$project" "$command" "$@" "--$command" "${units[@]}"; done
done
write project report "$@" project.c
write units report "$@" setup.c drive.c share.c
