#!/usr/bin/env bash
# Compares the texts of `notes parts` with those that come alone: benches/parts.sh ANALYSER [SOURCE..], where no SOURCE
# is given of all of examples/ and of two generated ones. It says of each source whether all nine texts
# and their statuses are the same, and at the end the processor time of one analysis for all and of one for each.
set -eu

analyser=$(readlink -f -- "$1")
shift
here=$(dirname -- "$(readlink -f -- "${BASH_SOURCE[0]}")")
work=$(mktemp -d)
trap 'rm -rf -- "$work"' EXIT
if [ $# = 0 ]; then
    for count in 20 200; do "$analyser" generate "$count" >"$work/generated_$count.c"; done
    set -- "$here"/../examples/*.c "$work"/generated_*.c
fi

# Cuts the texts apart, as `analyse` does.
cut_apart() { # PARTS
    local name status count
    exec 4<"$1"
    while read -r name status count <&4; do
        head -c "$count" <&4 >"$work/$name.part"
        printf '%s\n' "$status" >"$work/$name.status"
    done
    exec 4<&-
}

# Runs one command, and compares its text and its status with the part of this name.
compare() { # NAME PROGRAM WORDS..
    local status=0
    "${@:2}" <"$source" >"$work/alone" || status=$?
    cmp -s "$work/alone" "$work/$1.part" && [ "$status" = "$(cat "$work/$1.status")" ]
}

failed=0
for source; do
    status=0
    "$analyser" notes parts <"$source" >"$work/parts" || status=$?
    if [ "$status" -gt 1 ]; then
        "$analyser" analyse <"$source" >"$work/alone" || true
        cmp -s "$work/alone" "$work/parts" || { failed=1 && printf '%s: another refusal\n' "$source"; }
        continue
    fi
    cut_apart "$work/parts"
    compare report "$analyser" analyse --json && compare waits "$analyser" waits &&
        compare ranges "$analyser" ranges && compare rings "$analyser" notes rings &&
        compare races "$analyser" notes races && compare alarms "$analyser" notes alarms &&
        compare causes "$analyser" notes causes && compare notes "$analyser" notes notes &&
        compare assumptions "$analyser" notes assumptions ||
        { failed=1 && printf '%s: another text\n' "$source"; }
done

# The processor seconds of a command over all sources.
seconds() { # SOURCE..
    local TIMEFORMAT='%U %S'
    { time for source; do "$analyser" "${command[@]}" <"$source" >"$work/alone" || true; done; } 2>&1 | awk '{ print $1 + $2 }'
}
command=(notes parts)
all=$(seconds "$@")
each=0
for words in 'analyse --json' waits ranges 'notes rings' 'notes races' 'notes alarms' 'notes causes' 'notes notes' \
    'notes assumptions'; do
    read -ra command <<<"$words"
    each=$(awk "BEGIN { print $each + $(seconds "$@") }")
done
printf '%s sources: one analysis for all %s s, one for each %s s\n' "$#" "$all" "$each"
[ "$failed" = 0 ] && printf 'all as alone\n'
exit "$failed"
