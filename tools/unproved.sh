#!/usr/bin/env bash
# Builds programs without their proofs, optimised: tools/unproved.sh FOLDER [NAME..]. `analyse` calls it for those that
# it runs; where no NAME is given the analyser and the view of its report are built.
#
# The checks that `rt try` compiles into a program, as of indices and sums, stay in it.
set -eu

mkdir -p -- "$1"
folder=$(readlink -f -- "$1")
shift
[ $# -gt 0 ] || set -- analyse_main report_view
here=$(dirname -- "$(readlink -f -- "${BASH_SOURCE[0]}")")
# shellcheck source=tools/plain_kit.sh
. "$here/plain_kit.sh"
work=$(mktemp -d)
trap 'kill $(jobs -p) 2>/dev/null || true; rm -rf -- "$work"' EXIT
trap 'exit 130' INT TERM HUP

# Builds one program. It is run on nothing, and what it answers to that does not matter.
build() { # NAME
    make_kit "$work/$1" -O2 "$folder/$1"
    (cd "$here/../crates/$1" && "$work/$1/bin/rt" try --steps 1 </dev/null) >"$work/$1.log" 2>&1 || true
    if ! [ -x "$folder/$1" ]; then
        cat "$work/$1.log" >&2
        return 1
    fi
}

status=0
builds=()
for name; do
    build "$name" &
    builds+=($!)
done
for it in "${builds[@]}"; do
    wait "$it" || status=1
done
exit "$status"
