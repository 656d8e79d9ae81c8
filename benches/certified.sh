#!/usr/bin/env bash
# Checks the certificates that stand beside the examples, by the program that holds no analysis:
#
#     benches/certified.sh CHECKER [PROGRAM]
#
# CHECKER is the built program check_main (tools/prove.py --kept check_main names a proved one). Of each
# examples/NAME.certificate the source is examples/NAME.c, byte for byte, and the answer is the report that stands in
# examples/NAME.report, and `certified`. Of the examples whose certificates are too large to stand there, PROGRAM, the
# built analyser (./analyse --program), writes them first; without PROGRAM they are left out, and named.
set -eu
[ $# -ge 1 ] || { sed -n 's/^#     /usage: /p' "$0"; exit 2; }

checker=$(readlink -f -- "$1")
program=${2:+$(readlink -f -- "$2")}
here=$(cd "$(dirname "$0")" && pwd)
top=${here%/*}
work=$(mktemp -d)
trap 'rm -rf -- "$work"' EXIT

status=0
for source in "$top"/examples/*.c; do
    name=${source##*/}
    certificate=${source%.c}.certificate
    made=
    if [ ! -e "$certificate" ]; then
        [ -n "$program" ] || { echo "$name: no certificate stands beside it" && continue; }
        "$program" certify <"$source" >"$work/certificate"
        certificate=$work/certificate
        made=', made now'
    fi
    size=$(wc -c <"$source")
    { printf 'tmcert 1\nsource %d\n' "$size" && cat -- "$source" && echo; } >"$work/front"
    cmp -s -n "$(wc -c <"$work/front")" -- "$work/front" "$certificate" ||
        { echo "$name: the certificate is that of another source" && status=1 && continue; }
    { cat -- "${source%.c}.report" && echo certified; } >"$work/wanted"
    "$checker" <"$certificate" >"$work/answer" || true
    cmp -s -- "$work/wanted" "$work/answer" ||
        { echo "$name: the answer is $(tail -n 1 "$work/answer")" && status=1 && continue; }
    echo "$name: certified, by $(wc -c <"$certificate") bytes$made"
done
exit "$status"
