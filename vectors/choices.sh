#!/usr/bin/env bash
# What compilers make of the sources of docs/RUNS.md, "Where C leaves more open": for each, the value of `r` at its end
# by the definitions, and those that it has when it is compiled and run.
#
#     vectors/choices.sh [OPTION..]
#
# The options are those of the compilers, -m32 if none is given. A program that the system stops has the number of the
# signal. Status 1 where some source has the value of the definitions in each run: then it shows nothing.
set -eu
document=$(dirname "$(readlink -f "$0")")/../docs/RUNS.md
[ $# -gt 0 ] || set -- -m32
folder=$(mktemp -d)
trap 'rm -rf "$folder"' EXIT

# each source in a file of its own, and the line behind it, which begins with its value
awk -v folder="$folder" '
  /^## / { inside = /^## Where C leaves more open/ }
  !inside { next }
  /^    / { if (!source) count++; source = 1; print substr($0, 5) > (folder "/" count ".c"); next }
  /^`r` is / { match($0, /^`r` is [0-9 or]+/); print substr($0, 8, RLENGTH - 7) > (folder "/" count ".value") }
  { source = 0 }' "$document"
cat >"$folder/main.c" <<'C'
#include <stdio.h>
extern int r;
void t(void);
int main(void) { t(); printf("%d", r); return 0; }
C

status=0
printf '%-12s%-12s%-12s%-12s%-12s%s\n' definitions 'gcc -O0' 'gcc -O2' 'clang -O0' 'clang -O2' source
for ((number = 1; ; number++)); do
  source=$folder/$number.c
  [ -f "$source" ] || break
  value=$(cat "$folder/$number.value")
  shows=
  row=$(printf '%-12s' "$value")
  for compiler in gcc clang; do
    for level in -O0 -O2; do
      "$compiler" "$@" -std=c99 -w "$level" '-D__task(priority)=' "$source" "$folder/main.c" -o "$folder/program"
      given=$("$folder/program" 2>"$folder/errors") || given="signal $(($? - 128))"
      case " ${value// or / } " in *" $given "*) ;; *) shows=1 ;; esac
      row+=$(printf '%-12s' "$given")
    done
  done
  printf '%s%s\n' "$row" "$(head -n 1 "$source")"
  [ "$shows" ] || status=1
done
exit "$status"
