#!/bin/sh
# Bytes per second on sources that are nearly all lexis, beside `wc -c` on the same files.
# usage: benches/lexer.sh PROGRAM WORD..    e.g. benches/lexer.sh "$(./analyse --program)" analyse
set -eu
[ $# -ge 1 ] || { sed -n 2,3p "$0"; exit 2; }
folder=$(mktemp -d)
trap 'rm -r "$folder"' EXIT
size=1048576

# fill NAME TEXT: a source of TEXT again and again
fill() { yes "$2" | tr -d '\n' | head -c "$size" > "$folder/$1"; }
fill blanks ' '
fill slashes '/'
fill one_name 'a'
fill comments '/* x */ '
fill open_parentheses '('
fill zeros '0'
# behind NAME FRONT TEXT: the same behind a front, on one line
behind() { { printf '%s' "$2"; yes "$3" | tr -d '\n'; } | head -c "$size" > "$folder/$1"; }
behind line_backslashes '//' '\ '
behind line_blanks '//' ' '
{ printf '/*'; yes '*\'; } | head -c "$size" > "$folder/stars_and_splices"
{ printf '/**'; yes '??/'; } | head -c "$size" > "$folder/splices"
yes '# 1 "a.c"' | head -c "$size" > "$folder/skipped_lines"
seq 1 130000 | sed 's/^/n/' | head -c "$size" > "$folder/distinct_names"

now() { date +%s%N; }
# rate FILE COMMAND..: bytes per second of one run; what it answers and its status do not matter here
rate() {
    file=$1; shift
    before=$(now); "$@" < "$file" > /dev/null 2>&1 || true; after=$(now)
    echo $(( $(wc -c < "$file") * 1000000000 / (after - before) ))
}
printf '%-18s %14s %14s\n' source program 'wc -c'
for file in "$folder"/*; do
    printf '%-18s %14s %14s\n' "$(basename "$file")" "$(rate "$file" "$@")" "$(rate "$file" wc -c)"
done
