#!/bin/sh
# The time and the memory of the program on 1 MiB of code of the examples' kind, which it lexes, parses and types, beside
# a C compiler's `-fsyntax-only` on the same text.
# The text is three of the examples again and again, each copy with long names of its own, so that 1 MiB has at most
# 200,000 tokens. It has more tasks than a program may have, so it is refused by that limit once it is typed. The compiler
# gets the words of the language that C lacks by definitions on its command line. It is run at the top of the repository.
# usage: benches/parser.sh PROGRAM WORD..    e.g. benches/parser.sh "$(./analyse --program)" analyse
set -eu
[ $# -ge 1 ] || { sed -n 2,7p "$0"; exit 2; }
folder=$(mktemp -d)
trap 'rm -r "$folder"' EXIT

# copy N: the examples, with _of_unit_N behind each name that is declared at file scope
names='sample_t accumulator_t CHANNELS WINDOW FRACTION filter bank limits input output saturations clamped low_pass average filters
byte ring size CAPACITY received last checksum put take guard receive process
state_t IDLE STARTING RUNNING STOPPING FAULT inputs LEAST_CURRENT GREATEST_CURRENT TICKS in state ticks faults duty enter step machine main'
renames() { for name in $names; do printf 's/\\b%s\\b/%s_of_unit_%s/g\n' "$name" "$name" "$1"; done; }
copy() {
    renames "$1" > "$folder/renames"
    cat examples/filter_bank.c examples/ring_buffer.c examples/state_machine.c | sed -f "$folder/renames"
}

n=0
: > "$folder/text.c"
while [ "$(wc -c < "$folder/text.c")" -lt 1036000 ]; do
    copy "$n" >> "$folder/text.c"
    n=$((n + 1))
done
# the last whole copy that fits the limit of bytes; blanks fill the rest
head -c 1048576 "$folder/text.c" > "$folder/cut.c"
last=$(grep -n 'The states of a motor' "$folder/cut.c" | tail -1 | cut -d: -f1)
sed -i "${last},\$d" "$folder/cut.c"

now() { date +%s%N; }
# best COMMAND..: the least of five times, in milliseconds
best() {
    least=999999
    for i in 1 2 3 4 5; do
        before=$(now); "$@" > /dev/null 2>&1 || true; after=$(now)
        time=$(( (after - before) / 1000000 ))
        if [ "$time" -lt "$least" ]; then least=$time; fi
    done
    echo "$least"
}
program() { "$@" < "$folder/cut.c"; }
printf '%s bytes, answer: %s\n' "$(wc -c < "$folder/cut.c")" "$("$@" < "$folder/cut.c" || true)"
compiler() {
    gcc -std=c11 -fsyntax-only -w '-D__task(p)=' '-D__mutex=int' '-D__lock(m)=' '-D__unlock(m)=' '-D__yield()=' \
        '-D__input(a,b)=(a)' "$folder/cut.c"
}
# a text that the compiler refuses would be timed only up to its first error
compiler || { echo 'the compiler refuses the text' >&2; exit 1; }
ours=$(best program "$@")
theirs=$(best compiler)
printf 'program %s ms, gcc -fsyntax-only %s ms\n' "$ours" "$theirs"
# peak COMMAND..: the most memory at one time, in KB
peak() { /usr/bin/time -f %M -o "$folder/peak" "$@" > /dev/null 2>&1 || true; tail -1 "$folder/peak"; }
ours=$(peak "$@" < "$folder/cut.c")
printf 'program %s KB, gcc -fsyntax-only %s KB\n' "$ours" "$(peak gcc -std=c11 -fsyntax-only -w '-D__task(p)=' \
    '-D__mutex=int' '-D__lock(m)=' '-D__unlock(m)=' '-D__yield()=' '-D__input(a,b)=(a)' "$folder/cut.c")"
