#!/usr/bin/env bash
# Each program of the tests of runs stands in runs.c with the values there, in the same order, and gcc gives these
# values, for 32-bit x86 and with sums that wrap.
set -eu
cd "$(dirname "$0")"
rows=../crates/source_tests/src/run_programs.rt
folder=$(mktemp -d)
trap 'rm -rf "$folder"' EXIT

# a line for each program and one for its values, of the tests and of runs.c
sed -n '/^static PROGRAMS/,/^\];/p' "$rows" | sed -e ':more' -e '/\\$/{N;s/\\\n *//;b more' -e '}' |
  sed -n 's/^        "\(.*[^ ]\) *",$/\1/p' | sed 's/\\\(.\)/\1/g' >"$folder/rows"
# and one for its cells besides
tail -n +3 runs.c | awk '
  /^\/\* (cells|values) / { if (text != "") print text; text = ""; sub(/^\/\* /, ""); comment = 1 }
  comment { sub(/^ +/, ""); line = line (line == "" ? "" : " ") $0
            if (sub(/ \*\/$/, "", line)) { print line; line = ""; comment = 0 }; next }
  { text = text $0 }' >"$folder/runs"
diff "$folder/rows" <(grep -v '^cells ' "$folder/runs" | sed 's/^values //')

# what a program runs on: no library, as none for 32 bits need be there
cat >"$folder/under.c" <<'C'
void *memcpy(void *to, const void *from, unsigned n) {
  char *a = to;
  const char *b = from;
  while (n--) *a++ = *b++;
  return to;
}
void *memset(void *to, int value, unsigned n) {
  char *a = to;
  while (n--) *a++ = value;
  return to;
}
static void out(const char *text, int length) {
  __asm__ volatile("int $0x80" : : "a"(4), "b"(1), "c"(text), "d"(length) : "memory");
}
static void put(int minus, unsigned long long value) {
  char text[24];
  int length = 0, begun = 0;
  if (minus) text[length++] = '-';
  for (int place = 19; place >= 0; place--) {
    unsigned long long power = 1;
    int digit = 0;
    for (int k = 0; k < place; k++) power *= 10;
    for (; value >= power; digit++) value -= power;
    if (digit || begun || !place) begun = 1, text[length++] = '0' + digit;
  }
  text[length++] = ' ';
  out(text, length);
}
#define PUT(e) put((e) < 0, (e) < 0 ? -(unsigned long long)(e) : (unsigned long long)(e));
C
count=0
while read -r program && read -r _ cells && read -r _ values; do
  { cat "$folder/under.c"
    printf '#define main program\n%s\n#undef main\nvoid _start(void) { program();\n' "$program"
    for cell in $cells; do printf 'PUT(%s)\n' "$cell"; done
    printf '__asm__ volatile("int $0x80" : : "a"(1), "b"(0)); }\n'
  } >"$folder/program.c"
  gcc -m32 -std=gnu11 -w -fwrapv -ffreestanding -fno-stack-protector -fno-pic -no-pie -nostdlib -static \
    "$folder/program.c" -o "$folder/program"
  given=$("$folder/program")
  if [ "${given% }" != "$values" ]; then
    printf '%s\n  gives %s\n  and not %s\n' "$program" "$given" "$values"
    exit 1
  fi
  count=$((count + 1))
done <"$folder/runs"
echo "$count programs"
