#!/usr/bin/env bash
# The lines of a report, in which races stand in groups by object: benches/lines.sh [--unproved]. It needs python3 and
# `script`, which gives a command a terminal.
#
# Of each example, of each project of units and of made sources benches/lines.py sees that each alarm of the report is
# told of once, with the counts of `--json`, beside what `--why` and `--races` tell. Sources of 10,000 alarms of values,
# of races at two objects and of races at 50, and one of two accesses to 500 objects, have their lines in at most 2
# seconds, the least of three runs, by the clock or, where other work takes longer, of processors. Lines have colours
# where a terminal shows them, and only there; logs, pages, `--plain` and `--json` are the same beside them.
set -eu
here=$(cd "$(dirname "$0")" && pwd)
top=${here%/*}
how=("$@")
work=$(mktemp -d)
trap 'rm -rf -- "$work"' EXIT
export LC_ALL=C
unset NO_COLOR

# The analyser, whose status is that of a report.
told() { # WORDS..
    "$top/analyse" "${how[@]}" "$@" 2>"$work/err" || [ $? = 1 ] || { cat "$work/err" && exit 1; }
}

same() { # FILE FILE WHAT
    cmp -- "$1" "$2" || { echo "$3: they differ" && exit 1; }
    echo "$3: as wanted"
}

# Looks at the lines of a source. Where NOTES has them, the pairs are looked at too.
look() { # WHAT NOTES WORDS..
    local what=$1 notes=$2
    shift 2
    told "$@" --json >"$work/counts"
    told "$@" >"$work/lines"
    told --why "$@" >"$work/why"
    told --races "$@" >"$work/races"
    python3 "$here/lines.py" "$work/counts" "$work/lines" "$work/why" "$work/races" ${notes:+"$notes"} ||
        { echo "$what: not as wanted" && exit 1; }
    echo "$what: as wanted"
}

program=$(told --program)
look_single() { # SOURCE
    "$program" notes notes <"$1" >"$work/notes" || [ $? = 1 ]
    look "${1##*/}" "$work/notes" --preprocessed "$1"
}

for source in "$top"/examples/*.c; do look_single "$source"; done
for project in boiler gateway motor units; do
    cd "$top/examples/$project"
    case $project in units) look units '' setup.c drive.c share.c ;; *) look "$project" '' ./*.c ;; esac
done
cd "$top/examples/project"
look project '' project.c
look "project, in units" '' pump.c display.c

# An access through a pointer stands at each of its objects; an object with more accesses than notes; two with one name.
cat >"$work/pointers.c" <<'SOURCE'
__mutex m; __mutex n;
struct queue { int head; int slot[4]; } in, out;
int level;
void put(struct queue *to, int value) { to->slot[to->head & 3] = value; to->head = to->head + 1; }
__task(3) void irq(void) {
    for (;;) { put(&in, level); put(&out, 0); level = 1; level = 2; level = 3; __yield(); }
}
__task(2) void send(void) {
    for (;;) { __lock(m); put(&in, 1); level = 4; level = level + 1; __unlock(m); __yield(); }
}
__task(1) void loop(void) {
    for (;;) { __lock(n); put(&out, 2); level = level + 2; __unlock(n); level = 10 / level; __yield(); }
}
SOURCE
look_single "$work/pointers.c"
printf 'static int rate;\nvoid a(void) { rate = 1; }\nvoid b(void) { rate = 2; }\n' >"$work/first.c"
printf 'static int rate;\nextern void a(void);\nextern void b(void);\n%s\n%s\n' \
    '__task(1) void one(void) { rate = 1; a(); }' '__task(2) void two(void) { rate = 2; b(); }' >"$work/second.c"
look "two objects with one name" '' "$work/first.c" "$work/second.c"

# With words behind FILE the report is of another analysis: a number more may leave alarms out, also of groups.
told "$work/pointers.c" >"$work/lines"
told "$work/pointers.c" --workers 3 >"$work/words"
same "$work/lines" "$work/words" "lines of three workers"
printf 'int x;int r;int y;\n%s\n%s\n' '__task(2) void w(void){x=__input(0,12)+5;y=1;}' \
    '__task(1) void q(void){r=x;if(r>20)y=2;}' >"$work/number.c"
told "$work/number.c" 17 >"$work/words"
told "$work/number.c" 17 --json >"$work/counts"
python3 - "$work/counts" "$work/words" <<'PYTHON'
import json, re, sys
report = json.load(open(sys.argv[1]))
last = open(sys.argv[2]).read().splitlines()[-1]
assert re.match(rf"alarms {report['count']}(: \d+ of values and locks, \d+ of races at \d+ objects?)?$", last), last
PYTHON
echo "lines with a number: as wanted"

# A suppressed alarm of a race stands as a note, and its object where the next one stands; where all are, at none.
printf 'int x;\n__task(2) void a(void) { x = 1; } // cedratcleat: RACE why\n__task(1) void b(void) { x = 2; }\n' \
    >"$work/remarks.c"
told "$work/remarks.c" | sed "s|^$work/||; s/: another task.* \[RACE\]$/ [RACE]/; /warning/s/ (priority [0-9]*)//g" \
    >"$work/lines"
cat >"$work/wanted" <<'LINES'
remarks.c:2:28: note: suppressed, why [RACE]
remarks.c:3:28: warning: x is accessed by a, b without a common mutex: 2 of its 2 accesses race [RACE]
remarks.c:2:28: note: store of x in a (priority 2), no mutex held
remarks.c:3:28: note: store of x in b (priority 1), no mutex held
remarks.c:1:5: note: x is declared here; no mutex is held at any of the 2 accesses
alarms 2: 0 of values and locks, 2 of races at 1 object
suppressed 1
LINES
same "$work/wanted" "$work/lines" "a suppressed alarm of a race"
sed -i '3s/$/ \/\/ cedratcleat: RACE why/' "$work/remarks.c"
told "$work/remarks.c" >"$work/lines"
grep -q ': warning: ' "$work/lines" && exit 1
tail -n 2 "$work/lines" | cmp - <(printf 'alarms 2: 0 of values and locks, 2 of races at 1 object\nsuppressed 2\n')

# Colours.
on_terminal() { # WORDS..
    script -qec "$(printf '%q ' "$top/analyse" "${how[@]}" "$@") 2>/dev/null" /dev/null | tr -d '\r'
}
plain() { sed -E 's/\x1b\[[0-9;]*m//g'; }
printf 'int x = ;\n' >"$work/refused.c"
for source in "$work/pointers.c" "$work/refused.c" "$work/remarks.c"; do
    "$top/analyse" "${how[@]}" "$source" >"$work/piped" 2>/dev/null || true
    (TERM=xterm on_terminal "$source") >"$work/coloured" || true
    plain <"$work/coloured" | cmp - "$work/piped"
    [ "$(grep -cE $'^\e\\[1m.*:[0-9]+:[0-9]+:\e\\[m \e\\[1;3[0-9]m(warning|error|note):\e\\[m ' "$work/coloured")" = \
        "$(grep -cE ': (warning|error|note): ' "$work/piped")" ]
    if grep -q $'\e' "$work/piped"; then exit 1; fi
    (TERM=xterm NO_COLOR=1 on_terminal "$source") | cmp - "$work/piped"
    (TERM=dumb on_terminal "$source") | cmp - "$work/piped"
    (TERM=xterm NO_COLOR='' on_terminal "$source") | cmp - "$work/coloured"
done
echo "colours: on a terminal alone, and not with NO_COLOR"

# Other forms have none, and are the same beside lines.
for source in "$top/examples/uart_driver.c" "$work/pointers.c"; do
    told --sarif "$source" >"$work/log"
    (TERM=xterm on_terminal --sarif="$work/beside" --html="$work/page" "$source") >"$work/coloured" || true
    cmp "$work/log" "$work/beside"
    told --html="$work/piped_page" "$source" >"$work/lines"
    cmp "$work/page" "$work/piped_page"
    plain <"$work/coloured" | cmp - "$work/lines"
    (TERM=xterm on_terminal --sarif "$source") | cmp - "$work/log" || exit 1
    if grep -q $'\e' "$work/log" "$work/page"; then exit 1; fi
    count=$(told "$source" --json | sed 's/.*"count":\([0-9]*\)}$/\1/')
    [ "$(grep -c '</a></td><td><b>' "$work/page")" = "$count" ]
    python3 -c 'import json, sys
results = json.load(open(sys.argv[1]))["runs"][0]["results"]
classes = "OVERFLOW DIV SHIFT INDEX POINTER DEREF LOCK RACE".split()
sys.exit(sum(it["ruleId"] in classes for it in results) != int(sys.argv[2]))' "$work/log" "$count"
    "$program" analyse <"$source" >"$work/text" || [ $? = 1 ]
    told --plain --preprocessed "$source" | cmp - "$work/text"
    "$program" analyse --json <"$source" >"$work/text" || [ $? = 1 ]
    told --preprocessed "$source" --json | cmp - "$work/text"
    (TERM=xterm on_terminal --plain --preprocessed "$source" --json) | cmp - "$work/text"
    "$program" notes large report <"$source" >"$work/text" || [ $? = 1 ]
    told --large --preprocessed "$source" --json | cmp - "$work/text"
    told --large --plain --preprocessed "$source" --json | cmp - "$work/text"
    for asked in alarms-why races-races rings-rings assumptions-assumptions; do
        "$program" notes large "${asked%-*}" <"$source" >"$work/text" || [ $? = 1 ]
        told --large "--${asked#*-}" --plain --preprocessed "$source" | cmp - "$work/text"
    done
    # (each FILE has its own log, whatever the one before has left)
    told --sarif "$source" >"$work/log"
    told --each --sarif "$top/examples/tank.c" "$source" | tail -n 1 | cmp - "$work/log"
done
echo "logs, pages, --plain and --json: as ever, on the large scale and of several FILEs too"

# 10,000 alarms: of values; of races at two objects; of races at 50; and two accesses that race at 500.
python3 - "$work" <<'PYTHON'
import sys
HEADS = [f"__task({task + 1}) void t{task}(void) {{\n" for task in range(4)]


def write(name, before, bodies):
    with open(f"{sys.argv[1]}/{name}.c", "w", encoding="ascii") as it:
        it.write(before)
        it.writelines(head + body + "\n}\n" for head, body in zip(HEADS, bodies))


def lines(count, line):
    return ["\n".join(line(task, at) for at in range(count)) for task in range(4)]


divisions = lines(2500, lambda task, at: f"y = 1 / x; /* {at} */")
write("values", "", ["int x, y; x = __input(0, 1);\n" + body for body in divisions])
write("two_objects", "int x, y;\n", lines(2500, lambda task, at: f"{'xy'[at % 2]} = {at};"))
write("objects", "".join(f"int x{at};\n" for at in range(50)), lines(2500, lambda task, at: f"x{at % 50} = {at};"))
targets = "".join(f"if (__input(0, 1)) p = &y{at};\n" for at in range(500))
write("reached", "".join(f"int y{at};\n" for at in range(500)), [f"int *p = &y0;\n{targets}*p = 1;"] * 2)
PYTHON
for name in values two_objects objects reached; do
    least=99
    for _ in 1 2 3; do
        TIMEFORMAT='%R %U %S'
        took=$({ time told --preprocessed "$work/$name.c" >"$work/lines"; } 2>&1 |
            awk 'END { print $2 + $3 < $1 ? $2 + $3 : $1 }')
        least=$(printf '%s\n' "$took" "$least" | sort -n | head -n 1)
    done
    "$program" notes notes <"$work/$name.c" >"$work/notes" || [ $? = 1 ]
    look "$name" "$work/notes" --preprocessed "$work/$name.c"
    echo "$name: $(tail -n 1 "$work/lines"), $(wc -l <"$work/lines") lines in $least seconds"
    awk -v took="$least" 'BEGIN { exit took > 2 }' || { echo "$name: more than 2 seconds" && exit 1; }
done
echo "all as wanted"
