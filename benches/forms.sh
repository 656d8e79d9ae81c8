#!/usr/bin/env bash
# Makes all forms of a report at once: benches/forms.sh [--unproved]. It needs python3.
#
# The sources have 10,000 alarms of values in as many lines; 10,080 races at two objects; and 500 alarms in 5,000 lines.
# Of each `analyse --sarif=LOG --html=PAGE` makes lines, log and page, which are those that it makes one by one, in at
# most 2 seconds, the least of three runs, by the clock or, where other work takes longer, of processors. A table then
# has what each program took in the fastest run: how often it ran, and its seconds by the clock and of processors. The
# programs of `analyse` run side by side, so that those by the clock are more in all than the run.
set -eu
here=$(cd "$(dirname "$0")" && pwd)
top=${here%/*}
how=("$@")
work=$(mktemp -d)
trap 'rm -rf -- "$work"' EXIT
export LC_ALL=C

python3 - "$work" <<'PYTHON'
import sys


def write(name, before, lines):
    """Four tasks, each with its part of the lines."""
    with open(f"{sys.argv[1]}/{name}.c", "w", encoding="ascii") as it:
        it.write(before)
        for task in range(4):
            part = lines[task * len(lines) // 4:(task + 1) * len(lines) // 4]
            values = "" if before else "int x, y; x = __input(0, 1);\n"
            it.write(f"__task({task + 1}) void t{task}(void) {{\n{values}" + "\n".join(part) + "\n}\n")


write("values", "", [f"y = 1 / x; /* {at} */" for at in range(10000)])
write("races", "int x, y;\n", [f"{'xy'[at % 2]} = {at};" for at in range(10080)])
write("some", "", [("y = 1 / x; " if at % 10 == 0 else "") + f"/* {at} */" for at in range(5000)])
PYTHON

# Sourced by the script before its first line: its programs tell what they take.
program=$("$top/analyse" "${how[@]}" --program 2>/dev/null)
cat >"$work/stages" <<'STAGES'
unset BASH_ENV
staged() { # LABEL COMMAND..
    local TIMEFORMAT="$1 %R %U %S"
    shift
    { time command "$@" 2>&8; } 8>&2 2>>"$STAGES"
}
awk() {
    local it label=awk
    for it; do [[ $it != */tools/*.awk ]] || label=${it##*/}; done
    staged "$label" awk "$@"
}
for it in sed grep sort uniq head tail cat cut tr od find sha256sum mv cp ln mkdir mktemp; do
    eval "$it() { staged $it $it \"\$@\"; }"
done
for it in analyse_main report_view report_page; do
    for found in "$PROGRAM" "${PROGRAM%/*}/$it" "${PROGRAM%/*/*/*}/$it/out/$it"; do
        [[ ! -x $found || ${found##*/} != "$it" ]] || eval "function $found { staged $it $(printf %q "$found") \"\$@\"; }"
    done
done
STAGES

# Lines, log and page of a source, into a folder.
make_forms() { # SOURCE FOLDER
    mkdir -p "$2"
    "$top/analyse" "${how[@]}" --sarif="$2/log" --html="$2/page" "$1" >"$2/lines" 2>"$work/err" || [ $? = 1 ] ||
        { cat "$work/err" && exit 1; }
}

failed=0
for name in values races some; do
    source=$work/$name.c
    "$top/analyse" "${how[@]}" "$source" >"$work/lines" 2>/dev/null || [ $? = 1 ]
    "$top/analyse" "${how[@]}" --sarif "$source" >"$work/log" 2>/dev/null || [ $? = 1 ]
    "$top/analyse" "${how[@]}" --summary --html="$work/page" "$source" >"$work/summary" 2>/dev/null || [ $? = 1 ]
    least=99
    for _ in 1 2 3; do
        TIMEFORMAT='%R %U %S'
        took=$({ time make_forms "$source" "$work/made"; } 2>&1 | tail -n 1)
        for form in lines log page; do
            cmp "$work/$form" "$work/made/$form" || { echo "$name: another ${form}" && exit 1; }
        done
        counted=$(awk '{ print $2 + $3 < $1 ? $2 + $3 : $1 }' <<<"$took")
        if awk "BEGIN { exit !($counted < $least) }"; then least=$counted && told=$took; fi
    done
    read -r clock user system <<<"$told"
    echo "$name: $(tail -n 1 "$work/lines"); lines, log ($(wc -c <"$work/log") bytes) and page ($(wc -c <"$work/page")" \
        "bytes) in $clock seconds by the clock, $(awk "BEGIN { print $user + $system }") of processors"
    export STAGES=$work/told PROGRAM=$program
    : >"$STAGES"
    BASH_ENV=$work/stages make_forms "$source" "$work/made"
    awk '{ count[$1]++; clock[$1] += $2; spent[$1] += $3 + $4 }
        END { for (it in count) if (spent[it] >= 0.02) printf "    %-16s %3d times %6.2f by the clock %6.2f of processors\n", it, count[it], clock[it], spent[it] }' \
        "$STAGES" | sort -rnk 7
    awk "BEGIN { exit !($least > 2) }" || continue
    echo "$name: more than 2 seconds" && failed=1
done
[ "$failed" = 0 ] && echo "all as wanted"
exit "$failed"
