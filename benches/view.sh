#!/usr/bin/env bash
# Shows reports in the files of their sources: benches/view.sh [--unproved]. It needs gcc, clang, make and python3.
#
# The example of two files and a header is compiled and run by gcc and clang, unchanged, and analysed: its alarms stand
# at the lines of its files, also through a link, from another folder, and under names with blanks, quotes and
# backslashes. Each example has the report that stands beside it, and the circular waits, ranges and certificate, which
# benches/answers.sh writes; the projects of several units have rings and races too, and no certificate. The logs of all
# examples of one file are checked, and have the places of the lines, and their pages have as many rows as alarms.
set -eu
here=$(cd "$(dirname "$0")" && pwd)
top=${here%/*}
how=("$@")
work=$(mktemp -d)
trap 'rm -rf -- "$work"' EXIT

# What `analyse` writes with these words, and its status behind it.
told() { # COMMAND WORDS..
    local command=$1 status=0
    shift
    "$command" "${how[@]}" "$@" 2>"$work/err" || status=$?
    echo "status $status"
}

same() { # WANTED GOT WHAT
    if [ "$1" != "$2" ]; then
        printf '%s: wanted\n%s\nand not\n%s\n' "$3" "$1" "$2"
        exit 1
    fi
    echo "$3: as wanted"
}

# The compilers take the same sources.
for compiler in gcc clang; do
    cp -r "$top/examples/project" "$work/$compiler"
    make -s -C "$work/$compiler" CC="$compiler -Werror" top="$top"
    same "share 25 level 0 pumping 0" "$("$work/$compiler/out/target")" "$compiler runs the project"
    for source in "$top"/examples/{,units/,boiler/,gateway/,motor/}*.c; do
        "$compiler" -std=c99 -fsyntax-only -Wall -Wextra -Werror -DCEDRATCLEAT_ANY_TARGET \
            -iquote "$top/include" -include "$top/include/cedratcleat.h" "$source"
    done
    echo "$compiler takes the examples"
    # The header asks for the data model, and its message names the option that mends it.
    printf 'int n;\n' >"$work/model.c"
    takes() { "$compiler" -std=c99 -pedantic-errors -fsyntax-only -include "$top/include/cedratcleat.h" "$@" "$work/model.c"; }
    takes -m32 -malign-double
    for options in -m64:-m32 -m32:-malign-double '-m32 -malign-double -funsigned-char:-fsigned-char'; do
        read -ra words <<<"${options%:*}"
        if takes "${words[@]}" 2>"$work/err"; then exit 1; fi
        grep -qe "compile .*${options##*:}" "$work/err"
    done
    echo "$compiler is asked for the data model"
done

# The alarms stand at the lines of the files.
cd "$top/examples/project"
wanted=$(cat project.report)$'\nstatus 1'
same "$wanted" "$(told "$top/analyse" project.c)" "the project"
for compiler in gcc clang; do
    export CC=$compiler
    cd "$top/examples/project"
    ln -sf "$top/analyse" "$work/link"
    mkdir -p "$work/a b"
    cp ./*.h "$work/a b"
    cp pump.c "$work/a b/pu\"mp.c"
    cp display.c "$work/a b/dis\\play.c"
    printf '%s\n' '#include <pu"mp.c>' '#include "dis\play.c"' >"$work/a b/all files.c"
    cd "$work/a b"
    got=$(told "$work/link" -I . "all files.c" | sed 's/^\.\///; s/pu"mp/pump/; s/dis\\play/display/')
    same "$wanted" "$got" "odd names, through a link, from another folder, by $compiler"
    cd "$work"
    got=$(told "$work/link" "$top/examples/project/project.c" | sed "s|^$top/examples/project/||")
    same "$wanted" "$got" "from another folder, by $compiler"
done
unset CC

# Columns are those of the file: of a token that stands there, too, before a macro, between two, or behind the last, and else
# where the macro stands, in one line and in several; of a project, too; and the text's where the file is not at hand.
mkdir -p "$work/columns"
cat >"$work/columns/macros.h" <<'SOURCE'
#define SCALE 100
#define RATIO(a, b) (((a) * SCALE) / (b))
SOURCE
cat >"$work/columns/a.c" <<'SOURCE'
#include "macros.h"
int share;
__task(1) void show(void)
{
    share = RATIO(1, __input(0, 4));
	share  =   100 / __input(0, 4); /* a comment */
    share = SCALE / __input(0, 4);
    share = /* a comment */ SCALE + 3 / __input(0, 4);
    share = RATIO(1,
                  __input(0, 4)) + 7 / __input(0, 4);
    if (SCALE > 3) { share = 7 / __input(0, 4); share = RATIO(2, __input(0, 4)); }
}
SOURCE
printf 'static int rate;\n#define ONE(x) (1 / (x))\n%s\n' \
    '__task(1) void b(void) { rate = 1 / __input(0, 9); rate = ONE(__input(0, 9)); }' >"$work/columns/b.c"
printf 'static int rate;\n__task(1) void c(void) { rate = 1 / rate; }\n' >"$work/columns/c.c"
divided() { sed -n 's/: warning: the divisor.*//p; $p'; }
for compiler in gcc clang; do
    cd "$work/columns"
    # (clang keeps what stands behind a macro of several lines in the first of them)
    behind=a.c:10:38
    [ "$compiler" = gcc ] || behind=a.c:9:13
    same $'a.c:5:13\na.c:6:17\na.c:7:19\na.c:8:39\na.c:9:13\n'"$behind"$'\na.c:11:32\na.c:11:57\nstatus 1' \
        "$(CC=$compiler told "$top/analyse" a.c | divided)" "columns of a file, by $compiler"
    same $'b.c:3:35\nb.c:3:59\nc.c:2:35\nstatus 1' \
        "$(CC=$compiler told "$top/analyse" b.c c.c | divided)" "columns of a project, by $compiler"
    "$compiler" -E -std=c99 a.c | sed 's/"a\.c"/"none.c"/' >"$work/none.c"
    same "none.c:5:26" "$(told "$top/analyse" --preprocessed "$work/none.c" | divided | head -n 1)" "columns of no file"
done

# Each example has the report that stands beside it.
for source in "$top"/examples/*.c; do
    same "$(cat "${source%.c}.report")" "$(told "$top/analyse" --plain --preprocessed "$source" | sed '$d')" \
        "the report of ${source##*/}"
    for command in waits ranges; do
        same "$(cat "${source%.c}.$command")" \
            "$(told "$top/analyse" --plain --preprocessed "--$command" "$source" | sed '$d')" \
            "the $command of ${source##*/}"
    done
    certificate=${source%.c}.certificate
    [ -e "$certificate" ] || continue
    "$top/analyse" "${how[@]}" --preprocessed --certify "$source" 2>"$work/err" | cmp - "$certificate"
    same "$(cat "${source%.c}.report")"$'\ncertified' "$(told "$top/analyse" --plain --check "$certificate" | sed '$d')" \
        "the certificate of ${source##*/}"
done

# Each project of units has the answers that stand beside them.
cd "$top/examples/units"
same "$(cat units.report)" "$(told "$top/analyse" setup.c drive.c share.c | sed '$d')" "the report of units"
# (the lines that part them are in no file)
same $'assumptions 0\nstatus 0' "$(told "$top/analyse" --assumptions setup.c drive.c share.c)" "the assumptions of units"
for project in boiler gateway motor; do
    cd "$top/examples/$project"
    same "$(cat "$project.report")" "$(told "$top/analyse" -- *.c | sed '$d')" "the report of $project"
    for command in waits rings races ranges; do
        same "$(cat "$project.$command")" "$(told "$top/analyse" "--$command" -- *.c | sed '$d')" "the $command of $project"
    done
    told "$top/analyse" --html="$work/page" -- *.c >"$work/out"
    same "$(sed -n 's/^alarms \([0-9]*\).*/\1/p' "$project.report")" "$(grep -c '</a></td><td><b>' "$work/page")" \
        "the page of $project"
done

# Circular waits, ranges and dead places are shown in their files: each object stands in the line that is told.
printf '# 7 "a b.h"\n__mutex m;__mutex n;\n%s\n%s\n' \
    '__task(1) void a(void){__lock(m);__lock(n);__unlock(n);__unlock(m);}' \
    '__task(1) void b(void){__lock(n);__lock(m);__unlock(m);__unlock(n);}' >"$work/waits.c"
same $'a b.h:8:34 WAIT\na b.h:9:34 WAIT\nwaits 2\nstatus 1' \
    "$(told "$top/analyse" --preprocessed --waits "$work/waits.c" | sed 's/: warning: tasks may .* \[WAIT\]$/ WAIT/')" \
    "circular waits"
printf '# 7 "a b.h"\nint x;int y;\n__task(1) void t(void){x=__input(0,9);if(x>20)y=1;}\n' >"$work/ranges.c"
wanted=$'a b.h:7:5: note: x is from 0 to 9\na b.h:7:11: note: y is from 0 to 0\n'
wanted+=$'a b.h:8:48: note: no run reaches this [DEAD]\ndead 1'
same "$wanted"$'\nstatus 0' "$(told "$top/analyse" --preprocessed --ranges "$work/ranges.c")" "ranges and a dead place"
same $'waits 0\nstatus 0' "$(told "$top/analyse" --preprocessed --waits "$work/ranges.c")" "no circular wait"
# A page tells each ring once, with links to its locks, and at each of these what the tasks hold and ask for; and what
# `--ranges` says, in a table and behind the lines of the declarations, which no mark makes to lines with alarms.
paged() { # FROM TO WORDS..
    told "$top/analyse" --html="$work/page" "${@:3}" >"$work/out"
    sed -E "s/<a href='#L([0-9]+)'>([^<]*)<\/a>/\2->\1/g; s/<(tr|table)><td>//g; s/<\/t[dh]><t[dh][^>]*>/, /g
        s/<div class='line([^']*)' id='L[0-9]+'><span class='number'>([0-9]+)/\2\1 /; s/<\/p>(<p[^>]*>)?/; /g
        s/<[^>]*>//g; s/&#39;/'/g; s/&gt;/>/g" "$work/page" | sed -n "/^$1/,/^$2/p" | sed '/^$/d; s/ $//'
}
wanted=$'a ring of 2 tasks\nWaits at, Task, Holds, Asks for\na b.h:8:34->3, a, m, n\na b.h:9:34->4, b, n, m'
same "$wanted" "$(paged 'a ring' 'a b.h:9' --preprocessed "$work/waits.c")" "a ring on a page"
same 1 "$(grep -c 'a ring of 2 tasks' "$work/page")" "a ring stands once"
wanted=$'Tasks with alarms or waits\nTask, Priority\na, 1\nb, 1'
same "$wanted" "$(paged Tasks 'b, ' --preprocessed "$work/waits.c")" "the tasks of a ring"
wait='at column 34: tasks may come to wait for each other for ever, one of them at this lock'
wanted=$'8 noted __task(1) void a(void){__lock(m);__lock(n);__unlock(n);__unlock(m);}\n'
wanted+="WAIT $wait;"$'\na holds m and asks for n;\na b.h:9:34->4: b holds n and asks for m;\n'
wanted+=$'9 noted __task(1) void b(void){__lock(n);__lock(m);__unlock(m);__unlock(n);}\n'
wanted+="WAIT $wait;"$'\nb holds n and asks for m;\na b.h:8:34->3: a holds m and asks for n;'
same "$wanted" "$(paged '8 noted' ' *<.body>' --preprocessed "$work/waits.c")" "waits at their lines"
wanted=$'Ranges of objects\nleast and greatest values in all runs\nDeclared at, Object, Least, Greatest, Races\n'
wanted+=$'a b.h:7:5->2, x, 0, 9,\na b.h:7:11->2, y, 0, 0,'
same "$wanted" "$(paged Ranges 'a b.h:7:11' --preprocessed "$work/ranges.c")" "ranges on a page"
wanted=$'7 int x;int y;\n in all runs x is from 0 to 9, y is 0;\n'
wanted+=$'8 unreached __task(1) void t(void){x=__input(0,9);if(x>20)y=1;}\nno run reaches this line\'s column 48;'
same "$wanted" "$(paged 7 ' *<.body>' --preprocessed "$work/ranges.c")" "ranges and a dead place at their lines"
printf '# 7 "a.h"\nint n;\n__task(2) void a(void) { n = 1; }\n__task(1) void b(void) { n = 0; }\n' >"$work/race.c"
same "a.h:7:5->2, n, 0, 1, races" "$(paged 'a.h:7:5->2, n' '' --preprocessed "$work/race.c" | head -n 1)" \
    "the range of an object with a race"
# Below each alarm stands why: the values of its operands, where pointers may lead, and who comes there.
noted() { # SOURCE
    printf '# 7 "a.h"\n%b' "$1" >"$work/why.c"
    told "$top/analyse" --preprocessed --why "$work/why.c" | sed 's/: warning: .* \[\([A-Z]*\)\]$/ \1/; s/: note: /: /'
}
wanted=$'a.h:8:36 RACE\na.h:7:5: level is declared here; 3 of its 3 accesses race\n'
wanted+=$'a.h:8:36: drain stores level here, holds nothing, and races with 2 accesses\n'
wanted+=$'a.h:9:33: show loads it here, holds nothing\na.h:9:58: show loads it here, holds nothing\n'
wanted+=$'a.h:9:33 RACE\na.h:9:33: show loads level here, holds nothing, and races with 1 access\n'
wanted+=$'a.h:8:36: drain stores it here, holds nothing\na.h:9:56 DIV\n'
wanted+=$'a.h:9:56: the divisor is 0 to 4 here, and the dividend is 100\na.h:9:56: in show (priority 1)\n'
wanted+=$'a.h:9:58: show reads 0 to 4 from level here\na.h:8:36: drain stores 0 to 4 to level here\n'
wanted+=$'a.h:8:36: an input, or a function that may end without return, gives 0 to 4 here\n'
wanted+=$'a.h:9:56: without what other tasks store meanwhile no such value is here\n'
wanted+=$'a.h:9:58 RACE\na.h:9:58: show loads level here, holds nothing, and races with 1 access\na.h:8:36: drain stores it here, holds nothing\nalarms 4\nstatus 1'
same "$wanted" "$(noted 'int level, shown;\n__task(2) void drain(void) { level = __input(0, 4); }\n__task(1) void show(void) { if (level > 0) shown = 100 / level; }\n')" \
    "why of two tasks"
wanted=$'a.h:8:46 LOCK\na.h:8:46: m is held already where it is locked here\na.h:8:46: in t (priority 3)\n'
wanted+=$'a.h:8:46: a run that comes here so always ends here: what stands behind is not analysed for such runs\nalarms 1\nstatus 1'
same "$wanted" "$(noted '__mutex m;\n__task(3) void t(void) { __lock(m); for (;;) __lock(m); }\n')" "why of a lock"
wanted=$'a.h:8:27 INDEX\na.h:8:27: the subscript is 0 to 8 here, and the array has 8 elements\n'
wanted+=$'a.h:7:5: the array stands in w, which is declared here\na.h:8:27: in t (priority 1)\n'
wanted+=$'a.h:8:27: an input, or a function that may end without return, gives 0 to 8 here\nalarms 1\nstatus 1'
same "$wanted" "$(noted 'int w[8];\n__task(1) void t(void) { w[__input(0, 8)] = 1; }\n')" "why of an index"
wanted=$'a.h:9:26 DEREF\na.h:9:26: the pointer may be null\n'
wanted+=$'a.h:7:5: the pointer may lead to g, which is declared here\na.h:9:26: in t (priority 1)\n'
wanted+=$'a.h:9:26: null is meant here\nalarms 1\nstatus 1'
same "$wanted" "$(noted 'int g;\nint *f(int k) { if (k == 1) return &g; return 0; }\n__task(1) void t(void) { *f(__input(0, 3)) = 5; }\n')" \
    "why of a pointer"
wanted=$'a.h:9:32 POINTER\na.h:9:32: 0 to 6 is added to the pointer here, in elements of 1 cell\n'
wanted+=$'a.h:7:5: the pointer may lead to w, which is declared here and has 4 elements: at its beginning\n'
wanted+=$'a.h:7:5: the sum may lie behind the end of w\na.h:9:32: in t (priority 1)\n'
wanted+=$'a.h:9:32: an input, or a function that may end without return, gives 0 to 6 here\nalarms 1\nstatus 1'
same "$wanted" "$(noted 'int w[4];\nint *p;\n__task(1) void t(void) { p = w + __input(0, 6); }\n')" "why of a sum"
wanted=$'a.h:8:31 DIV\na.h:8:31: the divisor is 0 here, and the dividend is 1\na.h:8:31: in main (before the tasks run)\n'
wanted+=$'a.h:8:31: a run that comes here so always ends here: what stands behind is not analysed for such runs\n'
wanted+=$'a.h:8:33: main reads 0 from y here\na.h:8:33: y may be as it was before the program ran\nalarms 1\nstatus 1'
same "$wanted" "$(noted 'int x, y;\nint main(void) { x = 2; x = 1 / y; return 0; }\n__task(1) void t(void) { y = 1; }\n')" \
    "why of an error that always occurs"
same $'alarms 0\nstatus 0' "$(noted 'int x;\n')" "why of no alarm"
# A log tells with which accesses a race is, and on what call paths control comes to an alarm, each place and path once,
# also where a macro stands at several.
printf '%s\n' 'int x;' '#define TWICE x = x + x' 'void f(void) { x = 1; }' '#define CALLS f(); f()' \
    '__task(1) void t(void) { TWICE; CALLS; }' '__task(2) void u(void) { TWICE; }' >"$work/macros.c"
"$top/analyse" "${how[@]}" --sarif "$work/macros.c" >"$work/macros.sarif" 2>"$work/err" || [ $? = 1 ]
python3 "$top/benches/sarif.py" "$work/macros.sarif" >"$work/told" || { cat "$work/told" && exit 1; }
same 'RACE 3 store of x in u, no mutex held; in t: 3 5; in t (2): 3 5' "$(python3 -c 'import json, sys
def line(it): return str(it["physicalLocation"]["region"]["startLine"])
it = json.load(open(sys.argv[1]))["runs"][0]["results"][0]
stacks = [x["message"]["text"] + ": " + " ".join(line(y["location"]) for y in x["frames"]) for x in it["stacks"]]
print("; ".join([it["ruleId"] + " " + line(it["locations"][0]) + " " + it["relatedLocations"][0]["message"]["text"]] + stacks))
' "$work/macros.sarif")" "what a log tells of an alarm"
# A certificate has the text that the preprocessor made, and ends as its grammar says.
printf '# 7 "a b.h"\nint x;\n__task(1) void t(void){x=1/x;}\n' >"$work/certified.c"
told "$top/analyse" --preprocessed --certify "$work/certified.c" >"$work/certificate"
same $'tmcert 1\nsource 50' "$(head -n 2 "$work/certificate")" "the head of a certificate"
same $'store\nend\nstatus 0' "$(tail -n 3 "$work/certificate")" "the end of a certificate"
same "$(cat "$work/certified.c")" "$(tail -n +3 "$work/certificate" | head -n 3)" "the source in a certificate"
same "$(told "$top/analyse" --plain --preprocessed --certify "$work/certified.c")" "$(cat "$work/certificate")" \
    "a certificate, plain"
# A certificate is tested by itself, and the report that it proves is shown in the files of the source in it.
shortened() { sed 's/: warning: .* \[DIV\]$/ DIV/'; }
"$top/analyse" "${how[@]}" --preprocessed --certify "$work/certified.c" >"$work/proof" 2>"$work/err"
same $'a b.h:8:27 DIV\nalarms 1\ncertified\nstatus 1' \
    "$(told "$top/analyse" --check "$work/proof" | shortened)" "what a certificate proves"
same $'3:27 DIV\nalarms 1\ncertified\nstatus 1' "$(told "$top/analyse" --plain --check "$work/proof")" "the same, plain"
sed 1d "$work/certified.c" | "$top/analyse" "${how[@]}" --certify /dev/stdin 2>"$work/err" >"$work/unmarked"
same $'source of /dev/stdin:2:27 DIV\nalarms 1\ncertified\nstatus 1' \
    "$(told "$top/analyse" --check /dev/stdin <"$work/unmarked" | shortened)" "a source without line marks"
same $'source of /dev/stdin:2:27 DIV\nalarms 1\ncertified\nstatus 1' \
    "$(cat "$work/unmarked" | told "$top/analyse" --check /dev/stdin | shortened)" "the same by a pipe"
sed 's/^c 0 i 0 0 0$/c 0 i 0 1 1/' "$work/proof" >"$work/larger"
same $'uncovered 0 4\nstatus 1' "$(told "$top/analyse" --check "$work/larger")" "what is no solution"
sed 's/^node 4$/node 3/' "$work/proof" >"$work/twice"
for name in twice certified.c; do
    same "$work/$name: error: this is no certificate of the source in it [certificate]"$'\nstatus 2' \
        "$(told "$top/analyse" --check "$work/$name")" "$name is no certificate"
done
printf 'tmcert 1\nsource 17\n# 7 "a b.h"\nint x\nend\n' >"$work/refused"
same $'a b.h:7:5: error: no source of the language goes on so [Syntax]\nstatus 2' \
    "$(told "$top/analyse" --check "$work/refused")" "the refusal of the source in a certificate"
cd "$top/examples/project"
told "$top/analyse" --ranges project.c >"$work/ranges"
tail -n 1 "$work/ranges" | grep -q '^status 0$'
sed -n 's/^\([^:]*\):\([0-9]*\):[0-9]*: note: \([A-Za-z_0-9]*\) is from .*/\1 \2 \3/p' "$work/ranges" >"$work/names"
[ -s "$work/names" ]
while read -r file line name; do
    same "$name" "$(sed -n "${line}p" "$file" | grep -ow "$name" | head -n 1)" "the place of $name in $file"
done <"$work/names"

# The places and words of the results of a log, or of lines.
placed() { # LOG
    python3 -c 'import json, sys, urllib.parse
for run in json.load(open(sys.argv[1]))["runs"]:
    for it in run["results"]:
        at = it["locations"][0]["physicalLocation"]
        column = at["region"].get("startColumn", "-")
        print(urllib.parse.unquote(at["artifactLocation"]["uri"]), at["region"]["startLine"], column, " " + it["ruleId"],
              sep=":")' "$1"
}

# How many notes on assumptions stand behind the lines of a page.
opened() { # PAGE
    grep -oE "<p class='open'>[A-Z]+ at column " "$1" | wc -l
}

# The logs and summaries of the examples: each log has the places and words of the lines, then those of the waits, then
# those of the dead places, then those of the assumptions, and its status is 1 where there is an alarm or a wait. A line
# that a macro changed is whole.
for source in "$top"/examples/*.c "$top/examples/project/project.c"; do
    told "$top/analyse" --sarif "$source" >"$work/log"
    for form in --summary --waits --ranges --assumptions; do told "$top/analyse" "$form" "$source" >"$work/form$form"; done
    same "$(cat "$work/form--summary" "$work/form--waits" | grep '^status' | sort | tail -n 1)" "$(tail -n 1 "$work/log")" \
        "the status of the log of ${source##*/}"
    sed -i '$d' "$work/log"
    python3 "$here/sarif.py" "$work/log"
    same "$({ told "$top/analyse" --why "$source" | sed '/: warning: /!d'
        cat "$work/form--waits" "$work/form--ranges" "$work/form--assumptions"; } |
        sed -n 's/^\(.*:[0-9]*:[0-9]*: \)[a-z]*: .* \[\([A-Z]*\)\]$/\1\2/p' |
        sed 's/\(display\.c:10\):[0-9]*: /\1:-: /')" \
        "$(placed "$work/log")" "the log of ${source##*/}"
    same "$(told "$top/analyse" "$source" | tail -n 2 | sed 's/^\(alarms [0-9]*\): .*/\1/')" "$(tail -n 2 "$work/form--summary")" \
        "the summary of ${source##*/}"
    # (of one run the lines, the log and the page; the page has a row for each alarm, and none of them is new)
    told "$top/analyse" --baseline "$work/log" --sarif="$work/again" --html="$work/page" "$source" >"$work/out"
    same "$(sed -n 's/^alarms //p' "$work/out")" "$(grep -c '</a></td><td><b>' "$work/page")" "the page of ${source##*/}"
    same 'status 0' "$(tail -n 1 "$work/out")" "nothing is new in ${source##*/}"
    # (the page has a note of its own for each assumption, behind its line, but for IMPLEMENTATION)
    same "$(grep ': note: ' "$work/form--assumptions" | grep -vc ' \[IMPLEMENTATION\]$')" "$(opened "$work/page")" \
        "the assumptions on the page of ${source##*/}"
    told "$top/analyse" --all-assumptions --html="$work/page" "$source" >"$work/out"
    same "$(grep -c ': note: ' "$work/form--assumptions")" "$(opened "$work/page")" \
        "all assumptions on the page of ${source##*/}"
    python3 "$here/sarif.py" "$work/again"
done

# Fingerprints stay when lines are put in, when names of other functions change, and when the folder moves; and two equal
# lines differ.
prints() { # LOG
    python3 -c 'import json, sys
for it in json.load(open(sys.argv[1]))["runs"][0]["results"]:
    if it["level"] == "warning":
        print(it["partialFingerprints"]["cedratcleat/v1"], it["ruleId"])' "$1"
}
mkdir -p "$work/one/src" "$work/two/src"
printf '#define N 0\nint n;\nvoid other(void) { int local = 1; n = local; }\n%s\n%s\n%s\n%s\n' \
    '__task(1) void t(void) {' '    n = 1 / __input(0, 9);' '    n = 1 / __input(0, 9);' '    other(); }' >"$work/one/src/a.c"
sed 's/local/renamed/g; 2i int more;' "$work/one/src/a.c" >"$work/two/src/a.c"
for folder in one two; do
    (cd "$work/$folder" && told "$top/analyse" --sarif src/a.c | sed '$d') >"$work/$folder.log"
    python3 "$here/sarif.py" "$work/$folder.log"
done
same "$(prints "$work/one.log")" "$(prints "$work/two.log")" "fingerprints behind an edit elsewhere, in another folder"
(cd "$work" && told "$top/analyse" --sarif "$work/one/src/a.c" | sed '$d') >"$work/whole.log"
(cd "$work" && told "$top/analyse" --sarif one/src/a.c | sed '$d') >"$work/part.log"
same "$(prints "$work/whole.log")" "$(prints "$work/part.log")" "fingerprints by the whole name of a file"
sed -i '0,/n = 1/s//n = 2/' "$work/two/src/a.c"
(cd "$work/two" && told "$top/analyse" --sarif src/a.c | sed '$d') >"$work/two.log"
if [ "$(prints "$work/one.log")" = "$(prints "$work/two.log")" ]; then exit 1; fi

# Refusals at their places, marks that cannot be followed, and names that are no UTF-8.
printf '# 7 "a b.h"\nint\n=;\n' >"$work/refused.c"
refusal='a b.h:8:1: error: no source of the language goes on so [Syntax]'
same "$refusal"$'\nstatus 2' "$(told "$top/analyse" --preprocessed "$work/refused.c")" "a refusal"
grep -q '^analyse: Syntax: docs/LANGUAGE.md' "$work/err" && echo "where more of it stands is told"
for command in waits ranges; do
    same "$refusal"$'\nstatus 2' \
        "$(told "$top/analyse" --preprocessed "--$command" "$work/refused.c")" "a refusal of $command"
done
printf '# 99999999999 "a.h"\nint n;\n' >"$work/broken.c"
same "status 10" "$(told "$top/analyse" --preprocessed "$work/broken.c")" "a broken mark"

# A log tells of a refusal, at its place or at none, and has no results; the line goes to standard error.
notified() { # LOG
    python3 -c 'import json, sys
run = json.load(open(sys.argv[1]))["runs"][0]
told = run["invocations"][0]["toolExecutionNotifications"]
at = [it["physicalLocation"] for it in told[0]["locations"]]
print(len(told), told[0]["descriptor"]["id"], *[it["artifactLocation"]["uri"] for it in at],
      *[value for it in at for _, value in sorted(it["region"].items())], len(run["results"]))' "$1"
}
printf '# 99999999999 "a.h"\nint\n=;\n' >"$work/marks.c"
printf '%1048577s' '' >"$work/long.c"
printf 'int f(void) { return ; }\n' >"$work/function.c"
for row in "refused.c:Syntax a%20b.h 1 8" "marks.c:Syntax" "long.c:Limit source 1048576" \
    "function.c:Mismatch $work/function.c 21 15 1"; do
    told "$top/analyse" --preprocessed --sarif "$work/${row%%:*}" >"$work/log"
    same "status 2" "$(tail -n 1 "$work/log")" "the status of the log of a refusal, ${row%%:*}"
    grep -q '^[^ ].*: error: .* \[' "$work/err"
    sed -i '$d' "$work/log"
    python3 "$here/sarif.py" "$work/log"
    same "1 ${row#*:} 0" "$(notified "$work/log")" "the log of a refusal, ${row%%:*}"
done
printf 'int n;\n__task(1) void t(void) { n = 1 / n; }\n' >"$work/"$'n\xff.c'
same "$work/"$'n\xff.c:2:32: warning: the divisor may be zero [DIV]\nalarms 1\nstatus 1' \
    "$(told "$top/analyse" "$work/"$'n\xff.c')" "a name that is no UTF-8"

# A preprocessor that fails, and one that is not there.
printf '#error no\n' >"$work/error.c"
same "status 9" "$(told "$top/analyse" "$work/error.c")" "a preprocessor that fails"
grep -q 'error.c:1:' "$work/err" && echo "its message is told"
same "status 9" "$(CC=$work/none told "$top/analyse" "$work/error.c")" "a preprocessor that is not there"

# Several files, each by itself: each has its answer, and the greatest status counts.
printf 'int n;\n' >"$work/none.c"
same "$refusal"$'\nalarms 0\nstatus 2' \
    "$(told "$top/analyse" --each --preprocessed "$work/refused.c" "$work/none.c")" "two files, of which one is refused"
same $'alarms 0\nalarms 0\nstatus 0' \
    "$(told "$top/analyse" --each "$work/none.c" "$work/none.c" --workers 2 17)" "a file twice"
same $'alarms 0\nstatus 9' "$(told "$top/analyse" --each "$work/error.c" "$work/none.c")" "a file behind one that fails"

# A byte 13 with no byte 10 behind it is told of, and others are not. What a pipe gives beyond the limit is not lost.
printf '# 7 "a.h"\nint n;\r\nint k;\rint l;\n' >"$work/return.c"
same $'alarms 0\nstatus 0' "$(told "$top/analyse" --preprocessed "$work/return.c")" "a byte 13"
grep -q '^analyse: a.h:8:1: a byte 13 stands in this line' "$work/err"
printf '# 7 "a.h"\nint n;\r\nint k; // a\rint l;\n' >"$work/return.c"
same $'a.h:8:8: error: here begins no token, comment or blank of the language [Lexical]\nstatus 2' \
    "$(told "$top/analyse" --preprocessed "$work/return.c")" \
    "a byte 13 in a comment"
printf 'int n;\r\n__task(1) void t(void) { n = 1; }\r\n' >"$work/returns.c"
same $'alarms 0\nstatus 0' "$(told "$top/analyse" "$work/returns.c")" "bytes 13 and 10"
if grep 'a byte 13' "$work/err"; then exit 1; fi
{ printf '#define N n\nint N;\n' && head -c 16777216 /dev/zero | tr '\0' '\n'; } >"$work/long.c"
same $'alarms 0\nstatus 0' "$(told "$top/analyse" "$work/long.c")" "a long file that is short behind the preprocessor"
same $'/dev/stdin: error: the source is larger than what is analysed [Limit source 1048576]\nstatus 2' \
    "$(told "$top/analyse" /dev/stdin < <(cat "$work/long.c"))" "a long pipe"

# Structures that are packed are refused, and other directives are told of once.
printf '# 7 "a.h"\n#pragma once\nint n;\n #pragma pack(1)\n' >"$work/pack.c"
wanted='a.h:9:1: error: #pragma pack moves the members of structures, '
wanted+=$'and the report takes each at its natural place [Pragma]\nstatus 2'
same "$wanted" "$(told "$top/analyse" --preprocessed "$work/pack.c")" "packed structures"
same $'4:1 refused Pragma\nstatus 2' "$(told "$top/analyse" --plain --preprocessed "$work/pack.c")" "packed, plain"
printf '# 7 "a.h"\n#pragma once\n#pragma interrupt t\n#pragma GCC diagnostic push\n#pragma interrupt u\nint n;\n' \
    >"$work/pragmas.c"
same $'alarms 0\nstatus 0' "$(told "$top/analyse" --preprocessed "$work/pragmas.c")" "other directives"
grep -q '^analyse: a.h:8:1: #pragma interrupt, 2 times in all: the analyser skips it' "$work/err"
[ "$(grep -c '#pragma' "$work/err")" = 1 ]

# What does not run, where a look at the words is sure of it, and nothing where it is not.
printf '# 7 "a.h"\nint n;\n__task(9) void isr(void) { n = 1; }\n__task(1) void loop(void) { while (1) __yield(); }\n' \
    >"$work/once.c"
same $'alarms 0\nstatus 0' "$(told "$top/analyse" --preprocessed "$work/once.c")" "a task that runs once"
grep -q '^analyse: a.h:8:1: the task isr has no loop' "$work/err"
printf 'int n;\nvoid turns(void) {\n  for (;;) { switch (n) { case 0: break; } } }\n%s\n%s\n' \
    'int main(void) { n = 1; turns(); return 0; }' '__task(1) void t(void) { n = 2; }' >"$work/endless.c"
same $'alarms 0\nstatus 0' "$(told "$top/analyse" "$work/endless.c")" "a main that does not end"
grep -q "^analyse: $work/endless.c:3:1: main goes on here for ever" "$work/err"
for body in 'if (n) turns();' 'do { n = 0; } while (n);' 'while (1) { if (n) break; }' 'while (n) { }' \
    'for (;;) { return 0; }' \
    'if (n) do { n++; } while (1);' 'if (n) return 1; while (1) { }' 'for (n = 0; n < 9; n++) { while (1) { break; } }'; do
    printf 'volatile int n;\nvoid turns(void) { for (;;) { } }\nint main(void) { %s return 0; }\n%s\n%s\n' "$body" \
        '__task(9) void a(void) { while (n) n = 0; }' '__task(1) void b(void) { while (1) __yield(); }' >"$work/ends.c"
    told "$top/analyse" "$work/ends.c" >"$work/out"
    tail -n 1 "$work/out" | grep -q '^status [01]$'
    if grep -E 'at most once|for ever' "$work/err"; then exit 1; fi
done
echo "what does not run is told where it is sure"

# The further refusals of a source are told as guesses, in the order of their lines, and none that comes of another one:
# neither of a type that is refused nor of a name that is told of once. What an accepted source has is as ever.
cat >"$work/all.c" <<'SOURCE'
#define LIMIT 10
typedef struct { unsigned ready : 1; } flags_t;
flags_t flags;
int level, share;
void work(int n)
{
    for (int i = 0; i < n; i++) {
        if (i > LIMIT) goto out;
        flags.ready = 1;
        share = n ?: level;
    }
    level = missing + 1;
    level = missing + 2;
}
__task(1) void t(void) { work(3); __asm__("nop"); level = level / share; }
SOURCE
wanted=$'15:43: error: [Lexical]\n2:33: note: a guess: a bit-field [Syntax]\n8:24: note: a guess: `goto` [Unsupported]\n'
wanted+=$'10:20: note: a guess: `?:` without its middle [Syntax]\n12:13: note: a guess: [Undeclared]\nstatus 2'
same "$wanted" "$(told "$top/analyse" --all-refusals "$work/all.c" | sed "s|^$work/all.c:||" |
    sed -E 's/(error|guess): [^:[]*(: ([^:]|:[^ ])*)?(: .*)? (\[[A-Za-z]+\])$/\1\2 \5/; s/(error|guess) \[/\1: [/')" "all refusals"
same "$(told "$top/analyse" "$work/all.c" | head -n 1)"$'\nstatus 2' \
    "$(sed '/^int level/s/;/; }/' "$work/all.c" >"$work/brackets.c" &&
        told "$top/analyse" --all-refusals "$work/brackets.c" | sed 's/brackets/all/')" "no guess where brackets do not match"
grep -q '^analyse: no further refusals can be told' "$work/err"
same $'alarms 0\nstatus 0' "$(told "$top/analyse" --all-refusals "$work/none.c")" "all refusals of an accepted source"
for word in --plain --sarif --check; do
    same "status 3" "$(told "$top/analyse" --all-refusals "$word" "$work/all.c")" "all refusals with $word"
done

# Words that are no command: what may be wrong with them is told.
same "status 3" "$(told "$top/analyse" "$work/refused.c" --sarif)" "an option behind the file"
grep -q 'stands before FILE' "$work/err"
same "status 3" "$(told "$top/analyse" "$work/refused.c" 17 "$work/error.c")" "a file behind the words"
grep -q 'stands before 17' "$work/err"
same "status 3" "$(told "$top/analyse" --sarif "$work/refused.c" --json)" "two forms"
same "status 3" "$(told "$top/analyse" --waits --ranges "$work/refused.c")" "two answers"
same "status 3" "$(told "$top/analyse" --sarif --ranges "$work/refused.c")" "a log of ranges"
same "status 3" "$(told "$top/analyse" --sarif --certify "$work/refused.c")" "a log of certify"
same "status 3" "$(told "$top/analyse" --certify --ranges "$work/refused.c")" "a certificate and ranges"
same "status 3" "$(told "$top/analyse" --sarif --check "$work/refused.c")" "a log of a certificate"
same "status 3" "$(told "$top/analyse" --certify --check "$work/refused.c")" "two answers on certificates"
same "status 3" "$(told "$top/analyse" --each --certify "$work/refused.c" "$work/refused.c")" "certificates of two files"
same "status 3" "$(told "$top/analyse" -D A --check "$work/refused.c")" "a certificate that is preprocessed"
for word in --json --history --workers=2 17; do
    same "status 3" "$(told "$top/analyse" --waits "$work/refused.c" "$word")" "waits with $word"
done
echo "all as wanted"
