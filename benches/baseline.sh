#!/usr/bin/env bash
# Compares reports with earlier ones: benches/baseline.sh [--unproved]. It needs gcc and python3.
#
# Lines put in, a local that is renamed in another function, and a folder that moves leave all alarms unchanged; an alarm
# more is new, and one that is gone is absent, with its old place; of equal lines the last one is. Comments suppress alarms
# of their class in their line, or alone in the line below; those that say no reason are refused at their place, and those
# that suppress nothing are told. What a log suppresses with a justification stays so. Pages and circular waits tell all
# this too. Logs that are none are refused, and hostile ones take a time that grows with their length. Each log is checked
# against the standard.
set -eu
here=$(cd "$(dirname "$0")" && pwd)
top=${here%/*}
how=("$@")
work=$(mktemp -d)
trap 'rm -rf -- "$work"' EXIT

# What `analyse` writes with these words, and its status behind it.
told() { # WORDS..
    local status=0
    "$top/analyse" "${how[@]}" "$@" 2>"$work/err" || status=$?
    echo "status $status"
}

same() { # WANTED GOT WHAT
    if [ "$1" != "$2" ]; then
        printf '%s: wanted\n%s\nand not\n%s\n' "$3" "$1" "$2"
        cat "$work/err"
        exit 1
    fi
    echo "$3: as wanted"
}

# The counts of a comparison, and its status.
counted() { # SOURCE
    told --baseline "$work/old" --sarif="$work/new" "$1" | tail -n 2
    python3 "$here/sarif.py" "$work/new" >"$work/checked" || { cat "$work/checked" >&2 && exit 1; }
}

# The states of the results of a log, with their rules and lines, and how they are suppressed.
states() { # LOG
    python3 -c 'import json, sys
for it in json.load(open(sys.argv[1]))["runs"][0]["results"]:
    line = it["locations"][0]["physicalLocation"]["region"]["startLine"]
    print(it["ruleId"], line, it.get("baselineState", "-"),
          *["%s:%s" % (s["kind"], s["justification"]) for s in it["suppressions"]])' "$1"
}

mkdir "$work/here"
cd "$work/here"
cat >pump.c <<'END'
int shown, other;
void show(int n) {
    shown = 100 / n;
    shown = 7 % n;
}
void twice(int step) {
    other = 1 / step;
    other = 1 / step;
}
__task(1) void main_loop(void) {
    int i;
    for (i = 0; i < 3; i++) {
        show(__input(0, 4));
        twice(__input(0, 1));
    }
}
END
told --sarif pump.c | sed '$d' >"$work/old"
python3 "$here/sarif.py" "$work/old" >"$work/checked"
same $'new 0, unchanged 4, absent 0, suppressed 0\nstatus 0' "$(counted pump.c)" "the same source"
same $'DIV 3 unchanged\nDIV 4 unchanged\nDIV 7 unchanged\nDIV 8 unchanged' "$(states "$work/new")" "its log"
cp pump.c kept.c
sed -i '1i /* three */\n/* lines */\n/* more */' pump.c
same $'new 0, unchanged 4, absent 0, suppressed 0\nstatus 0' "$(counted pump.c)" "three lines put in"
sed 's/\bi\b/index/g; s/\bstep\b/by/g' kept.c | sed '7,8s/\bby\b/step/g; s/twice(int by)/twice(int step)/' >pump.c
same $'new 0, unchanged 4, absent 0, suppressed 0\nstatus 0' "$(counted pump.c)" "a local renamed in another function"
mkdir "$work/there"
cp kept.c "$work/there/pump.c"
cd "$work/there"
same $'new 0, unchanged 4, absent 0, suppressed 0\nstatus 0' "$(counted pump.c)" "a folder that moved"
cd "$work/here"
sed 's/100 \/ n/100 \/ (n - 1)/' kept.c >pump.c
same $'new 1, unchanged 3, absent 1, suppressed 0\nstatus 1' "$(counted pump.c)" "a line that changed"
same $'DIV 3 new\nDIV 4 unchanged\nDIV 7 unchanged\nDIV 8 unchanged\nDIV 3 absent' "$(states "$work/new")" "its log"
mv "$work/new" "$work/next"
cp "$work/old" "$work/first"
mv "$work/next" "$work/old"
same $'new 0, unchanged 4, absent 0, suppressed 0\nstatus 0' "$(counted pump.c)" "that log as the next baseline"
cp kept.c pump.c
same $'new 1, unchanged 3, absent 1, suppressed 0\nstatus 1' "$(counted pump.c)" "the old line, which was absent"
cp "$work/first" "$work/old"
sed '7d' kept.c >pump.c
same $'new 0, unchanged 3, absent 1, suppressed 0\nstatus 0' "$(counted pump.c)" "one of two equal lines is gone"
same $'DIV 3 unchanged\nDIV 4 unchanged\nDIV 7 unchanged\nDIV 8 absent' "$(states "$work/new")" "the last of them is absent"
sed 's/100 \/ n/100 \/ (n - 1)/' kept.c >pump.c
wanted=$'pump.c:3:17: warning: the divisor may be zero [DIV]\npump.c:4:15: note: unchanged: the divisor may be zero [DIV]\n'
wanted+=$'pump.c:7:15: note: unchanged: the divisor may be zero [DIV]\npump.c:8:15: note: unchanged: the divisor may be zero [DIV]\n'
wanted+=$'alarms 4\nnew 1, unchanged 3, absent 1, suppressed 0\nstatus 1'
same "$wanted" "$(told --baseline "$work/old" pump.c)" "the lines of a comparison"

# What stands on the page of a comparison, from a line on to another: links as PLACE->LINE.
paged() { # FROM TO WORDS..
    told --html="$work/page" "${@:3}" >"$work/out"
    sed -E "s/<a href='#L([0-9]+)'>([^<]*)<\/a>/\2->\1/g; s/<\/t[dh]><t[dh][^>]*>/, /g; s/<p[^>]*>/; /g; s/<[^>]*>//g" \
        "$work/page" | sed -n "/^$1/,/^$2/p" | sed '/^$/d'
}
wanted=$'State, Number\nnew, 1\nunchanged, 3\nabsent, 1\nsuppressed, 0\nnew: 1\nClass, Place\nDIV, pump.c:3:17->3'
same "$wanted" "$(paged State DIV --baseline "$work/old" pump.c)" "the page of a comparison"
wanted=$'pump.c:3:17->3, DIV, the divisor may be zero; new\n; the divisor is -1 to 3 here, and the dividend is 100\n'
wanted+=$'; in main_loop (priority 1)\n; pump.c:3:20->3: main_loop reads 0 to 4 from n here\n'
wanted+=$'; pump.c:13:9->13: main_loop stores 0 to 4 to n here\n'
wanted+=$'; pump.c:13:9->13: an input, or a function that may end without return, gives 0 to 4 here\n'
wanted+=$'; pump.c:13:9->13: main_loop comes here by this call\npump.c:4:15->4, DIV, the divisor may be zero; unchanged'
same "$wanted" "$(paged pump.c:3:17-\>3,\ DIV,\ the pump.c:4 --baseline "$work/old" pump.c)" "how its alarms stand"
same "; DIV at column 17, new: the divisor may be zero" "$(paged '; DIV at' ''  --baseline "$work/old" pump.c | head -n 1)" \
    "how an alarm stands at its line"
same 0 "$(told --html="$work/page" pump.c >"$work/out" && grep -c 'new' "$work/page")" "no state without an old log"
sed 's/shown = 100/other = 3 \/ (other * 0); shown = 100/' kept.c >pump.c
hidden='places that no run reaches are new, so what is absent may stand behind an alarm that ends each run there'
wanted=$'State, Number\nnew, 1\nunchanged, 0\nabsent, 4\nsuppressed, 0\n; '"$hidden"
same "$wanted" "$(paged State '; places' --baseline "$work/old" pump.c)" "a page where errors are hidden"
grep -qx "analyse: $hidden" "$work/err"

# Comments.
cp kept.c pump.c
sed -i '3s/$/ \/* cedratcleat: DIV n is "never" 0 *\//; 8i // cedratcleat: DIV by the \\ data sheet' pump.c
wanted=$'pump.c:3:17: note: suppressed, n is "never" 0: the divisor may be zero [DIV]\npump.c:4:15: warning: the divisor may be zero [DIV]\n'
wanted+=$'pump.c:7:15: warning: the divisor may be zero [DIV]\n'
wanted+=$'pump.c:9:15: note: suppressed, by the \\ data sheet: the divisor may be zero [DIV]\nalarms 4\nsuppressed 2\nstatus 1'
same "$wanted" "$(told pump.c)" "comments suppress"
wanted=$'suppressed: 2\nClass, Place, Why\nDIV, pump.c:3:17->3, n is &quot;never&quot; 0\n'
wanted+=$'DIV, pump.c:9:15->9, by the \\ data sheet'
same "$wanted" "$(paged suppressed: 'DIV, pump.c:9' pump.c)" "what comments suppress, on a page"
same 1 "$(grep -c 'DIV at column 17, suppressed, n is &quot;never&quot; 0: the divisor' "$work/page")" "and at its line"
told --sarif pump.c | sed '$d' >"$work/log"
python3 "$here/sarif.py" "$work/log" >"$work/checked"
same $'DIV 3 - inSource:n is "never" 0\nDIV 4 -\nDIV 7 -\nDIV 9 - inSource:by the \\ data sheet' "$(states "$work/log")" \
    "the log tells why"
sed -i 's/^\(.*[%\/] \(n\|step\);\)$/\1 \/* cedratcleat: DIV all *\//' pump.c
same $'alarms 4\nsuppressed 4\nstatus 0' "$(told pump.c | tail -n 3)" "all alarms suppressed"
same $'alarms 4\nstatus 1' "$(told --plain pump.c | tail -n 2)" "the report knows nothing of comments"
printf '%s\n' '// cedratcleat: RACE no such alarm' 'int idle;' >>pump.c
told pump.c >"$work/out"
grep -q '^analyse: pump.c:18:1: this comment suppresses nothing: no RACE' "$work/err"
for comment in '/* cedratcleat: DIV */' '// cedratcleat:' '/* cedratcleat: NONE a reason */'; do
    { cat kept.c && printf '%s\n' "int last; $comment"; } >pump.c
    told pump.c >"$work/out"
    same $'pump.c:17:11: error: a comment that suppresses alarms names their class and says why [Suppression]\nstatus 2' \
        "$(cat "$work/out")" "the comment $comment"
    told --sarif pump.c | sed '$d' >"$work/log"
    python3 "$here/sarif.py" "$work/log" >"$work/checked"
    grep -q 'at pump.c:17:11' "$work/log"
done

# What a log suppresses.
cp kept.c pump.c
suppressed() { # SUPPRESSION..
    python3 -c 'import json, sys
log = json.load(open(sys.argv[1]))
log["runs"][0]["results"][0]["suppressions"] = [json.loads(it) for it in sys.argv[2:]]
print(json.dumps(log))' "$work/first" "$@" >"$work/old"
}
suppressed '{"kind":"external","justification":"seen by us"}'
same $'new 0, unchanged 3, absent 0, suppressed 1\nstatus 0' "$(counted pump.c)" "a suppression of the old log"
same "DIV 3 unchanged external:seen by us" "$(states "$work/new" | head -n 1)" "is kept"
suppressed '{"kind":"external","justification":"seen by \"us\"\n<b>\u0007\\"}'
wanted=$'suppressed: 1\nClass, Place, Why\nDIV, pump.c:3:17->3, seen by &quot;us&quot; &lt;b&gt;?\\'
same "$wanted" "$(paged suppressed: 'DIV, pump.c:3' --baseline "$work/old" pump.c)" "and told on a page"
suppressed '{"kind":"inSource","justification":"gone"}' '{"kind":"external","status":"rejected"}'
same $'new 0, unchanged 4, absent 0, suppressed 0\nstatus 0' "$(counted pump.c)" "a comment that is gone, and a proposal"
suppressed '{"kind":"external","justification":""}'
same "status 10" "$(told --baseline "$work/old" pump.c)" "a suppression that does not say why"
grep -q 'an external suppression of the old log has no justification' "$work/err"

# Circular waits stand so, too, in lines and on the page.
printf '%s\n' '__mutex m;' '__mutex n;' '__task(1) void a(void) { __lock(m); __lock(n); __unlock(n); __unlock(m); }' \
    '__task(1) void b(void) { __lock(n); __lock(m); __unlock(m); __unlock(n); }' >rings.c
told --sarif rings.c | sed '$d' >"$work/old"
sed -i '3i // cedratcleat: WAIT a never waits' rings.c
same $'new 0, unchanged 1, absent 0, suppressed 1\nstatus 0' "$(counted rings.c)" "waits of the old log"
sed -i 's/__lock(m); __unlock/; __lock(m); __unlock/' rings.c
wanted=$'new, 1\nunchanged, 0\nabsent, 1\nsuppressed, 1\nnew: 1\nClass, Place\nWAIT, rings.c:5:39->5\n'
wanted+=$'suppressed: 1\nClass, Place, Why\nWAIT, rings.c:4:37->4, a never waits'
same "$wanted" "$(paged new, 'WAIT, rings.c:4' --baseline "$work/old" rings.c)" "waits on the page of a comparison"
same 1 "$(grep -c 'WAIT at column 37, suppressed, a never waits: tasks may come to wait' "$work/page")" "and at their lines"

# What is no log of the analyser.
refused() { # CAUSE
    same "status 10" "$(told --baseline "$work/old" pump.c)" "$1"
    grep -qF "$1" "$work/err" || { cat "$work/err" && exit 1; }
}
: >"$work/old" && refused "is empty"
echo '{' >"$work/old" && refused "the old log is no JSON"
python3 -c 'print("[" * 100000 + "]" * 100000)' >"$work/old" && refused "the old log is no JSON"
echo '{"runs":[]}' >"$work/old" && refused "the old log is no log of one run with results"
sed 's/"Cedratcleat"/"Other"/' "$work/first" >"$work/old" && refused "the old log is of another tool"
sed 's/cedratcleat\/v1/cedratcleat\/v0/' "$work/first" >"$work/old" && refused "the old log has a result without a fingerprint"
head -c 67108865 /dev/zero >"$work/old" && refused "the old log has more than 67108864 bytes"

# Many results with one fingerprint.
python3 -c 'import json, sys
log = json.load(open(sys.argv[1]))
results = log["runs"][0]["results"]
log["runs"][0]["results"] = [results[0]] * 20000 + results[1:]
print(json.dumps(log))' "$work/first" >"$work/old"
TIMEFORMAT=%U
{
    time same $'new 0, unchanged 4, absent 19999, suppressed 0\nstatus 0' \
        "$(told --baseline "$work/old" pump.c | tail -n 2)" "20,000 equal fingerprints"
} 2>"$work/took"
# (processor seconds, and not the clock's)
[ "$(sed 's/[.,].*//; $!d' "$work/took")" -le 20 ] || { cat "$work/took" && exit 1; }
echo "all as wanted"
