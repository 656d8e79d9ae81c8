#!/usr/bin/env bash
# Opens pages in a browser: benches/page.sh FOLDER [CHROMIUM]. It makes with ./analyse the pages of three examples, one
# of which has circular waits, of a source with an assumption of each kind, and of one that is full of tags, in its
# comments, its name and the reasons for which alarms are suppressed; and FOLDER then has them and a picture of each in light and dark. Of each it sees that the
# browser's console says nothing, that the page as the browser has read it has no script and no image, that nothing was
# loaded, and that each link leads to a line that is there. Then it times a page of some 5,000 lines and 500 alarms and
# one of 10,000 alarms, by the clock: how long each takes to make, with its lines and its log, beside the lines alone, and
# to open beside an empty page, in turn. CHROMIUM is `chromium`, as Debian has it.
set -eu
top=$(readlink -f -- "$(dirname -- "${BASH_SOURCE[0]}")/..")
mkdir -p -- "$1"
folder=$(readlink -f -- "$1")
chromium=${2:-chromium}
work=$(mktemp -d)
trap 'rm -rf -- "$work"' EXIT

browse() { # WORDS..
    timeout 120 "$chromium" --headless --no-sandbox --disable-gpu --user-data-dir="$work/profile" --enable-logging=stderr \
        --v=0 "$@" 2>"$work/told"
}

look() { # PAGE
    local page=$folder/$1.html
    browse --dump-dom "file://$page" >"$work/dom"
    ! grep -a 'CONSOLE' "$work/told" || { echo "$1: the console says this" && return 1; }
    ! grep -aiE '<(script|img|iframe|object|embed|link|base|form|svg)[ >/]' "$work/dom" ||
        { echo "$1: the page has this element" && return 1; }
    ! grep -aoiE '<[^>]* (on[a-z]+|src|style)=[^>]*>' "$work/dom" || { echo "$1: the page has this attribute" && return 1; }
    ! comm -23 <(grep -aoE "href=.#[^'\"]*" "$work/dom" | cut -c 8- | sort -u) \
        <(grep -aoE " id=['\"][^'\"]*" "$work/dom" | cut -c 6- | sort -u) | grep . ||
        { echo "$1: these links lead nowhere" && return 1; }
    browse --window-size=1100,1400 --screenshot="$folder/$1.png" "file://$page"
    browse --window-size=1100,1400 --force-dark-mode --enable-features=WebContentsForceDark:inversion_method/none \
        --blink-settings=preferredColorScheme=0 --screenshot="$folder/$1-dark.png" "file://$page"
    echo "$1: $(wc -c <"$page") bytes, no message, no element but its own"
}

make_page() { # NAME WORDS..
    "$top/analyse" --html="$folder/$1.html" "${@:2}" >/dev/null || [ $? = 1 ]
}

make_page tank "$top/examples/tank.c"
make_page uart_driver "$top/examples/uart_driver.c"
make_page lock_order "$top/examples/lock_order.c"
cat >"$work/open.c" <<'SOURCE'
#pragma speed
int x, r, c;
struct S { int a[2]; int b[2]; } s;
struct L { int i; long long l; };
enum E { OFF, ON } e;
const int limit = 3;
int *restrict q;
int abs(int v) { return 5; }
int f(void) { x = 5; return 1; }
__task(1) void t(void) {
    int n; if (__input(0, 1)) n = 1; r = n;
    x += f();
    int *p = s.a; p = p + 2; *p = 1;
    { int v = 1; p = &v; } r = *p;
    p = (int *)&limit; *p = 4;
    r = (signed char)__input(0, 300);
    e = __input(-1, 1); r = sizeof(struct L);
    r = 1 / __input(0, 3);
}
SOURCE
make_page open --all-assumptions "$work/open.c"
for kind in CONST ENUM IMPLEMENTATION LAYOUT LIFETIME MEMBER ORDER PRAGMA RESERVED RESTRICT UNSET; do
    grep -q "^<p class='open'>$kind at column [0-9]*: " "$folder/open.html" || { echo "open: no $kind is marked" && exit 1; }
done
make_page some "$work/open.c"
! grep -q '>IMPLEMENTATION at column' "$folder/some.html" || { echo "open: IMPLEMENTATION is marked" && exit 1; }
hostile="$work/a<b>&\"'<img src=x onerror=alert(1)>.c"
cat >"$hostile" <<'SOURCE'
/* </code></div><script>alert(1)</script><img src=x onerror="alert(1)"> */
char text[] = { '<', '"', '>', '&' }; // </style></title><script>alert('2')</script><svg onload=alert(3)>
int level, shown;
__task(2) void drain(void) { level = __input(0, 4); /* --><iframe src=//x> */ }
__task(1) void show(void) { if (level > 0) shown = 100 / level; /* &lt;script&gt; */ }
// cedratcleat: DIV </p></code><script>alert(5)</script><img src=x onerror='alert(6)'>
__task(3) void last(void) { shown = 1 / __input(0, 1); }
SOURCE
"$top/analyse" --sarif "$hostile" >"$work/log" || [ $? = 1 ]
python3 - "$work/log" >"$work/old<script>alert(7)<.sarif" <<'PYTHON'
import json, sys
log = json.load(open(sys.argv[1]))
why = "</td></tr></table><script>alert(8)</script>\"'<svg onload=alert(9)>\x17\x1b"
log["runs"][0]["results"][0]["suppressions"] = [{"kind": "external", "justification": why}]
print(json.dumps(log))
PYTHON
make_page hostile --baseline "$work/old<script>alert(7)<.sarif" "$hostile"
for name in tank uart_driver lock_order open hostile; do look "$name"; done
for number in 1 2 3 5 7 8 9; do
    grep -aqF "alert($number)" "$work/dom" || grep -aqF "alert('$number')" "$work/dom" ||
        { echo "hostile: the text with the number $number is not there" && exit 1; }
done

# Four tasks that divide in each tenth line, and four that divide in each line.
python3 - "$work" <<'PYTHON'
import sys
for name, lines, every in (("long", 5000, 10), ("many", 10000, 1)):
    tasks = []
    for task in range(4):
        part = range(task * lines // 4, (task + 1) * lines // 4)
        body = "\n".join(f"y = 1 / x; /* {at} */" if at % every == 0 else f"/* {at} */" for at in part)
        tasks.append(f"__task({task + 1}) void t{task}(void) {{\nint x, y; x = __input(0, 1);\n{body}\n}}\n")
    with open(f"{sys.argv[1]}/{name}.c", "w", encoding="ascii") as it:
        it.writelines(tasks)
PYTHON
# Seconds by the clock.
seconds() { # COMMAND..
    local TIMEFORMAT=%R
    { time "$@" >"$work/out" 2>/dev/null || true; } 2>&1
}

least() { # COMMAND..
    for _ in 1 2 3; do seconds "$@"; done | sort -n | head -n 1
}

median() { # FILE
    sort -n -- "$1" | awk '{ of[NR] = $1 } END { printf "%.2f", (of[int((NR + 1) / 2)] + of[int(NR / 2) + 1]) / 2 }'
}

echo '<!doctype html><title>empty</title>' >"$work/empty.html"
for name in long many; do
    lines=$(least "$top/analyse" "$work/$name.c")
    make_page "$name" "$work/$name.c"
    made=$(least "$top/analyse" --sarif="$work/$name.sarif" --html="$folder/$name.html" "$work/$name.c")
    : >"$work/opens" && : >"$work/empty"
    for _ in 1 2 3 4 5 6 7 8 9 10; do
        seconds browse --dump-dom "file://$work/empty.html" >>"$work/empty"
        seconds browse --dump-dom "file://$folder/$name.html" >>"$work/opens"
    done
    echo "$name: lines, log and page in $made seconds beside $lines for the lines alone, the page has" \
        "$(wc -c <"$folder/$name.html") bytes and opens in $(median "$work/opens") beside" \
        "$(median "$work/empty") for an empty page (medians of ten rounds in turn)"
done
