#!/usr/bin/env bash
# How long the program takes on sources that are made to be slow, and at each limit and one past it.
#
#     benches/hostile.sh PROGRAM [NAME..]
#
# PROGRAM is the built analyser (./analyse --program), which reads a source from its standard input. A row says the
# source, its bytes, the processor seconds and the MB of one run with a stack of 8 MB, and the last line of the answer. A run is ended after
# LIMIT processor seconds, 300 where it is not set. GNU time has to be installed.
set -eu
[ $# -ge 1 ] || { sed -n 's/^#     /usage: /p' "$0"; exit 2; }

program=$(readlink -f "$1")
shift
limit=${LIMIT:-300}
work=$(mktemp -d)
trap 'rm -rf "$work"' EXIT
cd "$work"
ulimit -s 8192

# TEXT with # for the numbers from 0 on.
each() { # COUNT TEXT
    awk -v count="$1" -v text="$2" 'BEGIN {
        for (i = 0; i < count; i++) { line = text; gsub(/#/, i, line); print line }
    }'
}

# TEXT so many times, in one line.
times() { # COUNT TEXT
    awk -v count="$1" -v text="$2" 'BEGIN { for (i = 0; i < count; i++) printf "%s", text; print "" }'
}

# One task in a loop: each global takes the value of the next, so a value goes back by one global in each turn.
chain() { # GLOBALS
    each "$1" 'int g#;'
    echo '__task(1) void turn(void) { while (1) {'
    awk -v count="$1" 'BEGIN { for (i = 0; i + 1 < count; i++) printf "g%d = g%d;\n", i, i + 1 }'
    echo "g$(($1 - 1)) = 1; __yield(); } }"
}

# The same where each global is handed on by a task of its own.
relay() { # TASKS
    each "$1" 'int g#;'
    awk -v count="$1" 'BEGIN {
        for (i = 0; i < count; i++)
            printf "__task(%d) void t%d(void) { while (1) { g%d = g%d + 1; __yield(); } }\n", i % 8 + 1, i, i, (i + 1) % count
    }'
}

# Tasks in each of which any of the mutexes may be held.
may_lock() { # TASKS MUTEXES
    each "$2" '__mutex m#;'
    echo 'int shared;'
    for ((t = 0; t < $1; t++)); do
        echo "__task(1) void t$t(void) {"
        each "$2" 'if (__input(0, 1)) __lock(m#);'
        echo 'shared = shared + 1;'
        echo '}'
    done
}

# Tasks in each of which any of the mutexes may be held, and then so many stores: each store adds an entry for each set of
# mutexes.
held_stores() { # TASKS MUTEXES STORES
    each "$2" '__mutex m#;'
    each "$3" 'int s#;'
    for ((t = 0; t < $1; t++)); do
        echo "__task(1) void t$t(void) {"
        each "$2" 'if (__input(0, 1)) __lock(m#);'
        each "$3" 's# = 1;'
        echo '}'
    done
}

# A relay beside so many constants, each of which is a threshold, and globals that nothing touches.
idle_relay() { # TASKS CONSTANTS GLOBALS
    each "$3" 'int idle#;'
    printf 'int table[%d] = {' "$2"
    awk -v count="$2" 'BEGIN { for (i = 0; i < count; i++) printf "%d,", 3 * i + 1 }'
    echo '};'
    relay "$1"
}

# Counters without a bound, each under a mutex, in many tasks.
counters() { # TASKS MUTEXES
    each "$2" '__mutex m#;'
    each "$2" 'int c#;'
    for ((t = 0; t < $1; t++)); do
        echo "__task($((t % 4 + 1))) void t$t(void) { while (1) {"
        each "$2" '__lock(m#); c#++; __unlock(m#);'
        echo '__yield(); } }'
    done
}

# A counter without a bound beside a table of constants, each of which is a threshold.
constants() { # CONSTANTS
    printf 'int counter, table[%d] = {' "$1"
    awk -v count="$1" 'BEGIN { for (i = 0; i < count; i++) printf "%d,", 3 * i + 1 }'
    echo '};'
    echo '__task(1) void count(void) { while (1) { counter++; if (table[0] > 5) counter = 0; __yield(); } }'
}

# A table of constants that nothing counts past.
table() { # CONSTANTS
    printf 'int value, table[%d] = {' "$1"
    awk -v count="$1" 'BEGIN { for (i = 0; i < count; i++) printf "%d,", 3 * i + 1 }'
    echo '};'
    echo '__task(1) void look(void) { value = table[__input(0, 9)]; }'
}

# Globals, and one task with so many assignments.
globals() { # GLOBALS ASSIGNMENTS
    each "$1" 'int g#;'
    echo '__task(1) void set(void) {'
    awk -v count="$1" -v steps="$2" 'BEGIN { for (i = 0; i < steps; i++) printf "g%d = %d;\n", i * 7 % count, i % 3 }'
    echo '}'
}

# A task that calls one function so many times.
paths() { # CALLS
    echo 'int g; void f(void) { g = 1; }'
    echo '__task(1) void t(void) {'
    times "$1" 'f();'
    echo '}'
}

# Statements in one task.
statements() { # COUNT
    echo 'int g; __task(1) void t(void) {'
    times "$1" 'g=1;'
    echo '}'
}

loops() { # DEPTH
    echo 'int g; __task(1) void t(void) {'
    awk -v depth="$1" 'BEGIN {
        for (i = 0; i < depth; i++) printf "int i%d; for (i%d = 0; i%d < 10; i%d++) {", i, i, i, i
        printf "g = 1;"
        for (i = 0; i < depth; i++) printf "}"
        print "}"
    }'
}

source_of() { # NAME
    case $1 in
        chain_100) chain 100 ;;
        chain_300) chain 300 ;;
        chain_1000) chain 1000 ;;
        relay_32) relay 32 ;;
        may_lock_2_10) may_lock 2 10 ;;
        may_lock_8_10) may_lock 8 10 ;;
        held_stores_4_7_45) held_stores 4 7 45 ;;
        held_stores_8_7_45) held_stores 8 7 45 ;;
        idle_relay_32_500_3000) idle_relay 32 500 3000 ;;
        loops_150) loops 150 ;;
        counters_32_16) counters 32 16 ;;
        constants_1000) constants 1000 ;;
        constants_10000) constants 10000 ;;
        table_40000) table 40000 ;;
        work_at) globals 4096 650 ;;
        loops_8) loops 8 ;;
        parentheses_90000) echo "int g = $(times 90000 '(')1$(times 90000 ')');" ;;
        blocks_90000) echo "void f(void) {$(times 90000 '{')$(times 90000 '}')}" ;;
        pointers_190000) echo "int $(times 190000 '*')p;" ;;
        source_at) head -c 1048576 /dev/zero | tr '\0' ' ' ;;
        source_past) head -c 1048577 /dev/zero | tr '\0' ' ' ;;
        tokens_at) times 200000 ';' ;;
        tokens_past) times 200001 ';' ;;
        tasks_at) each 32 '__task(1) void t#(void) {}' ;;
        tasks_past) each 33 '__task(1) void t#(void) {}' ;;
        mutexes_at) each 16 '__mutex m#;' ;;
        mutexes_past) each 17 '__mutex m#;' ;;
        paths_at) paths 4095 ;;
        paths_past) paths 4096 ;;
        cells_at) echo 'char big[65536]; __task(1) void t(void) { big[__input(0, 65535)] = 1; }' ;;
        cells_past) echo 'char big[65536], one; __task(1) void t(void) { one = 1; }' ;;
        abstract_at) globals 4096 1 ;;
        abstract_past) globals 4097 1 ;;
        nodes_at) statements 6666 ;;
        nodes_past) statements 6667 ;;
        work_past) globals 4096 651 ;;
        *) echo "no source is named $1" >&2; return 1 ;;
    esac
}

names=${*:-chain_100 chain_300 chain_1000 relay_32 may_lock_2_10 may_lock_8_10 held_stores_4_7_45 \
    held_stores_8_7_45 idle_relay_32_500_3000 loops_150 counters_32_16 constants_1000 constants_10000 table_40000 loops_8 parentheses_90000 blocks_90000 pointers_190000 source_at \
    source_past tokens_at tokens_past tasks_at tasks_past mutexes_at mutexes_past paths_at paths_past cells_at \
    cells_past abstract_at abstract_past nodes_at nodes_past work_at work_past}

printf '%-22s %8s %9s %5s  %s\n' source bytes seconds MB answer
for name in $names; do
    source_of "$name" > input
    (ulimit -t "$limit" && exec env time -o told -f '%U %S %M' "$program" analyse) < input > out 2> err || true
    answer=$(tail -n 1 out)
    tail -n 1 told | awk -v name="$name" -v bytes="$(wc -c < input)" -v answer="${answer:-ended}" '{
        printf "%-22s %8d %9.2f %5.0f  %s\n", name, bytes, $1 + $2, $3 / 1024, answer
    }'
done
